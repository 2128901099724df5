function text = rp_ask(words, files, call)
% RP_ASK  The answer of a command, as the text of its report. FILES is a struct array with the fields name and text; CALL is one
% of rp.h, rp_answer where none is named. The text has a character for each byte.
  if exist('rp_mex', 'file') ~= 3
    error('rp:NotBuilt', 'the library is not built: call rp_build once; it compiles rp.c with rp_mex.c by the C compiler of mex');
  end
  if nargin < 3
    call = 'rp_answer';
  end
  as_bytes = @(texts) cellfun(@rp_bytes, texts, 'UniformOutput', false);
  [status, output, told] = rp_mex(as_bytes(words), as_bytes({files.name}), as_bytes({files.text}), call);
  text = char(output);
  told = strtrim(char(told));
  if status == 4
    rp_refuse(told, files);
  elseif status == 70
    error('rp:Stopped', 'the library stopped in the middle of the call, which no input is known to do');
  elseif status == 6
    error('rp:NoMemory', 'the library is out of memory');
  elseif status ~= 0 && status ~= 1
    error('rp:Failed', 'the library ended with status %d: %s', status, told);
  end
end
