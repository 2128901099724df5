function texts = rp_texts(numbers, what, how)
% RP_TEXTS  Numbers as decimals: doubles as HOW says (see RP_HOW), whole types and texts as they are. They are fields of a file.
  if isa(numbers, 'string')
    numbers = cellstr(numbers);
  end
  if iscellstr(numbers)
    texts = rp_field(numbers);
  elseif isinteger(numbers)
    texts = arrayfun(@(it) sprintf('%d', it), numbers, 'UniformOutput', false);
  elseif islogical(numbers)
    texts = rp_mex(double(numbers));
  elseif isa(numbers, 'double') && isreal(numbers) && ndims(numbers) == 2
    if isempty(how)
      texts = rp_mex(full(numbers));
    elseif ischar(how)
      texts = rp_mex(full(numbers), -1);
    elseif iscell(how)
      texts = rp_mex(full(numbers), how{1});
    else
      texts = rp_mex(full(numbers), how, true);
    end
  elseif isa(numbers, 'single')
    error('rp:BadData', '%s are of class single: say double(x), and round as you mean it', what);
  else
    error('rp:BadData', '%s are a matrix of real doubles or of a whole type, or a cell array of texts, and not of class %s', what, class(numbers));
  end
end
