function bytes = rp_bytes(text)
% RP_BYTES  The bytes of a text in UTF-8, as Octave has it already.
  if exist('OCTAVE_VERSION', 'builtin')
    bytes = uint8(text(:)');
  else
    bytes = unicode2native(text(:)', 'UTF-8');
  end
end
