function text = rp_whole(number, what)
% RP_WHOLE  A whole number as a word of a command.
  if ~isnumeric(number) || ~isscalar(number) || ~isreal(number) || number < 0 || number ~= fix(number) || (isfloat(number) && number > flintmax)
    error('rp:BadData', '%s is a whole number from 0 on', what);
  end
  text = sprintf('%d', number);
end
