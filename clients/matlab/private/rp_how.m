function how = rp_how(options, kind)
% RP_HOW  How numbers of a kind become decimals: 1 for prices, 2 for quantities. It is 'shortest', [] (the double itself), or how many
% decimal places are asked for, of the shortest decimal, or as {places} of the double itself.
  how = [];
  if strcmp(options.Numbers, 'shortest')
    how = 'shortest';
  end
  decimals = options.Decimals;
  if ~isempty(decimals)
    if ~isnumeric(decimals) || any(decimals < 0) || any(decimals > 6) || any(decimals ~= fix(decimals)) || numel(decimals) > 2
      error('rp:BadData', '''Decimals'' is a number from 0 to 6, or two: of prices and of quantities');
    end
    asked = decimals(min(kind, numel(decimals)));
    if isempty(how)
      how = {asked};
    else
      how = asked;
    end
  end
end
