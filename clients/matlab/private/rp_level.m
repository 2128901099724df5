function level = rp_level(word)
% RP_LEVEL  An index from 0 to 1 as the nearest double, and below 1 unless it is 1.
  parts = regexp(word, '/', 'split');
  level = str2double(parts{1});
  if numel(parts) == 2
    level = min(level / str2double(parts{2}), 1 - eps / 2);
  end
end
