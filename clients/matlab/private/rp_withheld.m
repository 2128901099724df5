function is_so = rp_withheld(text, pattern)
% RP_WITHHELD  Of the lines of a report with bounds, a row for each: whether the lower one is withheld, and the upper one.
  lines = regexp(strtrim(text), '\n', 'split');
  lines = lines(~cellfun('isempty', regexp(lines, pattern, 'once')));
  is_so = [~cellfun('isempty', regexp(lines, ' lower withheld ', 'once'))', ~cellfun('isempty', regexp(lines, ' upper withheld ', 'once'))'];
end
