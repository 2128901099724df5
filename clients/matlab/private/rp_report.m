function [found, rest] = rp_report(text)
% RP_REPORT  The items of a report on a table that analyse begins with: the table's size, and the axiom with its evidence.
  lines = rp_lines(text);
  first = lines{1};
  if numel(first) ~= 7 || ~strcmp(first{1}, 'observations')
    error('rp:Unreadable', 'the report begins with a line that is not known: %s', strjoin(first, ' '));
  end
  found = struct('observations', str2double(first{2}), 'goods', str2double(first{4}));
  found.places = [str2double(first{6}), str2double(first{7})];
  at = 2;
  if strcmp(lines{at}{1}, 'levels')
    at = at + 1;
  end
  found.garp = strcmp(lines{at}{2}, 'holds');
  [found.ranks, found.cycle] = deal([]);
  if found.garp
    found.ranks = rp_numbers(lines{at + 1}(2:end))';
  else
    found.cycle = rp_numbers(lines{at + 1}(2:end));
  end
  rest = lines(at + 2:end);
end
