function [fields, ends] = rp_fields(text)
% RP_FIELDS  The fields of a CSV text, and which of them end a line; none where it is no such text.
  found = regexp(text, sprintf('(?:"[^"]*(?:""[^"]*)*"|[^,\n"]*)[,\n]'), 'match');
  if sum(cellfun('length', found)) ~= numel(text)
    [fields, ends] = deal({}, []);
    return
  end
  ends = cellfun(@(it) it(end) == sprintf('\n'), found);
  fields = cellfun(@(it) it(1:end - 1), found, 'UniformOutput', false);
  quoted = strncmp(fields, '"', 1);
  fields(quoted) = cellfun(@(it) regexprep(it(2:end - 1), '""', '"'), fields(quoted), 'UniformOutput', false);
  fields(cellfun('isempty', fields)) = {''};
end
