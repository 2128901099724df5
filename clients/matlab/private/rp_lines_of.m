function text = rp_lines_of(fields)
% RP_LINES_OF  A line for each row of fields.
  [rows, columns] = size(fields);
  parts = cell(2 * columns, rows);
  parts(1:2:end, :) = fields';
  parts(2:2:end, :) = {','};
  parts(end, :) = {sprintf('\n')};
  text = [parts{:}];
end
