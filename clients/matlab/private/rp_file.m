function file = rp_file(name, heads, columns)
% RP_FILE  A file of these headers and columns, each a cell array of texts that are fields already.
  file = struct('name', name, 'text', rp_lines_of([rp_field(heads(:)'); horzcat(columns{:})]));
end
