function rp_refuse(told, files)
% RP_REFUSE  Raises the refusal of a file, as in 'rp: table.csv: ZeroPrice record 1 column 2', with what stands there and a hint.
  name = regexp(told, '^rp(?:-panel)?: ([\w-]+\.\w+): ', 'tokens', 'once');
  if isempty(name)
    name = '';
  else
    name = name{1};
  end
  said = regexprep(told, '^rp(?:-panel)?: (?:[\w-]+\.\w+: )?', '');
  fault = regexp(said, '^[A-Z]\w*(?=(?: (?:record|column|budget|menu|item) \d+)*$)', 'match', 'once');
  if isempty(fault)
    error('rp:Failed', 'the library refused the data, and said: %s', told);
  end
  where = rp_place(name, said, files);
  meant = fault;
  if strcmp(fault, 'BadNumber') && ~isempty(strfind(where, ', column e, '))
    meant = 'BadLevel';
  end
  error(['rp:Refused:', fault], '%s%s%s%s', said, where, rp_hint(meant), rp_shares(where));
end

function hint = rp_shares(where)
% What to do where a count of choices is a share.
  hint = '';
  if ~isempty(regexp(where, ' of choices\.csv, column n, value 0*\.\d*[1-9]', 'once'))
    hint = ' If you have shares, multiply them by 1000, or by another power of 10, and round them.';
  end
end

function where = rp_place(name, said, files)
% What stands at the record and the column of a refusal.
  where = '';
  if ~isempty(name)
    where = [' of ', name];
  end
  at = regexp(said, 'record (\d+) column (\d+)', 'tokens', 'once');
  own = find(strcmp({files.name}, name), 1);
  if isempty(at) || isempty(own)
    return
  end
  [fields, ends] = rp_fields(files(own).text);
  starts = [0, find(ends)] + 1;
  column = str2double(at{2});
  shown = rp_shown(fields{starts(1 + str2double(at{1})) + column - 1});
  heads = fields(1:starts(2) - 1);
  where = sprintf(' (row %s of %s, column %s, value %s)', at{1}, name, heads{column}, shown);
end
