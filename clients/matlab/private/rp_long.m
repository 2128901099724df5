function long = rp_long(t, key, options)
% RP_LONG  A long table as the long file that is asked about. It has the fields
%
%   keys, values    the names of what tells households apart, and of each a cell array of the values of each household
%   ids, rows       the id of each household, and its rows in t; behind them each row that has none that is taken
%   is_named        whether it is a household
%   is_pooled       whether a label stands twice among its rows
%   heads, cells    the file's columns behind that of the ids, and their fields, a row for each of t
%   names, places   the name of each column of the file, and its number in t
  if isstruct(t)
    heads = fieldnames(t)';
  else
    heads = t.Properties.VariableNames;
  end
  keys = key;
  if ischar(keys) || isa(keys, 'string')
    keys = cellstr(keys);
  end
  keys = keys(:)';
  is_key = iscellstr(keys) && ~isempty(keys) && all(ismember(keys, heads));
  goods = {};
  if is_key
    rest = setdiff(heads, keys, 'stable');
    goods = regexprep(rest(strncmp(rest, 'p_', 2)), '^p_', '');
  end
  if isempty(goods) || ~all(ismember(strcat('q_', goods), rest))
    error('rp:WrongColumns', 'wanted are p_NAME and q_NAME for each good and the key %s; there are %s', rp_told(key), strjoin(heads, ', '));
  end
  taken = keys(ismember(keys, [rp_panel_columns(), {'ccei', 'refusal'}]) & ~strcmp(keys, 'household'));
  if ~isempty(taken)
    error('rp:BadData', 'the answer has a column %s of its own: give that of the key another name', taken{1});
  end
  sides = {strcat('p_', goods), strcat('q_', goods)};
  texts = {rp_texts(rp_columns(t, sides{1}), 'prices', rp_how(options, 1)), rp_texts(rp_columns(t, sides{2}), 'quantities', rp_how(options, 2))};
  numbers = arrayfun(@(it) sprintf('%d', it), 1:numel(goods), 'UniformOutput', false);
  long = struct('heads', {[strcat('p_', numbers), strcat('q_', numbers)]}, 'names', {[keys(1), sides{:}]});
  if ismember('e', rest)
    texts{end + 1} = rp_texts(rp_thousandths(rp_columns(t, {'e'})), 'levels', []);
    [long.heads{end + 1}, long.names{end + 1}] = deal('e');
  end
  long.cells = horzcat(texts{:});
  [~, long.places] = ismember(long.names, heads);
  [ids, values] = rp_ids(t, keys, size(long.cells, 1));
  is_id = rp_is_id(ids);
  [long.ids, long.rows] = rp_apart(ids, is_id);
  first = cellfun(@(it) it(1), long.rows);
  long.is_named = is_id(first);
  long.keys = keys;
  long.values = cellfun(@(it) it(first), values, 'UniformOutput', false);
  long.is_pooled = false(size(long.rows));
  if ismember('obs', rest)
    labels = rp_key_texts(t.obs, 'obs');
    long.is_pooled = cellfun(@(it) rp_has_twice(labels(it)), long.rows);
  end
end

function name = rp_told(key)
% A key, or several, as they are told.
  name = '';
  if ischar(key)
    name = key;
  elseif iscellstr(key)
    name = strjoin(key(:)', ', ');
  end
end

function columns = rp_columns(t, names)
% Columns of a table beside each other: a matrix of doubles, or a cell array of texts.
  parts = cellfun(@(name) t.(name), names, 'UniformOutput', false);
  parts = cellfun(@(it) it(:), parts, 'UniformOutput', false);
  classes = unique(cellfun(@class, parts, 'UniformOutput', false));
  if numel(classes) > 1
    error('rp:BadData', 'columns of prices, and of quantities, are of one class: these are %s', strjoin(classes, ', '));
  end
  if numel(unique(cellfun('length', parts))) > 1
    error('rp:BadData', 'the columns %s are not of one length', strjoin(names, ', '));
  end
  columns = horzcat(parts{:});
end

function [ids, values] = rp_ids(t, keys, count)
% The id of each row: the text of its key, or of several as a record of CSV; empty where one is missing. And the keys as they are.
  [parts, values] = deal(cell(1, numel(keys)));
  for at = 1:numel(keys)
    [parts{at}, values{at}] = rp_key_texts(t.(keys{at}), keys{at});
    if numel(parts{at}) ~= count
      error('rp:BadData', 'the key %s has %d rows, and the prices %d', keys{at}, numel(parts{at}), count);
    end
  end
  ids = parts{1};
  if numel(keys) > 1
    is_whole = all(~cellfun('isempty', horzcat(parts{:})), 2);
    fields = cellfun(@rp_field, parts, 'UniformOutput', false);
    for at = 2:numel(fields)
      fields{at} = strcat(',', fields{at});
    end
    ids = strcat(fields{:});
    ids(~is_whole) = {''};
  end
end

function [texts, values] = rp_key_texts(column, name)
% The texts of a key without the blanks round them, empty where one is missing, and its values, each in a cell.
  if ischar(column)
    column = cellstr(column);
  end
  column = column(:);
  if iscellstr(column)
    [texts, values] = deal(column);
  elseif isnumeric(column) || islogical(column)
    values = num2cell(column);
    [own, ~, at] = unique(column);
    texts = arrayfun(@rp_key_text, own, 'UniformOutput', false);
    texts = reshape(texts(at), [], 1);
  elseif ismember(class(column), {'string', 'categorical'})
    values = arrayfun(@(it) it, column, 'UniformOutput', false);
    is_missing = ismissing(column);
    texts = repmat({''}, size(column));
    texts(~is_missing) = cellstr(column(~is_missing));
  else
    error('rp:BadData', 'the key %s has numbers or texts, and not %s', name, class(column));
  end
  texts = regexprep(texts, '^[ \t]+|[ \t]+$', '');
end

function text = rp_key_text(number)
% The text of a number that is a key: a whole one has no point.
  number = double(number);
  if isnan(number)
    text = '';
  elseif number == fix(number) && abs(number) <= flintmax
    text = sprintf('%d', number);
  else
    text = sprintf('%.17g', number);
  end
end

function is_so = rp_is_id(ids)
% Whether each is one that is taken: it is not empty, and has at most 256 bytes.
  [own, ~, at] = unique(ids);
  bytes = cellfun(@(it) numel(rp_bytes(it)), own);
  is_so = bytes > 0 & bytes <= 256;
  is_so = reshape(is_so(at), [], 1);
end

function [own, rows] = rp_apart(ids, is_id)
% The ids in the order in which they first come, with the rows of each; behind them each row that has none.
  [taken, none] = deal(find(is_id(:)), find(~is_id(:)));
  [own, rows] = deal(cell(0, 1));
  if ~isempty(taken)
    [names, first, at] = unique(ids(taken), 'first');
    [~, order] = sort(first(:));
    [~, rank] = sort(order);
    rank = rank(at(:));
    [~, by] = sort(rank);
    rows = mat2cell(taken(by), accumarray(rank, 1), 1);
    own = reshape(names(order), [], 1);
  end
  rows = [rows; num2cell(none)];
  own = [own; ids(none)];
end

function is_so = rp_has_twice(labels)
% Whether a label stands twice among some.
  labels = labels(~cellfun('isempty', labels));
  is_so = numel(unique(labels)) < numel(labels);
end
