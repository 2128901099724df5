function rows = rp_rows(long, which, words)
% RP_ROWS  The rows that the call of panels gives of some households of a long table, or of rows without one: of each its texts,
% with the record of a fault as the row of the table.
  [most_households, most_records] = deal(200, 5000);
  blocks = {};
  [block, records] = deal([], 0);
  for at = which(:)'
    block(end + 1) = at;
    records = records + numel(rp_deciding(long.rows{at}));
    if numel(block) >= most_households || records >= most_records
      blocks{end + 1} = rp_block(long, block, words);
      [block, records] = deal([], 0);
    end
  end
  if ~isempty(block)
    blocks{end + 1} = rp_block(long, block, words);
  end
  rows = vertcat(cell(0, 15), blocks{:});
end

function rows = rp_deciding(rows)
% The rows of a household that decide: with more than a table has it is refused for their number.
  rows = rows(1:min(end, 513));
end

function rows = rp_block(long, block, words)
% The rows of one call; of a household that is pooled nothing is asked.
  is_sent = ~long.is_pooled(block);
  sent = block(is_sent);
  rows = repmat({''}, numel(block), 15);
  rows(:, 1) = long.ids(block);
  rows(:, 13) = {'Pooled'};
  if isempty(sent)
    return
  end
  places = cellfun(@rp_deciding, long.rows(sent), 'UniformOutput', false);
  ids = repelem(rp_field(long.ids(sent)), cellfun('length', places));
  places = vertcat(places{:});
  file = rp_file('long.csv', [{'household'}, long.heads], {ids(:), rp_short(long.cells(places, :))});
  given = rp_answered(rp_ask(words, file, 'rp_panel'), long.ids(sent), long.is_named(sent), words);
  at = str2double(given(:, 14));
  given(~isnan(at), 14) = arrayfun(@(it) sprintf('%d', places(it)), at(~isnan(at)), 'UniformOutput', false);
  rows(is_sent, :) = given;
end

function cells = rp_short(cells)
% Another text in place of each that is long, as that of a double can be, which is refused for the same fault.
  long = find(cellfun('length', cells) > 60);
  for at = long(:)'
    parts = regexp(cells{at}, '^(-?)\d+(\.?)\d*$', 'tokens', 'once');
    if ~isempty(parts) && strcmp(parts{2}, '.') && any(regexprep(cells{at}, '^[^.]*\.\d{6}', '') ~= '0')
      cells{at} = [parts{1}, '0.', repmat('3', 1, 30)];
    end
  end
end

function rows = rp_answered(text, ids, is_named, words)
% The rows of a table that is one of these households, and then of the records of none; nothing else is taken for an answer.
  [fields, ends] = rp_fields(text);
  names = rp_panel_columns();
  width = numel(names);
  if isempty(fields) || ~isequal(find(ends(:)'), width:width:numel(fields)) || ~isequal(fields(1:width), names)
    error('rp:Unreadable', 'the library gave no table of units: %s', text(1:min(end, 200)));
  end
  rows = reshape(fields(width + 1:end), width, [])';
  wanted = cellfun(@(it) char(rp_bytes(it)), ids(:), 'UniformOutput', false);
  wanted(~is_named) = {''};
  is_fault = ~cellfun('isempty', rows(:, 13));
  if ~isequal(rows(:, 1), wanted) || ~all(ismember(rows(~is_named, 13), {'NoId', 'LongId'}))
    error('rp:Unreadable', 'the library gave a table of other units');
  end
  patterns = rp_patterns(words);
  for row = 1:size(rows, 1)
    said = strjoin(rows(row, 2:12), ',');
    if isempty(regexp(said, patterns{1 + is_fault(row)}, 'once'))
      error('rp:Unreadable', 'the library gave a row that has neither verdicts nor a fault: %s', said);
    end
  end
end

function patterns = rp_patterns(words)
% What stands between a household and its fault: of a row with verdicts, and of one with a fault.
  [share, floor] = deal('\d+(/\d+)?', '\d+\.\d{6}');
  beside = {'', '', ''};
  if ismember('--pump', words)
    beside(1:2) = {share, floor};
  end
  if ismember('--power', words)
    beside{3} = '\d+/\d+';
  end
  tests = {'\d+', '\d+', '(holds|violated)', share, floor, '(yes|no)', '(holds|violated|withheld)', '(holds|violated)'};
  patterns = {['^', strjoin([tests, beside], ','), '$'], '^,*$'};
end
