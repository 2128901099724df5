function found = rp_panel(t, key, varargin)
% RP_PANEL  Tests each unit of a long table, such as a subject or a household.
%
%   r = rp_panel(t, 'subject')                 t is a table, or a struct of columns: p_NAME and q_NAME for each good, and the key
%   r = rp_panel(t, {'town', 'subject'})       several columns identify the units
%   r = rp_panel(.., 'Pump', true)             adds the maximum money pump index
%   r = rp_panel(.., 'Power', 100, 'Seed', 7)  adds how many of 100 random behaviours on the same budgets violate GARP
%   r = rp_panel(.., 'Wide', false)            uses rp alone, without rp-wide
%
% 'Decimals' and 'Numbers' are those of rp_analyse. A column e has efficiency levels, and obs has labels. Units come in the order
% in which they first appear. Rows without a key come last. Blanks around a key are ignored. r is a struct array, which
% struct2table makes a table. The key has its own name, and the other fields are
%
%   observations, goods               the size of the unit's table
%   garp, attained                    true or false
%   homothetic, quasilinear           true or false; NaN if undetermined
%   efficiency, pump, power           exactly, as texts such as '4/5'; power has the violations over the draws
%   efficiency_floor, pump_floor      the same numbers, rounded down to six decimal places
%   ccei                              the nearest double to the CCEI
%   fault                             '' or the name of the error; the next three fields say where it is, and what to do
%   record, column, refusal           the row and the column of t, and the error in words
%
% A unit with an error has the error in its row, and the other units are tested. If all units have the same error, the call stops.
%
% References
%   Afriat, S. N. (1973). On a System of Inequalities in Demand Analysis. International Economic Review 14, 460-472.
%   Varian, H. R. (1982). The Nonparametric Approach to Demand Analysis. Econometrica 50, 945-973.
%
% See also rp_analyse.
  known = struct('Pump', false, 'Power', [], 'Seed', 1, 'Wide', true, 'Decimals', [], 'Numbers', 'shortest');
  options = rp_options(varargin, known);
  words = [{'long.csv', '--id', 'household'}, rp_asked(options)];
  long = rp_long(t, key, options);
  rows = [rp_rows(long, find(long.is_named), words); rp_rows(long, find(~long.is_named), words)];
  found = rp_found(long, rows);
  faults = unique({found.fault});
  if numel(faults) == 1 && ~isempty(faults{1})
    error('rp:Refused:All', 'all units have one error, the first: %s', found(1).refusal);
  end
end

function words = rp_asked(options)
% What is asked beside the verdicts.
  words = {};
  if options.Pump
    words{end + 1} = '--pump';
  end
  if ~isempty(options.Power)
    words = [words, {'--power', rp_whole(options.Power, '''Power'''), rp_whole(options.Seed, '''Seed''')}];
  end
  if options.Wide
    words{end + 1} = '--wide';
  end
end

function found = rp_found(long, rows)
% The struct array of the rows that the call gave, each a row of texts.
  names = rp_panel_columns();
  text = @(name) rows(:, strcmp(names, name));
  number = @(name) num2cell(str2double(text(name)));
  made = struct();
  for at = 1:numel(long.keys)
    made.(long.keys{at}) = long.values{at};
  end
  [made.observations, made.goods, made.garp] = deal(number('observations'), number('goods'), rp_truths(text('garp')));
  [made.efficiency, made.efficiency_floor] = deal(text('efficiency'), number('efficiency_floor'));
  made.ccei = cellfun(@rp_index, text('efficiency'), 'UniformOutput', false);
  [made.attained, made.homothetic] = deal(rp_truths(text('attained')), rp_truths(text('homothetic')));
  [made.quasilinear, made.pump, made.pump_floor] = deal(rp_truths(text('quasilinear')), text('pump'), number('pump_floor'));
  [made.power, made.fault] = deal(text('power'), text('fault'));
  [made.record, made.column, made.refusal] = rp_places(long, rows);
  columns = struct2cell(made);
  found = cell2struct(horzcat(columns{:}), fieldnames(made), 2);
end

function truths = rp_truths(texts)
% true, false, or NaN of texts.
  truths = repmat({NaN}, size(texts));
  truths(ismember(texts, {'holds', 'yes'})) = {true};
  truths(ismember(texts, {'violated', 'no'})) = {false};
end

function level = rp_index(text)
% The nearest double to an index, NaN where there is none.
  level = NaN;
  if ~isempty(text)
    level = rp_level(text);
  end
end

function [records, columns, refusals] = rp_places(long, rows)
% Where the faults stand in the table that was given, and what is told of them.
  count = size(rows, 1);
  [records, columns] = deal(num2cell(NaN(count, 1)));
  refusals = repmat({''}, count, 1);
  for at = find(~cellfun('isempty', rows(:, 13)))'
    [fault, record, column] = deal(rows{at, 13}, str2double(rows{at, 14}), str2double(rows{at, 15}));
    where = '';
    if ~isnan(record)
      records{at} = record;
      where = sprintf(' at row %d', record);
    end
    if ~isnan(column)
      columns{at} = long.places(column);
      where = sprintf('%s, column %s', where, long.names{column});
      if ~isnan(record) && column > 1
        value = rp_fields([long.cells{record, column - 1}, ',']);
        where = sprintf('%s, value %s', where, rp_shown(value{1}));
      end
    end
    refusals{at} = [fault, where, rp_hint(fault)];
  end
end
