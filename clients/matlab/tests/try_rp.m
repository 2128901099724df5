% Tries the functions over the library, on the numbers of docs/reference: octave --no-gui clients/matlab/tests/try_rp.m
% The examples are in the folder that the variable RP_EXAMPLES names; the program, where RP_EXEC names it, has to say the same.
1;

function same(got, wanted, what)
  if ~isequaln(got, wanted)
    disp(got);
    disp(wanted);
    error('try_rp: %s is another', what);
  end
end

function refused(call, identifier, part)
  try
    call();
  catch wrong
    if ~strcmp(wrong.identifier, identifier) || isempty(strfind(wrong.message, part))
      error('try_rp: refused as %s: %s', wrong.identifier, wrong.message);
    end
    return
  end
  error('try_rp: not refused: %s %s', identifier, part);
end

function [p, w, budget, q, n] = pairs(count, first)
% Budgets in so many pairs, of which no two bind each other, and choices from them, those of the first pair made so many times. On a pair
% two choices of four lie below the other budget, and no type has both: the greatest share is 3/4 where 1, 3, 2 and 2 choose on the
% first pair, and 1 where 3, 1, 3 and 1 do, as they do on the others.
  p = repmat([1 2; 2 1], count, 1);
  w = 4 * 3 .^ kron((0:count - 1)', [1; 1]);
  budget = kron((0:count - 1)', [2; 2; 2; 2]) + repmat([1; 1; 2; 2], count, 1);
  q = repmat([2 1; 0 2; 1 2; 2 0], count, 1);
  n = [first(:); repmat([3; 1; 3; 1], count - 1, 1)];
end

here = fileparts(mfilename('fullpath'));
addpath(fileparts(here));
count = 0;

% Two purchases that contradict each other.
[p, q] = deal([1 2; 2 1], [1 2; 2 1]);
v = rp_analyse(p, q);
same({v.garp, v.cycle, v.efficiency, v.ccei, v.attained}, {false, [1 2 1], '4/5', 0.8, true}, 'the verdict');
same({v.afriat, v.homothetic, v.quasilinear, v.at_ranks, v.ranks}, {false, false, false, [2; 2], []}, 'the other tests');
same(rp_pump(p, q).ratio, '1/5', 'the pump');
d = rp_demand(p, q, [1 1], 3);
same({d.garp, d.cycle, d.lower}, {false, [1 2 1], [NaN NaN]}, 'demand where the axiom fails');

% Bounds, in the units of the data.
[p, q] = deal([1.25 2.5; 2.5 1.25], [2 1; 1 2]);
v = rp_analyse(p, q);
same({v.garp, v.ranks, v.efficiency, v.ccei, v.afriat}, {true, [1; 1], '1', 1, true}, 'a table that holds');
d = rp_demand(p, q, [2 2], 6);
same({d.lower, d.upper, d.inner, d.below, d.strict, d.wide}, {[1 1], [2 2], [2 1], [1 2], zeros(1, 0), false(2)}, 'demand');
w = rp_welfare(p, q, [2 2]);
same({w.lower, w.upper, w.at, w.wide}, {[4; 4], [6; 6], [1; 2], [false; false]}, 'welfare');
w = rp_welfare(p, q, [0.5 0.5; 2 2]);
same({w(1).lower, w(1).upper, w(2).lower}, {[1; 1], [1.5; 1.5], [4; 4]}, 'welfare in money');

% What rp withholds and its wider edition gives is marked.
[p, q] = deal([4194304 1; 1 3145727; 1 4194304], [2097151 4194304; 1747627 2796203; 4194304 2097151]);
[v, w] = deal(rp_analyse(p, q), rp_analyse(p, q, 'Wide', false));
same({islogical(v.homothetic), v.wide, w.homothetic, w.wide, fieldnames(w.reasons)}, {true, {'homothetic'}, NaN, {}, {'homothetic'}}, 'the wider edition');
t = struct('home', {{'u'; 'u'; 'u'}}, 'p_a', p(:, 1), 'p_b', p(:, 2), 'q_a', q(:, 1), 'q_b', q(:, 2));
same({rp_panel(t, 'home').homothetic, rp_panel(t, 'home', 'Wide', false).homothetic}, {v.homothetic, NaN}, 'the wider edition in a panel');

% Levels of the observations' own.
levels = rp_analyse([1 2; 2 1], [1 2; 2 1], 'Levels', [799 1000]);
same({levels.garp, levels.efficiency}, {true, '4/5'}, 'own levels');

% Random choices.
r = rp_random([1 2; 2 1], [4 4], [1 1 2 2], [2 1; 0 2; 1 2; 2 0], [1 3 2 2]);
same({r.rational, r.share, r.types, r.parts, r.weights}, {false, '3/4', [1 4; 2 3], [0.25; 0.5], [1 0 1 0]}, 'random choices');
same(r.wide, false, 'random choices that rp takes');
refused(@() rp_random([1 2; 2 1], [4 4], [1 1 2 2], [2 1; 0 2; 1 2; 2 0], [0.25 0.75 0.5 0.5]), 'rp:Refused:BadNumber', ...
  'If you have shares, multiply them by 1000');
for own = {8, 'TooManyTypes'; 11, 'TooManyCombinations'; 13, 'TooManyPatches'}'
  [p, w, budget, q, n] = pairs(own{1}, [1 3 2 2]);
  refused(@() rp_random(p, w, budget, q, n, 'Wide', false), ['rp:Refused:', own{2}], 'rp-wide');
  r = rp_random(p, w, budget, q, n);
  same({r.rational, r.share, r.wide, abs(sum(r.parts) - 0.75) < 1e-12}, {false, '3/4', true, true}, 'choices that rp refuses');
  [p, w, budget, q, n] = pairs(own{1}, [3 1 3 1]);
  r = rp_random(p, w, budget, q, n);
  same({r.rational, r.share, r.wide, size(r.types, 2)}, {true, '1', true, 2 * own{1}}, 'a mixture of choices that rp refuses');
end

% Goodness of fit. Each of two contradicts the other: the cheaper bundle costs 4 of the 5 that are spent, and one of the two can be kept.
P = [1 2; 2 1];
f = rp_fit(P, P);
same({f.observations, f.pairs, f.garp_pairs, f.wgarp_pairs, f.warp_pairs, f.sarp_pairs, f.violating_observations}, {2, 2, 2, 2, 2, 2, 2}, 'violations');
same({f.kept, f.kept_most, f.kept_exact, f.hm_low, numel(f.dropped), sort([f.kept_rows, f.dropped])}, {1, 1, true, 0.5, 1, [1 2]}, 'kept observations');
same({f.exact.levels_low, f.levels_exact, sort(f.levels), abs(f.levels_high - 0.1) < 1e-11}, {'219902325555/2199023255552', true, [0.8; 1], true}, 'levels');
same({f.exact.squares_low, f.squares_exact, sort(f.squares_levels)}, {'43980465111/2199023255552', true, [0.8; 1]}, 'squares');
same({f.steps_low, f.steps_high, f.steps_exact, f.exact.steps_low, size(f.removed_steps)}, {0.1, 0.1, true, '1/10', [1 2]}, 'steps');
same({f.efficiency, f.ccei, f.attained, f.pump, f.exact.pump, f.pump_cycle}, {'4/5', 0.8, true, 0.2, '1/5', [1 2 1]}, 'the other indices');
same({f.quasilinear_level, f.homothetic_low <= 0.8 && f.homothetic_high >= 0.8, f.homothetic_exact, fieldnames(f.reasons)}, {0.8, true, true, cell(0, 1)}, 'levels of two tests');
% Costs 2, 1, 3; 3, 2, 1; 1, 3, 2: strict steps from 1 to 2, from 2 to 3 and from 3 to 1.
f = rp_fit([2 1 3; 3 2 1; 1 3 2], eye(3));
same({f.garp_pairs, f.wgarp_pairs, f.warp_pairs, f.sarp_pairs, f.pairs, f.violating_observations}, {3, 0, 0, 3, 6, 3}, 'violations of three');
same({f.kept, f.kept_most, numel(f.dropped), f.exact.levels_low, f.exact.steps_low, f.exact.steps_high, f.pump}, {2, 2, 1, '1/6', '1/6', '1/6', 0.5}, 'indices of three');
% Nothing violates, and one observation cannot.
f = rp_fit([1 1; 1 1], [4 4; 2 2]);
same({f.garp_pairs, f.kept, f.dropped, f.levels_high, f.steps_high, f.removed_steps, f.quasilinear_level}, {0, 2, zeros(1, 0), 0, 0, zeros(0, 2), 1}, 'choices that violate nothing');
same({rp_fit([1 2], [1 2]).kept, rp_fit([1 2], [1 2]).pairs}, {1, 0}, 'one observation');
refused(@() rp_fit(P, P, 'Levels', 0.95), 'rp:Refused:OwnLevels', 'Leave out the column e');
refused(@() rp_fit([0 1], [1 1]), 'rp:Refused:ZeroPrice', 'every price must be positive');

% Numbers: the shortest decimal of each double, or the double itself, and nothing rounded unasked.
same(rp_mex([0.5 -0 3.18; 100 0.1 9999999]), {'0.5', '0', '3.180000000000000159872115546022541821002960205078125'; ...
  '100', '0.1000000000000000055511151231257827021181583404541015625', '9999999'}, 'exact decimals');
same(rp_mex([3.18 0.1 1e-7 123.456 1e22 5e-324 0 -2.5], -1), {'3.18', '0.1', '0.0000001', '123.456', '10000000000000000000000', ...
  ['0.', repmat('0', 1, 323), '5'], '0', '-2.5'}, 'shortest decimals');
same(rp_mex([0.125 0.375 2.5 2.675], 2), {'0.12', '0.38', '2.5', '2.67'}, 'rounded to even');
same(rp_mex([0.125 0.375 2.5 2.675 9.996 -0.5 99.5 0.5 1.5 1e22], 2, true), {'0.12', '0.38', '2.5', '2.68', '10', '-0.5', '99.5', '0.5', ...
  '1.5', '10000000000000000000000'}, 'shortest decimals rounded');
same(rp_mex([99.5 98.5 0.5 9.51 -0.4], 0, true), {'100', '98', '0', '10', '0'}, 'to whole numbers');
same(rp_analyse([23.86 1], [1 1]).garp, true, 'the shortest decimals');
same({rp_analyse([23.86 1], [1 1]).numbers, rp_analyse([0.5 1], [1 1]).numbers}, {'shortest decimals of doubles', ''}, 'how numbers were taken');
refused(@() rp_analyse([1 / 3 1], [1 1]), 'rp:Refused:TooManyDecimals', 'record 1 column 1 (row 1 of table.csv, column p_1, value 0.3333333333333333)');
refused(@() rp_analyse([3.18 1], [1 1], 'Numbers', 'exact'), 'rp:Refused:TooManyDecimals', '''Numbers'', ''shortest'', the default');
refused(@() rp_analyse([1 / 3 1], [1 1]), 'rp:Refused:TooManyDecimals', '''Decimals'', [2 0]');
same(rp_analyse([3.18 1], [1 1], 'Decimals', [2 0]).places, [2 0], 'rounded where asked');
same(rp_analyse([3.18 1], [1 1], 'Places', [1 0]).places, [1 0], 'the older name');
same(rp_analyse({'3.18', '1'}, {'1', '1'}).places, [2 0], 'texts');
same(rp_analyse(int32([3 1]), int32([1 1])).garp, true, 'whole types');
refused(@() rp_analyse([0 1], [1 1]), 'rp:Refused:ZeroPrice', 'record 1 column 1');
refused(@() rp_analyse([NaN 1], [1 1]), 'rp:Refused:BadNumber', 'value NaN');
refused(@() rp_analyse([1 1], [-1 1]), 'rp:Refused:BadNumber', 'record 1 column 3');
refused(@() rp_analyse([1 1], [0 0]), 'rp:Refused:ZeroBundle', 'record 1');
refused(@() rp_analyse([10000000 1], [1 1]), 'rp:Refused:TooLarge', 'record 1 column 1');
refused(@() rp_analyse(ones(513, 1), ones(513, 1)), 'rp:Refused:TooManyRecords', 'TooManyRecords of table.csv');
refused(@() rp_analyse(single([1 1]), [1 1]), 'rp:BadData', 'single');
refused(@() rp_analyse([1 1], [1 1 1]), 'rp:BadData', 'one size');
refused(@() rp_analyse([1 1], [1 1], 'Level', 1), 'rp:BadData', 'the options here are');
refused(@() rp_demand([1 1], [1 1], [1 0], 3), 'rp:Refused:ZeroPrice', 'new.csv');

% Texts that are no numbers are fields of their own, whatever stands in them.
refused(@() rp_analyse({'1,5', '1'}, {'1', '1'}), 'rp:Refused:BadNumber', 'record 1 column 1 (row 1 of table.csv, column p_1, value 1,5)');
refused(@() rp_analyse({'1', '1'}, {sprintf('1\n9'), '1'}), 'rp:Refused:BadNumber', 'record 1 column 3');

% Levels are shares or thousandths, one for all or one for each: the other bundle costs 4 of the 5 that are spent.
P = [1 2; 2 1];
same({rp_analyse(P, P, 'Levels', 0.95).garp, rp_analyse(P, P, 'Levels', 0.79).garp}, {false, true}, 'one share for all');
same({rp_analyse(P, P, 'Levels', [0.799; 1]).garp, rp_analyse(P, P, 'Levels', [799; 1000]).garp}, {true, true}, 'shares and thousandths');
refused(@() rp_analyse(P, P, 'Levels', [0.95 0.9512]), 'rp:Refused:BadNumber', 'thousandths');
refused(@() rp_analyse(P, P, 'Levels', [1 1 1]), 'rp:BadData', 'shares such as 0.95');
% What to do about an error is said by the catalogue.
refused(@() rp_analyse([0 1], [1 1]), 'rp:Refused:ZeroPrice', 'every price must be positive');

% A panel.
t = struct('home', {{'u'; 'u'; 'v'; 'v'; 'z'}}, 'p_a', [1; 2; 1; 2; 0], 'p_b', [2; 1; 2; 1; 1], 'q_a', [1; 2; 2; 1; 1], 'q_b', [2; 1; 1; 2; 1]);
r = rp_panel(t, 'home', 'Pump', true, 'Power', 200, 'Seed', 7);
same({r.home}, {'u', 'v', 'z'}, 'the households');
same({r(1).observations, r(1).goods, r(1).garp, r(1).attained, r(1).homothetic, r(1).quasilinear}, {2, 2, false, true, false, false}, 'the verdicts of a household');
same({r(1).efficiency, r(1).efficiency_floor, r(1).ccei, r(1).pump, r(1).pump_floor}, {'4/5', 0.8, 0.8, '1/5', 0.2}, 'the numbers of a household');
same({r(2).garp, r(2).efficiency, r(2).pump, r(2).fault, r(2).record, r(2).refusal}, {true, '1', '0', '', NaN, ''}, 'a household that meets the axiom');
same(r(1).power, sprintf('%d/200', rp_power([1 2; 2 1], [1 2; 2 1], 7, 200).violations), 'the power of a household');
same({r(3).garp, r(3).efficiency, r(3).fault, r(3).record, r(3).column}, {NaN, '', 'ZeroPrice', 5, 2}, 'a household that is refused');
same(~isempty(strfind(r(3).refusal, 'ZeroPrice at row 5, column p_a, value 0')), true, 'the refusal in words');
r = rp_panel(t, 'home', 'Wide', false);
same({r(1).pump, r(1).pump_floor, r(1).power}, {'', NaN, ''}, 'what was not asked');
refused(@() rp_panel(t, 'house'), 'rp:WrongColumns', 'house');
refused(@() rp_panel(t, 'home', 'Power', 1.5), 'rp:BadData', 'whole number');

% Rows without a household are none's, blanks round a key are cut, and keys may have any letters.
odd = sprintf('x\ry,"z"');
t = struct('home', {{'A'; ''; 'A '; odd; sprintf(' \t'); odd; 'A'; repmat('k', 1, 257)}}, 'p_a', [1; 1; 2; 1; 1; 2; 1; 1], 'p_b', [2; 1; 1; 2; 1; 1; 2; 1]);
[t.q_a, t.q_b] = deal([1; 1; 2; 2; 1; 1; 1; 1], [2; 1; 1; 1; 1; 2; 2; 1]);
r = rp_panel(t, 'home');
same({r.home}, {'A', odd, '', sprintf(' \t'), t.home{8}}, 'the keys');
same({r.observations, r(1).garp, r(2).garp}, {3, 2, NaN, NaN, NaN, false, true}, 'households with blanks round their keys');
same({r.fault, r.record}, {'', '', 'NoId', 'NoId', 'LongId', NaN, NaN, 2, 5, 8}, 'rows without a household');
t.town = [1; 1; 1; 2; 2; 2; NaN; 2];
r = rp_panel(t, {'town', 'home'});
same({r.town}, {1, 2, 1, 2, NaN, 2}, 'the first of two keys');
same({r.observations}, {2, 2, NaN, NaN, NaN, NaN}, 'households by two keys');
t.obs = [1; 1; 1; 1; 1; 2; 2; 1];
r = rp_panel(t, 'home');
same({r.fault}, {'Pooled', '', 'NoId', 'NoId', 'LongId'}, 'a label that stands twice');

% Levels of the observations, numbers that are none, and households that all have one fault.
t = struct('home', [3; 3], 'p_a', [1; 2], 'p_b', [2; 1], 'q_a', [1; 2], 'q_b', [2; 1], 'e', [799; 1000]);
same({rp_panel(t, 'home').garp, rp_panel(t, 'home').home}, {true, 3}, 'own levels in a panel');
t.e = [0.799; 1];
same(rp_panel(t, 'home').garp, true, 'levels of a panel as shares');
refused(@() rp_panel(t, 'home', 'Pump', true), 'rp:Refused:All', 'OwnLevels');
t = rmfield(t, 'e');
t.p_a = {'1,5'; sprintf('1\n3,1,1,1,1')};
t.p_b = {'1'; '1'};
refused(@() rp_panel(t, 'home'), 'rp:Refused:All', 'BadNumber at row 1, column p_a, value 1,5');
[t.p_a, t.home] = deal([1 / 3; 1], {'u'; 'v'});
t.p_b = [1; 1];
r = rp_panel(t, 'home');
same({r.fault, r(1).record, r(1).column}, {'TooManyDecimals', '', 1, 2}, 'a double of many places in a panel');
t.p_a = [3.18; 1];
same({rp_panel(t, 'home').fault}, {'', ''}, 'the shortest decimals in a panel');

% More households than one call has.
many = 450;
t = struct('home', repelem((1:many)', 2), 'p_a', repmat([1; 2], many, 1), 'p_b', repmat([2; 1], many, 1));
[t.q_a, t.q_b] = deal(repmat([1; 2; 2; 1], many / 2, 1), repmat([2; 1; 1; 2], many / 2, 1));
r = rp_panel(t, 'home');
same({[r.home], [r.garp]}, {1:many, repmat([false, true], 1, many / 2)}, 'the households of several calls');

% The power of the test: the numbers of the program.
same(rp_power([1 2; 2 1], [1 2; 2 1], 1, 200).draws, 200, 'the power');

% The program's own texts, byte for byte.
program = getenv('RP_EXEC');
examples = getenv('RP_EXAMPLES');
if ~isempty(program) && ~isempty(examples)
  asked = {{'analyse', 'contradiction.csv'}, {'certify', 'decimals.csv'}, {'analyse', 'experiment.csv'}, {'demand', 'decimals.csv', 'budget.csv'}, ...
    {'welfare', 'decimals.csv', 'prices.csv'}, {'random', 'budgets.csv', 'choices.csv', '--json'}, {'menus', 'menus.csv'}, ...
    {'cost', 'technology.csv', 'outputs.csv'}, {'pump', 'cycle_of_three.csv'}, {'power', 'decimals.csv', '7', '300'}, {'analyse', 'empty.json'}, ...
    {'utility', 'decimals.csv', 'bundles.csv'}, {'check', 'contradiction.csv', 'contradiction.json'}, {'check', 'contradiction.csv', 'forged.json'}};
  for at = 1:numel(asked)
    words = asked{at};
    [status, wanted] = system(sprintf('cd "%s" && "%s" %s 2>/dev/null', examples, program, strjoin(words, ' ')));
    own = words(cellfun(@(it) exist(fullfile(examples, it), 'file') == 2, words));
    bytes = cellfun(@(it) uint8(fileread(fullfile(examples, it))), own, 'UniformOutput', false);
    [got_status, got] = rp_mex(cellfun(@uint8, words, 'UniformOutput', false), cellfun(@uint8, own, 'UniformOutput', false), bytes);
    same({got_status, char(got(:)')}, {status, wanted(:)'}, strjoin(words, ' '));
    count = count + 1;
  end
end
printf('try_rp: all is as it should be; %d answers are the program''s, byte for byte\n', count);
