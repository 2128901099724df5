function found = rp_demand(p, q, new, m, varargin)
% RP_DEMAND  Bounds on demand at new budgets.
%
%   d = rp_demand(p, q, new, m)      new has a row of prices for each budget, m the expenditure on each
%
% A demand is consistent if GARP still holds when it is added to the table. The options are those of rp_analyse, without levels. d is
% a struct array, with an element for each budget:
%
%   garp           whether GARP holds; if it is violated, no demand is consistent, and cycle has a violating cycle
%   lower, upper   the infimum and the supremum of each good over all consistent demands, in the units of q
%   reasons        why a bound is NaN: it is undetermined
%   wide           a row for each good, for lower and upper: whether only rp-wide found the bound
%   inner          one consistent demand
%   below, strict  the observations that the budget is revealed preferred to, and strictly revealed preferred to
%   text           the lines of the report, whose numbers are exact, in scaled units
%
% References
%   Varian, H. R. (1982). The Nonparametric Approach to Demand Analysis. Econometrica 50, 945-973.
%
% See also rp_analyse, rp_welfare.
  options = rp_options(varargin, struct('Decimals', [], 'Numbers', 'shortest', 'Names', {{}}, 'Wide', true));
  [table, told] = rp_table(p, q, options);
  budgets = rp_new(new, m, told.names, options);
  [text, stated] = rp_wider({'demand', table.name, budgets.name}, [table, budgets], options);
  [axiom, lines] = rp_report(text);
  withheld = rp_withheld(stated, '^good ');
  count = 0;
  unit = 10 ^ axiom.places(2);
  blank = NaN(1, told.goods);
  empty = struct('garp', axiom.garp, 'cycle', axiom.cycle, 'lower', blank, 'upper', blank, 'inner', blank, ...
    'below', [], 'strict', [], 'wide', false(told.goods, 2), 'reasons', {{}}, 'text', '');
  found = repmat(empty, size(new, 1), 1);
  at = 0;
  for line = 1:numel(lines)
    words = lines{line};
    switch words{1}
      case 'demand'
        at = at + 1;
      case {'below', 'strict'}
        found(at).(words{1}) = rp_numbers(words(2:end));
      case 'inner'
        found(at).inner = rp_numbers(words(2:end - 2)) / (str2double(words{end}) * unit);
      case 'good'
        good = str2double(words{2});
        [found(at).lower(good), low, rest] = rp_bound(words(4:end));
        [found(at).upper(good), high] = rp_bound(rest(2:end));
        found(at).lower(good) = found(at).lower(good) / unit;
        found(at).upper(good) = found(at).upper(good) / unit;
        count = count + 1;
        found(at).wide(good, :) = withheld(count, :) & [isempty(low), isempty(high)];
        if ~isempty([low, high])
          found(at).reasons{end + 1} = strjoin(words, ' ');
        end
    end
    if at > 0
      found(at).text = [found(at).text, strjoin(words, ' '), sprintf('\n')];
    end
  end
end
