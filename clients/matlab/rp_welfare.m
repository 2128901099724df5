function found = rp_welfare(p, q, new, varargin)
% RP_WELFARE  Bounds on the money metric: what it costs at new prices to be as well off as at each observation.
%
%   w = rp_welfare(p, q, new)        new has a row for each set of new prices
%
% Options are those of rp_analyse, without levels. w is a struct array, with an element for each row of new:
%
%   garp     whether GARP holds; if it is violated, the bounds are NaN, and cycle has a violating cycle
%   lower    for each observation the lower bound, in the units of money of new; NaN if undetermined
%   reasons  why a lower bound is NaN
%   upper    for each observation the upper bound
%   at       the observation whose bundle costs the upper bound
%   wide     for each observation whether only rp-wide found the lower bound
%   text     the lines of the report, whose numbers are exact
%
% References
%   Varian, H. R. (1982). The Nonparametric Approach to Demand Analysis. Econometrica 50, 945-973.
%
% See also rp_analyse, rp_demand.
  options = rp_options(varargin, struct('Decimals', [], 'Numbers', 'shortest', 'Names', {{}}, 'Wide', true));
  [table, told] = rp_table(p, q, options);
  [asked, places] = rp_new(new, [], told.names, options);
  [text, stated] = rp_wider({'welfare', table.name, asked.name}, [table, asked], options);
  [axiom, lines] = rp_report(text);
  withheld = rp_withheld(stated, '^welfare .* lower ');
  unit = 10 ^ (places + axiom.places(2));
  blank = NaN(told.rows, 1);
  empty = struct('garp', axiom.garp, 'cycle', axiom.cycle, 'lower', blank, 'upper', blank, 'at', blank, ...
    'wide', false(told.rows, 1), 'reasons', {{}}, 'text', '');
  found = repmat(empty, size(new, 1), 1);
  count = 0;
  for line = 1:numel(lines)
    words = lines{line};
    if strcmp(words{1}, 'welfare')
      count = count + 1;
      own = ceil(count / told.rows);
      at = find(strcmp(words, 'observation'), 1);
      row = str2double(words{at + 1});
      if strcmp(words{at + 2}, 'lower')
        [lower, reason, rest] = rp_bound(words(at + 3:end));
        found(own).lower(row) = lower / unit;
        found(own).upper(row) = rp_numbers(rest(2)) / unit;
        found(own).at(row) = str2double(rest{4});
        found(own).wide(row) = withheld(count, 1) && isempty(reason);
        if ~isempty(reason)
          found(own).reasons{end + 1} = strjoin(words, ' ');
        end
      end
    end
    if count > 0
      found(own).text = [found(own).text, strjoin(words, ' '), sprintf('\n')];
    end
  end
end
