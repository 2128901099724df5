function verdict = rp_random(p, w, budget, q, n, varargin)
% RP_RANDOM  Tests random utility: could a population of utility maximizers have made these choices from budgets?
%
%   v = rp_random(p, w, budget, q, n)   p has a row of prices for each budget, and w its income. For each choice, budget has the
%                                       number of its budget, q the bundle, and n the count: an integer, 1 for one person
%   v = rp_random(.., 'Per', N)         rounds the shares of each budget to N units
%   v = rp_random(.., 'Wide', false)    uses rp alone, which rejects choices with too many patches or types
%
% v is a struct with the fields
%
%   rational      true, false, or NaN if undetermined, with reason
%   share         the maximum share of the choices that such a population could have made, as an exact text
%   share_double  the same share as a double
%   types, parts  a row for each rational type: its patch of each budget, and its share of the population
%   weights       if rational is false: a weight of each patch, which shows that a higher share is impossible
%   wide          whether rp itself rejects these choices, and rp-wide tested them
%   text          the report, whose numbers are exact
%
% The shares are taken as exact, so false is not a statistical rejection. docs/reference/rp-random.md defines patches.
%
% References
%   Kitamura, Y. and Stoye, J. (2018). Nonparametric Analysis of Random Utility Models. Econometrica 86, 1883-1909.
%   McFadden, D. and Richter, M. K. (1990). Stochastic Rationality and Revealed Stochastic Preference. In J. Chipman, D. McFadden
%   and M. K. Richter (editors), Preferences, Uncertainty, and Optimality. Westview Press.
  options = rp_options(varargin, struct('Per', [], 'Decimals', [], 'Numbers', 'shortest', 'Names', {{}}, 'Wide', true));
  goods = size(p, 2);
  names = options.Names;
  if isempty(names)
    names = arrayfun(@(it) sprintf('%d', it), 1:goods, 'UniformOutput', false);
  end
  if size(q, 2) ~= goods || numel(w) ~= size(p, 1) || numel(budget) ~= size(q, 1) || numel(n) ~= size(q, 1)
    error('rp:BadData', 'p and q have a column for each good; w has a number for each row of p, budget and n for each row of q');
  end
  prices = rp_texts(p, 'prices', rp_how(options, 1));
  bundles = rp_texts(q, 'quantities', rp_how(options, 2));
  incomes = rp_texts(w(:), 'incomes', rp_how(options, 1));
  budgets = rp_file('budgets.csv', [strcat('p_', names(:)'), {'w'}], {prices, incomes});
  counted = {rp_texts(budget(:), 'budgets', []), bundles, rp_texts(n(:), 'counts', [])};
  choices = rp_file('choices.csv', [{'budget'}, strcat('q_', names(:)'), {'n'}], counted);
  words = {'random', budgets.name, choices.name};
  if ~isempty(options.Per)
    words = [words, {'--per', sprintf('%d', options.Per)}];
  end
  [text, stated] = rp_wider(words, [budgets, choices], options);
  lines = rp_lines(text);
  total = str2double(lines{1}{8});
  verdict = struct('rational', NaN, 'reason', '', 'share', '', 'share_double', NaN, 'types', [], 'parts', [], 'weights', [], 'total', total);
  den = 1;
  for line = 2:numel(lines)
    words = lines{line};
    if strcmp(words{1}, 'random') && strcmp(words{2}, 'withheld')
      verdict.reason = strjoin(words, ' ');
    elseif strcmp(words{1}, 'random') && strcmp(words{2}, 'mixture')
      [verdict.rational, verdict.share, verdict.share_double] = deal(true, '1', 1);
      den = str2double(words{4});
    elseif strcmp(words{1}, 'random')
      [verdict.rational, verdict.share, verdict.share_double] = deal(false, words{4}, rp_level(words{4}));
    elseif strcmp(words{1}, 'weights')
      den = str2double(words{end});
      verdict.weights = rp_numbers(words(2:end - 2)) / den;
    elseif strcmp(words{1}, 'part')
      verdict.types(end + 1, :) = rp_numbers(words(2:end - 2));
      verdict.parts(end + 1, 1) = str2double(words{end}) / (den * total);
    end
  end
  verdict.wide = isempty(stated);
  verdict.text = text;
end
