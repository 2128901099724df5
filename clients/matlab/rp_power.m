function found = rp_power(p, q, seed, draws, varargin)
% RP_POWER  Counts the random behaviours on the table's budgets that violate GARP.
%
%   w = rp_power(p, q, seed, draws)   w.violations counts violations among w.draws draws; w.power is their share
%
% Options are those of rp_analyse, without levels. The same seed gives the same draws, here and in every other client. The draws crowd
% around equal shares. Papers draw uniformly on the budget line, which violates GARP more often.
%
% References
%   Bronars, S. G. (1987). The Power of Nonparametric Tests of Preference Maximization. Econometrica 55, 693-698.
  options = rp_options(varargin, struct('Decimals', [], 'Numbers', 'shortest', 'Names', {{}}));
  file = rp_table(p, q, options);
  words = {'power', file.name, rp_whole(seed, 'the seed'), rp_whole(draws, 'the number of draws')};
  text = rp_ask(words, file);
  lines = rp_lines(text);
  last = lines{end};
  found = struct('violations', str2double(last{6}), 'draws', str2double(last{4}), 'seed', seed, 'text', text);
  found.power = found.violations / found.draws;
end
