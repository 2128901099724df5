function found = rp_pump(p, q, varargin)
% RP_PUMP  Computes the maximum money pump index: the maximum share of expenditure that a cycle loses.
%
%   m = rp_pump(p, q)      m.ratio is exact, as a text such as '1/5'; m.pump is the nearest double; m.cycle has this index
%
% Options are those of rp_analyse, without levels. Echenique, Lee and Shum report the mean over short cycles; this is the maximum over
% all cycles.
%
% References
%   Echenique, F., Lee, S. and Shum, M. (2011). The Money Pump as a Measure of Revealed Preference Violations. Journal of Political
%   Economy 119, 1201-1223.
  options = rp_options(varargin, struct('Decimals', [], 'Numbers', 'shortest', 'Names', {{}}));
  file = rp_table(p, q, options);
  text = rp_ask({'pump', file.name}, file);
  lines = rp_lines(text);
  found = struct('ratio', lines{2}{2}, 'pump', rp_numbers(lines{2}(2)), 'cycle', rp_numbers(lines{3}(2:end)), 'text', text);
end
