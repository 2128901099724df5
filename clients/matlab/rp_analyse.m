function verdict = rp_analyse(p, q, varargin)
% RP_ANALYSE  Tests a table: GARP, CCEI, Afriat's inequalities, HARP and quasilinear utility.
%
%   v = rp_analyse(p, q)                        p and q are matrices: a row for each observation, a column for each good
%   v = rp_analyse(p, q, 'Levels', 0.95)        efficiency levels (Varian 1990), one for all observations or one for each:
%                                               a share, or thousandths such as 950
%   v = rp_analyse(p, q, 'Decimals', [2 0])     prices are rounded to 2 decimal places, quantities to none
%   v = rp_analyse(p, q, 'Numbers', 'exact')    a double is the binary fraction itself, so 3.18 is rejected
%   v = rp_analyse(p, q, 'Wide', false)         uses rp alone, without rp-wide
%
% A double is read as the shortest decimal that gives it back: 3.18 is 3.18. A double that needs more than 6 decimal places is
% rejected. Integer types and cell arrays of texts ({'3.18', '1'; ..}) are used exactly. v is a struct with the fields
%
%   garp          true or false: GARP (Varian 1982)
%   ranks, cycle  the evidence: ranks of the observations, or a violating cycle
%   efficiency    the CCEI (Afriat 1973), exactly, as a text such as '4/5'
%   ccei          the CCEI as the nearest double, which is 1 only if the CCEI is 1
%   attained      whether GARP holds at the CCEI itself
%   afriat        whether Afriat numbers exist (Afriat 1967): true, false, or NaN if undetermined
%   utility, lambda  the Afriat numbers, as doubles
%   homothetic    HARP (Varian 1983), with homothetic_cycle; NaN if undetermined
%   quasilinear   cyclical monotonicity (Brown and Calsamiglia 2007), with quasilinear_cycle
%   reasons       for each undetermined verdict, the line of the report
%   wide          the verdicts that rp leaves undetermined and rp-wide found: {'homothetic'}, or none
%   numbers       'shortest decimals of doubles' if a double was read as a decimal that is another number; '' otherwise
%   text          the report, whose numbers are exact
%
% The library is proved. This function, which reads its report, is tested.
%
% References
%   Afriat, S. N. (1967). The Construction of Utility Functions from Expenditure Data. International Economic Review 8, 67-77.
%   Afriat, S. N. (1973). On a System of Inequalities in Demand Analysis. International Economic Review 14, 460-472.
%   Brown, D. J. and Calsamiglia, C. (2007). The Nonparametric Approach to Applied Welfare Analysis. Economic Theory 31, 183-188.
%   Varian, H. R. (1982). The Nonparametric Approach to Demand Analysis. Econometrica 50, 945-973.
%   Varian, H. R. (1983). Non-parametric Tests of Consumer Behaviour. Review of Economic Studies 50, 99-110.
%   Varian, H. R. (1990). Goodness-of-Fit in Optimizing Models. Journal of Econometrics 46, 125-140.
%
% See also rp_demand, rp_welfare, rp_panel, rp_plot.
  known = struct('Levels', [], 'Decimals', [], 'Numbers', 'shortest', 'Names', {{}}, 'Wide', true);
  options = rp_options(varargin, known);
  file = rp_table(p, q, options);
  [text, stated] = rp_wider({'analyse', file.name}, file, options);
  [verdict, lines] = rp_report(text);
  units = 10 ^ sum(verdict.places);
  afriat_units = units;
  if ~isempty(options.Levels)
    afriat_units = 1000 * units;
  end
  verdict.reasons = struct();
  [verdict.utility, verdict.lambda] = deal([]);
  [verdict.below, verdict.above, verdict.at_ranks, verdict.at_cycle] = deal([]);
  [verdict.homothetic_values, verdict.homothetic_cycle, verdict.quasilinear_values, verdict.quasilinear_cycle] = deal([]);
  item = '';
  for at = 1:numel(lines)
    words = lines{at};
    rest = words(2:end);
    switch words{1}
      case {'afriat', 'homothetic', 'quasilinear'}
        item = words{1};
        verdict.(item) = any(strcmp(words{2}, {'model', 'holds'}));
        if strcmp(words{2}, 'withheld')
          verdict.(item) = NaN;
          verdict.reasons.(item) = strjoin(words, ' ');
        end
      case 'utility'
        verdict.utility = rp_numbers(rest)' / afriat_units;
      case 'lambda'
        verdict.lambda = rp_numbers(rest)';
      case 'efficiency'
        item = 'efficiency';
        verdict.efficiency = words{2};
        verdict.ccei = rp_level(words{2});
        verdict.attained = strcmp(words{4}, 'yes');
      case 'below'
        verdict.below = rp_numbers(rest)';
      case 'above'
        verdict.above = rp_numbers(rest);
      case 'at'
        if strcmp(words{2}, 'ranks')
          verdict.at_ranks = rp_numbers(words(3:end))';
        else
          verdict.at_cycle = rp_numbers(words(3:end));
        end
      case 'values'
        if strcmp(item, 'quasilinear')
          verdict.quasilinear_values = rp_numbers(rest)' / units;
        else
          verdict.homothetic_values = rp_numbers(rest)';
        end
      case 'start'
        verdict.homothetic_start = rest{1};
      case 'cycle'
        if ~strcmp(item, 'afriat')
          verdict.([item, '_cycle']) = rp_numbers(rest);
        end
      otherwise
        error('rp:Unreadable', 'the report has a line that is not known: %s', strjoin(words, ' '));
    end
  end
  verdict.wide = {};
  if ~isequaln(verdict.homothetic, NaN) && ~strcmp(text, stated)
    verdict.wide = {'homothetic'};
  end
  verdict.numbers = rp_taken(options, {p, 1}, {q, 2});
  verdict.text = text;
end
