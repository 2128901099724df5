function fit = rp_fit(p, q, varargin)
% RP_FIT  Computes indices of goodness of fit: HM, Varian's index, the minimum cost index and more, each exact or with two bounds.
%
%   f = rp_fit(p, q)       options are those of rp_analyse; levels are rejected
%
% This is a command of rp-wide. A table of 50 observations takes less than a second, and one of 512 can take two minutes. Data on
% several units need a call for each unit. f is a struct with the fields
%
%   observations, pairs               the size of the table, and its ordered pairs n(n-1)
%   garp_pairs, wgarp_pairs, warp_pairs, sarp_pairs   how many of the pairs violate each axiom
%   violating_observations            how many observations are in a pair that violates GARP
%   efficiency, ccei, attained        the CCEI, as in rp_analyse
%   kept, kept_most, kept_exact       the largest consistent set has from kept to kept_most observations (Houtman and Maks 1985)
%   kept_rows, dropped                such a set with kept observations, and the other observations
%   hm_low, hm_high                   kept and kept_most as shares of the observations
%   levels_low, levels_high, levels_exact      bounds on Varian's index, the mean of 1 - e; levels has the levels e
%   squares_low, squares_high, squares_exact   bounds on the mean of (1 - e)^2, without a root; squares_levels has the levels
%   steps_low, steps_high, steps_exact         bounds on the minimum cost index; removed_steps has a row for each dropped preference
%   pump, pump_cycle                  the maximum money pump index, and a cycle that has it
%   quasilinear_level                 the level at which cyclical monotonicity holds; NaN if it was not found
%   homothetic_low, homothetic_high, homothetic_exact   bounds on the level at which HARP holds; NaN if they were not found
%   reasons                           for each index that was not found, why
%   exact                             the exact bounds, as texts such as '1/10', by the names above
%   numbers, text                     how doubles were taken, and the report, whose numbers are exact
%
% A field that ends in _exact says whether the bounds meet. Bounds on levels meet to 2^-40 for each observation. Numbers are the
% doubles near the exact ones. f.text has the evidence; rp-wide fit --json writes a certificate of it.
%
% References
%   Dean, M. and Martin, D. (2016). Measuring Rationality with the Minimum Cost of Revealed Preference Violations. Review of
%   Economics and Statistics 98, 524-534.
%   Heufer, J. and Hjertstrand, P. (2019). Homothetic Efficiency: Theory and Applications. Journal of Business and Economic
%   Statistics 37, 235-247.
%   Houtman, M. and Maks, J. A. H. (1985). Determining All Maximal Data Subsets Consistent with Revealed Preference. Kwantitatieve
%   Methoden 19, 89-104.
%   Swofford, J. L. and Whitney, G. A. (1987). Nonparametric Tests of Utility Maximization and Weak Separability for Consumption,
%   Leisure and Money. Review of Economics and Statistics 69, 458-464.
%   Varian, H. R. (1990). Goodness-of-Fit in Optimizing Models. Journal of Econometrics 46, 125-140.
%
% See also rp_analyse, rp_pump.
  options = rp_options(varargin, struct('Levels', [], 'Decimals', [], 'Numbers', 'shortest', 'Names', {{}}));
  file = rp_table(p, q, options);
  text = rp_ask({'fit', file.name}, file, 'rp_answer_wide');
  fit = rp_indices(rp_lines(text));
  if ~isequal([fit.observations, fit.pairs], size(p, 1) * [1, size(p, 1) - 1])
    error('rp:Unreadable', 'the report is of a table with another number of observations');
  end
  fit.numbers = rp_taken(options, {p, 1}, {q, 2});
  fit.text = text;
end

function fit = rp_indices(lines)
% The indices of the lines of a report.
  fit = struct('removed_steps', zeros(0, 2), 'quasilinear_level', NaN, 'homothetic_low', NaN, 'homothetic_high', NaN, 'homothetic_exact', NaN);
  fit.reasons = struct('quasilinear_level', 'no evidence was found', 'homothetic_level', 'no evidence was found');
  [fit.exact, item] = deal(struct(), '');
  for at = 1:numel(lines)
    words = lines{at};
    switch words{1}
      case 'observations'
        if at == 1
          fit.observations = str2double(words{2});
        else
          fit.kept_rows = rp_numbers(words(2:end));
          fit.dropped = setdiff(1:fit.observations, fit.kept_rows);
        end
      case 'violations'
        for place = 2:2:8
          fit.([words{place}, '_pairs']) = str2double(words{place + 1});
        end
        fit.pairs = str2double(words{11});
      case 'violating'
        fit.violating_observations = str2double(words{3});
      case 'efficiency'
        [fit.efficiency, fit.ccei, fit.attained] = deal(words{2}, rp_level(words{2}), strcmp(words{4}, 'yes'));
      case 'kept'
        fit = rp_kept(fit, words);
      case 'levels'
        item = 'levels';
        if strcmp(words{2}, 'squares')
          item = 'squares';
        end
        fit = rp_between(fit, item, words(3:end));
        fit.([item, '_exact']) = strcmp(words{end}, 'exact');
      case 'at'
        if ~any(strcmp(words{2}, {'ranks', 'cycle'}))
          names = struct('levels', 'levels', 'squares', 'squares_levels');
          fit.(names.(item)) = cellfun(@rp_level, words(2:end))';
        end
      case 'steps'
        fit = rp_between(fit, 'steps', words(2:end));
        fit.steps_exact = strcmp(words{end}, 'exact');
      case 'removed'
        to = rp_numbers(words(4:end));
        fit.removed_steps = [fit.removed_steps; repmat(str2double(words{2}), numel(to), 1), to(:)];
      case 'pump'
        item = 'pump';
        [fit.pump, fit.exact.pump] = deal(rp_numbers(words(2)), words{2});
      case 'quasilinear'
        item = 'quasilinear';
        [fit.quasilinear_level, fit.exact.quasilinear_level] = deal(rp_level(words{3}), words{3});
        fit.reasons = rmfield(fit.reasons, 'quasilinear_level');
      case 'homothetic'
        item = 'homothetic';
        fit = rp_between(fit, 'homothetic', words(3:end));
        fit.homothetic_exact = fit.homothetic_high - fit.homothetic_low <= 2 ^ -40 + eps;
        fit.reasons = rmfield(fit.reasons, 'homothetic_level');
      case 'cycle'
        if strcmp(item, 'pump')
          fit.pump_cycle = rp_numbers(words(2:end));
        end
      case {'below', 'above', 'ranks', 'groups', 'pairs', 'cycles', 'values'}
        % This is evidence, which the field text has.
      otherwise
        error('rp:Unreadable', 'the report has a line that is not known: %s', strjoin(words, ' '));
    end
  end
end

function fit = rp_kept(fit, words)
% How many observations can be kept: `kept K of N`, or `kept K to M of N`.
  counts = rp_numbers(words(2:2:end));
  [fit.kept, fit.kept_most] = deal(counts(1), counts(end - 1));
  fit.kept_exact = fit.kept == fit.kept_most;
  [fit.hm_low, fit.hm_high] = deal(fit.kept / fit.observations, fit.kept_most / fit.observations);
end

function fit = rp_between(fit, item, words)
% Two bounds, as in `1/10 to 1/5`.
  for side = {'low', 'high'; 1, 3}
    name = [item, '_', side{1}];
    [fit.(name), fit.exact.(name)] = deal(rp_level(words{side{2}}), words{side{2}});
  end
end
