function axes_ = rp_plot(p, q, varargin)
% RP_PLOT  Draws the budget lines and the choices of a table of two goods, with a cycle that violates GARP.
%
%   rp_plot(p, q)          options are those of rp_analyse
%
% Budget lines go through the chosen bundles, by what these cost. The picture is in doubles.
  if size(p, 2) ~= 2
    error('rp:BadData', 'the picture is of two goods, and this table has %d', size(p, 2));
  end
  verdict = rp_analyse(p, q, varargin{:});
  [p, q] = deal(double(p), double(q));
  spent = sum(p .* q, 2);
  axes_ = gca();
  hold(axes_, 'on');
  for row = 1:size(p, 1)
    plot(axes_, [0, spent(row) / p(row, 1)], [spent(row) / p(row, 2), 0], '-', 'color', [0.6, 0.6, 0.6]);
  end
  plot(axes_, q(:, 1), q(:, 2), 'ko', 'markerfacecolor', 'k');
  for row = 1:size(p, 1)
    text(q(row, 1), q(row, 2), sprintf('  %d', row), 'parent', axes_);
  end
  if ~verdict.garp
    walk = verdict.cycle;
    plot(axes_, q(walk, 1), q(walk, 2), 'r--');
    title(axes_, sprintf('GARP violated by %s; CCEI %s', strjoin(cellfun(@num2str, num2cell(walk), 'UniformOutput', false), ', '), verdict.efficiency));
  else
    title(axes_, 'GARP holds');
  end
  xlabel(axes_, 'good 1');
  ylabel(axes_, 'good 2');
  hold(axes_, 'off');
end
