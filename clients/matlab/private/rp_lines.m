function lines = rp_lines(text)
% RP_LINES  The lines of a report, each as its words.
  lines = regexp(strtrim(text), '\n', 'split');
  lines = cellfun(@(it) regexp(strtrim(it), ' ', 'split'), lines, 'UniformOutput', false);
end
