function [value, reason, rest] = rp_bound(words)
% RP_BOUND  A bound at the head of words: its value, or NaN and why it is withheld; and the words behind it.
  reason = '';
  if strcmp(words{1}, 'withheld')
    value = NaN;
    reason = strjoin(words(1:2), ' ');
    rest = words(3:end);
  else
    value = rp_numbers(words(1));
    rest = words(2:end);
  end
end
