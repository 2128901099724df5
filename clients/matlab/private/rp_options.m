function chosen = rp_options(given, known)
% RP_OPTIONS  Options by name and value over those that are known, which are a struct of what they are where they are not said.
  chosen = known;
  if mod(numel(given), 2) ~= 0
    error('rp:BadData', 'options come in pairs of a name and a value: %s', strjoin(fieldnames(known)', ', '));
  end
  for at = 1:2:numel(given)
    name = given{at};
    if ischar(name) && strcmp(name, 'Places') && isfield(chosen, 'Decimals')
      % Its older name.
      name = 'Decimals';
    end
    if ~ischar(name) || ~isfield(known, name)
      error('rp:BadData', 'the options here are %s, and not %s', strjoin(fieldnames(known)', ', '), char(name));
    end
    chosen.(name) = given{at + 1};
  end
  if isfield(chosen, 'Numbers') && ~any(strcmp(chosen.Numbers, {'shortest', 'exact'}))
    error('rp:BadData', '''Numbers'' is ''shortest'' or ''exact''');
  end
end
