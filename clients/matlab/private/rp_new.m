function [file, places] = rp_new(new, m, names, options)
% RP_NEW  The file of new prices, with what is spent where that is given, and the decimal places of its prices.
  if size(new, 2) ~= numel(names)
    error('rp:BadData', 'new prices have a column for each of the %d goods, and a row for each question', numel(names));
  end
  texts = rp_texts(new, 'new prices', rp_how(options, 1));
  heads = strcat('p_', names);
  columns = {texts};
  if ~isempty(m)
    if numel(m) ~= size(new, 1)
      error('rp:BadData', 'what is spent has a number for each row of new prices');
    end
    heads{end + 1} = 'm';
    columns{end + 1} = rp_texts(m(:), 'what is spent', rp_how(options, 1));
  end
  file = rp_file('new.csv', heads, columns);
  places = 0;
  for at = 1:numel(texts)
    behind = regexp(texts{at}, '\.(\d*[1-9])0*$', 'tokens', 'once');
    if ~isempty(behind)
      places = max(places, numel(behind{1}));
    end
  end
end
