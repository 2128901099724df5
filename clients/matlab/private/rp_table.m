function [file, told] = rp_table(p, q, options)
% RP_TABLE  The file of a table of prices and quantities, a row for each observation and a column for each good.
  if ~isequal(size(p), size(q)) || ndims(p) ~= 2 || isempty(p)
    error('rp:BadData', 'prices and quantities are two matrices of one size, a row for each observation: these are %s and %s', ...
      mat2str(size(p)), mat2str(size(q)));
  end
  goods = size(p, 2);
  names = options.Names;
  if isempty(names)
    names = arrayfun(@(it) sprintf('%d', it), 1:goods, 'UniformOutput', false);
  elseif ~iscellstr(names) || numel(names) ~= goods
    error('rp:BadData', '''Names'' has a text for each of the %d goods', goods);
  end
  heads = [strcat('p_', names(:)'), strcat('q_', names(:)')];
  columns = {rp_texts(p, 'prices', rp_how(options, 1)), rp_texts(q, 'quantities', rp_how(options, 2))};
  if isfield(options, 'Levels') && ~isempty(options.Levels)
    levels = options.Levels;
    if isnumeric(levels) && isscalar(levels)
      levels = repmat(levels, size(p, 1), 1);
    end
    if numel(levels) ~= size(p, 1)
      error('rp:BadData', '''Levels'' has one number, or one for each of the %d observations: shares such as 0.95, or thousandths such as 950', size(p, 1));
    end
    levels = rp_thousandths(levels);
    heads{end + 1} = 'e';
    columns{end + 1} = rp_texts(levels(:), 'levels', []);
  end
  file = rp_file('table.csv', heads, columns);
  told = struct('goods', goods, 'rows', size(p, 1), 'names', {names(:)'});
end
