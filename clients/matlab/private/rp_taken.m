function said = rp_taken(options, varargin)
% RP_TAKEN  How numbers were taken, where doubles were taken for decimals that are other numbers; else ''. Each of the rest is a pair
% of numbers and their kind, 1 for prices and 2 for quantities. A binary fraction of at most six places is whole in 64ths.
  said = '';
  for at = 1:numel(varargin)
    [numbers, kind] = varargin{at}{:};
    if isa(numbers, 'double') && strcmp(rp_how(options, kind), 'shortest') && any(numbers(:) * 64 ~= fix(numbers(:) * 64))
      said = 'shortest decimals of doubles';
    end
  end
end
