function hint = rp_hint(fault)
% RP_HINT  What is wrong and what to do about a fault, behind a colon; nothing where there is nothing to say.
  switch fault
    case 'TooManyDecimals'
      hint = ['It needs more than 6 decimal places or 7 digits. ', ...
        'If prices are 1 over an intercept, take the intercept of y as the price of x, and that of x as the price of y. ', ...
        '''Decimals'', [2 0] rounds prices and quantities to so many decimal places. Rounded prices can change a verdict. ', ...
        '''Numbers'', ''shortest'', the default, takes each double as the shortest decimal that gives it back.'];
    case 'Pooled'
      hint = 'Two rows of this unit have one label of obs, as where several units are one. Name more columns that tell units apart.';
    otherwise
      hint = rp_sentence(fault);
  end
  if any(strcmp(fault, {'TooManyCombinations', 'TooManyTypes'}))
    hint = [hint, ' Leave ''Wide'', false out.'];
  end
  if ~isempty(hint)
    hint = [': ', hint];
  end
end
