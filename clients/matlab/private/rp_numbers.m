function numbers = rp_numbers(words)
% RP_NUMBERS  Whole numbers or fractions of a report as doubles; a list that is none has no numbers.
  if numel(words) == 1 && strcmp(words{1}, 'none')
    numbers = zeros(1, 0);
    return
  end
  numbers = cellfun(@rp_number, words);
end

function number = rp_number(word)
  parts = regexp(word, '/', 'split');
  number = str2double(parts{1});
  if numel(parts) == 2
    number = number / str2double(parts{2});
  end
end
