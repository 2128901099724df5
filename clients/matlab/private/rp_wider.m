function [text, own] = rp_wider(words, files, options)
% RP_WIDER  The answer of a command, and that of rp itself: where rp withholds something that the wider edition seeks evidence of,
% or refuses choices from budgets that it takes, the answer is the wider edition's; of what rp refuses its own is ''. With the option
% Wide off both are that of rp.
  try
    own = rp_ask(words, files);
  catch wrong
    refused = {'rp:Refused:TooManyPatches', 'rp:Refused:TooManyCombinations', 'rp:Refused:TooManyTypes'};
    if ~options.Wide || ~any(strcmp(wrong.identifier, refused))
      rethrow(wrong);
    end
    own = '';
    text = rp_ask(words, files, 'rp_answer_wide');
    return
  end
  text = own;
  withheld = ' withheld ';
  if strcmp(words{1}, 'analyse')
    withheld = '(^|\n)homothetic withheld ';
  end
  if options.Wide && ~isempty(regexp(own, withheld, 'once'))
    text = rp_ask(words, files, 'rp_answer_wide');
  end
end
