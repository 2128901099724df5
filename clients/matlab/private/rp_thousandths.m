function levels = rp_thousandths(levels)
% RP_THOUSANDTHS  Levels in thousandths of what was spent. Levels of which none is above 1, and one is between 0 and 1, are shares: 0.95 is
% 950 thousandths. Others are thousandths already, and what is not an integer of them stays as it is, to be refused.
  if ~isfloat(levels) || any(levels > 1) || ~any(levels > 0 & levels < 1)
    return
  end
  whole = round(levels * 1000);
  is_so = abs(levels * 1000 - whole) < 1e-9;
  levels(is_so) = whole(is_so);
end
