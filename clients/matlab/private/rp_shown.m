function shown = rp_shown(text)
% RP_SHOWN  A text as it is told, cut where it is long.
  shown = text;
  if numel(shown) > 30
    shown = [shown(1:30), '..'];
  end
end
