function names = rp_panel_columns()
% RP_PANEL_COLUMNS  The columns of the table that the call of panels gives.
  names = {'household', 'observations', 'goods', 'garp', 'efficiency', 'efficiency_floor', 'attained', 'homothetic', 'quasilinear', ...
    'pump', 'pump_floor', 'power', 'fault', 'record', 'column'};
end
