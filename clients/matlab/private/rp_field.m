function fields = rp_field(texts)
% RP_FIELD  Texts as fields of CSV: one with a comma, a quote or an end of a line is quoted.
  fields = texts;
  at = ~cellfun('isempty', regexp(texts, sprintf('[",\r\n]'), 'once'));
  fields(at) = strcat('"', strrep(texts(at), '"', '""'), '"');
end
