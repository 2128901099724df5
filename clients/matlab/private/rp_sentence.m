function said = rp_sentence(fault)
% RP_SENTENCE  What is wrong and what to do about a fault; '' where nothing is known. Written by tools/make/catalogue.
  switch fault
    case 'Empty'
      said = 'The file is empty. Check the program that should have written it.';
    case 'Ragged'
      said = 'This row has more or fewer fields than there are column names. Look for decimal commas, missing fields and commas inside a name.';
    case 'BadHeader'
      said = 'This kind of file does not have a column with this name. Rename or delete the column; a table has p_NAME and q_NAME for each good NAME.';
    case 'TwiceNamed'
      said = 'An earlier column has the same name. Rename one of the two columns.';
    case 'Unpaired'
      said = 'A column is missing: the other half of this good, or a required column if the column is 0. Add the missing column; each good of a table needs p_NAME and q_NAME.';
    case 'TooManyGoods'
      said = 'The file has more than 16 goods. Aggregate goods, or leave some of them out.';
    case 'NoRecords'
      said = 'The file has column names and no rows. Add the observations.';
    case 'TooManyRecords'
      said = 'The file has more rows than this kind of file can have. Split the data; a table has at most 512 observations.';
    case 'BadNumber'
      said = 'This field is not a number, or not an integer where an integer is needed. Write digits with a decimal point, without a sign, an exponent or a thousands separator.';
    case 'TooManyDecimals'
      said = 'This number has more than 6 decimal places. Round the numbers of this kind to 6 decimal places or fewer.';
    case 'ZeroPrice'
      said = 'This price is 0, and every price must be positive. Use a positive price, or leave out the row or the good.';
    case 'BadLevel'
      said = 'This efficiency level is not an integer from 1 to 1000. Write it in thousandths: 950 is 0.95.';
    case 'ZeroBundle'
      said = 'All quantities of this row are 0, or its expenditure is 0. Leave out the row.';
    case 'TooLarge'
      said = 'This number is too large: with its decimal places, a price or a quantity has at most 7 digits. Round to fewer decimal places, or use a larger unit.';
    case 'OtherGoods'
      said = 'This good is missing in the other file, or, if the column is 0, a good of the other file is missing here. Use the same goods in both files.';
    case 'UnknownBudget'
      said = 'The file of budgets does not have a budget with this number. Use the number of a row of that file, counted from 1.';
    case 'TooFine'
      said = 'This number has more decimal places than the first file leaves room for. Multiply new prices and m by 10, or all quantities of both files, until it fits.';
    case 'NoChoices'
      said = 'Nobody chose from this budget. Leave out the budget, or add its choices.';
    case 'BadMenu'
      said = 'This is not a menu. Write different letters from a to f in alphabetical order, such as acd.';
    case 'BadChoice'
      said = 'This choice is not exactly one letter of its menu. Correct the choice or the menu.';
    case 'NoMenus'
      said = 'Every n of the file is 0, so the file has no choices. Add choices.';
    case 'TooManyCells'
      said = 'With this row, the menus have more than 64 letters together. Leave out menus.';
    case 'NotJson'
      said = 'The certificate is not valid JSON. Use the file exactly as the program wrote it, in UTF-8.';
    case 'BadVersion'
      said = 'This command does not read certificates of this version. Write the certificate again with this release.';
    case 'BadShape'
      said = 'This item does not have the form of an item; item 0 is the whole certificate. Use the certificate as the program wrote it, and the command for its kind.';
    case 'TooLong'
      said = 'The file has too many bytes. Split the file; data have at most 4 MiB, certificates 16 MiB and long files 64 MiB.';
    case 'OwnLevels'
      said = 'This command does not take efficiency levels of observations. Leave out the column e.';
    case 'TooManyPatches'
      said = 'The budgets up to this one have too many patches. Use fewer budgets; rp-wide takes 256 patches, and rp takes 48.';
    case 'NeedUnit'
      said = 'The common denominator of the shares is above 1000000000. Use ''Per'', 10000: the result is about the rounded shares.';
    case 'TooManyCombinations'
      said = 'The patches of the budgets have too many combinations to list. Use rp-wide, which does not list them, or fewer budgets.';
    case 'TooManyTypes'
      said = 'There are more than 4096 rational types. Use rp-wide, which does not list them, or fewer budgets.';
    case 'NoIdColumn'
      said = 'The file does not have a column with the name of the ids. Name the column with the key.';
    case 'NoKeptColumn'
      said = 'A column that --keep names is not in the file. Write the name exactly as the file has it.';
    case 'NoId'
      said = 'This row has an empty id. Fill in the id, or delete the row.';
    case 'LongId'
      said = 'This id has more than 256 bytes. Use a shorter id.';
    otherwise
      said = '';
  end
end
