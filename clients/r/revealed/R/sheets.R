# Data as the files that the program is given.
#
# A sheet is such a file: `header` has the names of the file's columns, which are numbers of goods, so that no name of the
# data has to be one that the program takes; `kinds` says of each column whether it has prices, quantities, money or none
# of these; `names` has the data's own names of them, `columns` what stands there, `texts` the same as the program gets it,
# and `labels` what the rows are called.

sheet <- function(file, header, kinds, names, columns, labels, decimals) {
  asked <- forms_of(decimals)
  of_kind <- list(price = asked[[1]], money = asked[[1]], quantity = asked[[2]])
  texts <- lapply(seq_along(columns), function(column) {
    tryCatch(number_texts(columns[[column]], if (nzchar(kinds[column])) of_kind[[kinds[column]]]), rp_too_long = function(it) {
      places <- list(record = it$at, column = column)
      stop(refused(it$fault, file, places, labels[it$at], names[column], conditionMessage(it), plain_hint(it$fault)))
    })
  })
  list(file = file, header = header, kinds = kinds, names = names, columns = columns, texts = texts, labels = labels, forms = asked)
}

# Returns how prices and how quantities become texts: rounded to so many `decimals`, or not where these are NULL, and doubles as the
# shortest decimals that give them back or, where `numbers` is "exact", as the binary fractions that they are.
forms_of <- function(decimals = NULL, numbers = "shortest") {
  if (inherits(decimals, "rp_forms")) return(decimals)
  if (!identical(numbers, "exact") && !identical(numbers, "shortest")) {
    bad_data(
      "numbers is 'shortest', by which a double is the shortest decimal that gives it back, or 'exact', by which it is the binary ",
      "fraction that it is"
    )
  }
  good <- is.null(decimals) || is.numeric(decimals) && length(decimals) %in% 1:2 && all(is.na(decimals) | decimals %in% 0:most_places())
  if (!good) bad_data("decimals is a whole number from 0 to ", most_places(), ", or two of these: of prices and of quantities")
  pair <- if (is.null(decimals)) c(NA, NA) else rep(decimals, length.out = 2)
  structure(lapply(pair, function(it) list(digits = if (!is.na(it)) it, shortest = numbers == "shortest")), class = "rp_forms")
}

is_rounded <- function(forms) !all(vapply(forms, function(it) is.null(it$digits), TRUE))

are_shortest <- function(forms) isTRUE(forms[[1]]$shortest)

# Returns the line that says how numbers of a sheet were taken, where doubles were taken for decimals that are other numbers.
numbers_line <- function(sheet) {
  forms <- list(price = sheet$forms[[1]], money = sheet$forms[[1]], quantity = sheet$forms[[2]])
  of <- function(at) {
    form <- forms[[sheet$kinds[at]]]
    isTRUE(form$shortest) && is.null(form$digits) && any(is_shortened(sheet$columns[[at]]))
  }
  if (any(vapply(which(sheet$kinds %in% names(forms)), of, TRUE))) shortened
}

csv_lines <- function(sheet) {
  # What is no plain number is refused by the program, however it is written; so it is not.
  cells <- lapply(sheet$texts, function(it) ifelse(grepl(plain, it, useBytes = TRUE), it, "?"))
  # So are words that have more than letters.
  cells[sheet$words] <- lapply(sheet$texts[sheet$words], function(it) ifelse(grepl("^[a-z]+$", it, useBytes = TRUE), it, "?"))
  c(paste(sheet$header, collapse = ","), if (length(cells) && length(cells[[1]])) do.call(paste, c(unname(cells), sep = ",")))
}

# Returns how many decimal places the columns of a kind have.
places_of <- function(sheet, kind) max(nchar(places_in(texts_of(sheet, kind))), 0L)

texts_of <- function(sheet, kind) as.character(unlist(sheet$texts[sheet$kinds == kind], use.names = FALSE))

# ---- labels

# Returns the labels as they are told; the rows' numbers where one has none or, unless they have to be told apart, where
# two have one.
row_labels <- function(labels, apart = FALSE, advice = "") {
  if (is.factor(labels)) labels <- as.character(labels)
  labels <- as.vector(labels)
  if (is.double(labels) && all(is.finite(labels)) && all(labels == floor(labels)) && all(abs(labels) < 2^31)) {
    labels <- as.integer(labels)
  }
  twice <- anyDuplicated(labels)
  if (twice && apart) {
    bad_data(
      "rows ", match(labels[twice], labels), " and ", twice, " are both called ", if (is.na(labels[twice])) "NA" else quoted(labels[twice]),
      ", and a table is one unit, such as a subject. ", advice
    )
  }
  if (twice || anyNA(labels)) seq_along(labels) else labels
}

# ---- refusals

# Returns the refusal of a sheet, with the row's label, the column's name, what stands there and a hint.
refusal <- function(sheet, fault, places) {
  record <- places$record
  column <- places$column
  label <- if (is.null(record) || record > length(sheet$labels)) NA else sheet$labels[record]
  name <- if (is.null(column) || column < 1 || column > length(sheet$names)) NA else sheet$names[column]
  value <- NULL
  if (!is.na(label) && !is.na(name)) value <- sheet$columns[[column]][record]
  refused(fault, sheet$file, places, label, name, shown(value), hint_of(sheet, fault, column, value))
}

shown <- function(value) {
  if (is.null(value)) return(NA)
  if (is_missing(value)) return("missing")
  if (is.character(value)) return(quoted(value))
  said <- if (is.factor(value)) quoted(as.character(value)) else format(if (is.double(value)) as.vector(unclass(value)) else value, digits = 15)
  if (nchar(said) > 120) paste0(substr(said, 1, 120), "..") else said
}

is_missing <- function(value) identical(number_texts(value), "")

from_shares <- "If you have shares, multiply them by 1000, or by another power of 10, and round them."

# Returns what to do about a fault, or NA.
hint_of <- function(sheet, fault, column, value) {
  text <- if (is.null(value)) "" else number_texts(value, list(shortest = are_shortest(sheet$forms)))
  if (fault == "BadNumber" && !is.null(value)) {
    if (text == "") return("The value is missing. Leave the row out, or fill in the value.")
    if (grepl("^-[0-9]", text)) return("This number is negative. A price must be above 0, and a quantity 0 or more.")
    if (sheet$names[column] == "n" && grepl("^0*[.]0*[1-9]", text)) return(paste("This is a count, so it is an integer.", from_shares))
    return(plain_hint(if (sheet$names[column] == "e") "BadLevel" else fault))
  }
  switch(fault,
    TooManyDecimals = too_many_places_hint(sheet, sheet$kinds[column]),
    TooLarge = too_large_hint(sheet, sheet$kinds[column]),
    TooFine = too_fine_hint(sheet$kinds[column]),
    plain_hint(fault)
  )
}

# Returns what to do about a number of too many places, in at most four lines.
too_many_places_hint <- function(sheet, kind) {
  if (!kind %in% c("price", "quantity")) {
    return(paste0("It needs more than ", most_places(), " decimal places. Give it as a text of at most ", most_places(), " decimal places."))
  }
  fit <- own_fit(sheet)
  others <- fit$too_fine - 1
  paste(c(
    paste0(
      "It needs more than ", most_places(), " decimal places or ", digits_taken(), " digits",
      if (others == 1) ", as does 1 other number" else if (others > 1) paste0(", as do ", format(others, big.mark = ",", scientific = FALSE), " other numbers"), "."
    ),
    if (kind == "price" && sum(sheet$kinds == "price") == 2 && !isTRUE(sheet$own_money)) {
      "If prices are 1 over an intercept, give the intercepts in columns i_NAME: nothing is rounded then."
    },
    if (!are_shortest(sheet$forms) && fit$shortest) {
      "numbers = 'shortest', the default, takes each double as the shortest decimal that gives it back, and rounds nothing."
    },
    rounding_advice(sheet)
  ), collapse = "\n")
}

too_fine_hint <- function(kind) {
  if (kind == "money") {
    return("It has more decimal places than the new prices and the table's quantities have together. Multiply the new prices and it by 10 until it fits.")
  }
  plain_hint("TooFine")
}

too_large_hint <- function(sheet, kind) {
  if (!nzchar(kind) || kind == "money") return(plain_hint("TooLarge"))
  what <- if (kind == "price") "prices" else "quantities"
  paste0(
    "In units of the last decimal place that any of the ", what, " has, a number is at most ", limit_text("table.largest"), ". ", rounding_advice(sheet),
    " Another unit of the good changes its price and its quantity, and no verdict."
  )
}

# Returns how to round: each kind by the seven digits that are taken of the largest number of it, and what that does.
rounding_advice <- function(sheet) {
  fit <- own_fit(sheet)
  if (any(fit$places %in% -1L)) {
    large <- c("prices", "quantities")[match(-1L, fit$places)]
    return(paste("The largest of the", large, "has more than", digits_taken(), "digits before its point, so no rounding helps. Take a larger unit."))
  }
  # NA leaves a kind as it is that needs no rounding, or that this file has not.
  asked <- ifelse(is.na(fit$places) | fit$fine == 0, "NA", fit$places)
  paste0(
    "decimals = c(", asked[1], ", ", asked[2], ") rounds prices and quantities to the most decimal places that fit. ",
    "Rounded prices can change a verdict."
  )
}

# What fits is told by all that is asked about together, a panel or this file. A panel reckons it once, when it is looked at.
own_fit <- function(sheet) if (is.function(sheet$fit)) sheet$fit() else fit_of(sheet)

# Returns how many places fit, of prices and of quantities, NA where there are none; how many numbers of each need more than are taken;
# and whether doubles fit as the shortest decimals that give them back.
fit_of <- function(sheet) {
  kinds <- c("price", "quantity")
  columns_of <- function(kind) sheet$columns[sheet$kinds == kind]
  places <- vapply(kinds, function(kind) {
    own <- unlist(lapply(columns_of(kind), function(it) largest_texts(it)), use.names = FALSE)
    if (length(own)) places_that_fit(own) else NA_integer_
  }, 0L, USE.NAMES = FALSE)
  too_fine <- function(kind, shortest) sum(vapply(columns_of(kind), function(it) as.numeric(sum(is_too_fine(it, shortest))), 0))
  fine <- vapply(kinds, too_fine, 0, shortest = are_shortest(sheet$forms), USE.NAMES = FALSE)
  shortest <- !any(vapply(kinds, too_fine, 0, shortest = TRUE) > 0)
  list(places = places, fine = fine, too_fine = sum(fine), shortest = shortest)
}

# Returns the texts of a column among which its largest number is.
largest_texts <- function(column) {
  if (is.double(column) && !inherits(column, c("bigz", "bigq", "integer64"))) {
    column <- as.vector(unclass(column))
    column <- column[is.finite(column)]
    return(if (length(column)) number_texts(max(column), list(shortest = TRUE)))
  }
  number_texts(column)
}

# Returns which numbers of a column need more decimal places than are taken, or, of doubles, more digits.
is_too_fine <- function(column, shortest) {
  if (is.double(column) && !inherits(column, c("bigz", "bigq", "integer64"))) return(is_beyond(column, shortest))
  texts <- number_texts(column)
  grepl(plain, texts, useBytes = TRUE) & nchar(places_in(texts)) > most_places()
}
