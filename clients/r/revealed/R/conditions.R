# What can go wrong: conditions of the class rp_error, each of a class of its own.

problem <- function(class, message, ...) {
  structure(class = c(class, "rp_error", "error", "condition"), list(message = message, call = NULL, ...))
}

# The data have not the shape that is asked for; the program was not run.
bad_data <- function(...) stop(problem("rp_bad_data", paste0(...)))

no_program <- function(...) stop(problem("rp_no_program", paste0(...)))

# The program ended without an answer, and not because of the data.
failed <- function(status, said) {
  message <- paste0("rp ended with status ", status, if (nzchar(said)) ": ", said)
  problem("rp_failed", message, status = as.integer(status), said = said)
}

# The program ended well, and what it said is no answer of rp: most likely it is another program of that name.
no_answer <- function(text) {
  said <- gsub("[[:cntrl:]]+", " ", substr(text, 1, 60), useBytes = TRUE)
  message <- paste0(
    "what was called as rp ended with status 0, and what it said is no answer of rp: ", quoted(said), "; rp_program() tells what is called"
  )
  problem("rp_failed", message, status = 0L, said = said)
}

# Returns what is read from an answer; what cannot be read so is no answer.
reading <- function(text, value) {
  force(text)
  found <- tryCatch(list(value), error = identity, warning = identity)
  if (inherits(found, "rp_error")) stop(found)
  if (inherits(found, "condition")) stop(no_answer(text))
  found[[1]]
}

# The data were refused. Each place that the fault has not is NA.
refused <- function(fault, file = "table", places = list(), label = NA, name = NA, value = NA, hint = NA) {
  place <- function(kind) if (is.null(places[[kind]])) NA_integer_ else places[[kind]]
  kinds <- c("budget", "menu", "item", "record", "column")
  places <- named(lapply(kinds, place), kinds)
  told <- c(
    if (!identical(file, "table")) file,
    if (!is.na(label)) paste(if (is.na(places$budget)) "row" else "budget", quoted(label)),
    if (!is.na(name)) paste("column", quoted(name)),
    if (!is.na(value)) paste("value", value)
  )
  known <- places[!is.na(places)]
  # The place, what is wrong and what to do, and at the end the program's own words for it.
  hint_told <- if (!is.na(hint)) hint else if (length(told)) "an error" else "the data have an error"
  message <- paste0(
    if (length(told)) paste0(paste(told, collapse = ", "), ": "), hint_told,
    " [", paste(c(fault, paste(names(known), unlist(known))[length(known) > 0]), collapse = " "), "]"
  )
  problem(
    "rp_refused", message, status = 4L, fault = fault, file = file, record = places$record, column = places$column,
    budget = places$budget, menu = places$menu, item = places$item, label = label, name = name, value = value, hint = hint
  )
}

quoted <- function(x) if (is.character(x)) paste0("'", x, "'") else as.character(x)

# Returns some texts in one line, the first twelve of them.
listed <- function(x) {
  if (!length(x)) return("none")
  paste0(paste(quoted(as.character(utils::head(x, 12))), collapse = ", "), if (length(x) > 12) ", ..")
}

named <- function(x, names) {
  names(x) <- names
  x
}

# ---- what a caller gives beside data

# Returns a whole number from `low` to `high` as its digits, which are all that is told to the program.
whole_word <- function(x, what, low, high) {
  text <- if (length(x) == 1 && (is.numeric(x) || is.character(x) || inherits(x, "bigz")) && !is.na(x)) tryCatch(number_texts(x), rp_too_long = function(it) "") else ""
  good <- grepl("^[0-9]{1,20}$", text, useBytes = TRUE)
  text <- if (good) sub("^0+(?=[0-9])", "", text, perl = TRUE) else text
  if (!good || least(text, low) != low || least(text, high) != text) bad_data(what, " is a whole number from ", low, " to ", high)
  text
}

# The same of a number, or of an option's number, of a command, within its range.
word_within <- function(x, what, command, name) {
  range <- range_of(command, name)
  whole_word(x, what, range[1], range[2])
}

# Returns the lesser of two whole numbers by their digits.
least <- function(a, b) {
  if (nchar(a) != nchar(b)) return(if (nchar(a) < nchar(b)) a else b)
  if (order_of(a, b) > 0) b else a
}

# Returns the one of some words that an argument is; the first where it is left as it stands in the call.
chosen <- function(x, words, what) {
  if (identical(x, words)) return(words[1])
  if (!is.character(x) || length(x) != 1 || !x %in% words) bad_data(what, " is one of ", listed(words))
  x
}

is_switch <- function(x) is.logical(x) && length(x) == 1 && !is.na(x)
