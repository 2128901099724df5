# The program's checker of certificates.

rp_check <- function(data, certificate, per = NULL, levels = NULL, exe = NULL, wide = TRUE) {
  of <- files_of(data, per, levels)
  bytes <- certificate_bytes(certificate)
  is_fit <- of$command == "check" && grepl("\"kind\"[[:space:]]*:[[:space:]]*\"fit\"", text_of_bytes(bytes), useBytes = TRUE)
  words <- c(if (is_fit) "checkfit" else of$command, names(of$files), "certificate.json", units_of(of$per))
  of$files$certificate.json <- bytes
  given <- if (is_fit) asked_fit(words, of, fit_engine(exe)) else ask_choices(words, of$files, engine_of(exe), of$sheets, wide, good = 0:1)
  checked <- reading(given$text, checked_from(given$text, given$is_wide, is_fit))
  checked$says <- check_says(checked, text_of_bytes(of$files$certificate.json), isTRUE(of$sheets[[1]]$own_money))
  checked
}

rp_checkrandom <- function(budgets, choices, certificate, per = NULL, exe = NULL, wide = TRUE) {
  rp_check(list(budgets = budgets, choices = choices), certificate, per, exe = exe, wide = wide)
}

# Goodness of fit is checked by the wider edition, which alone has it.
asked_fit <- function(words, of, engine) list(text = text_of(long_answer(words, of$files, engine), of$sheets, good = 0:1), is_wide = TRUE)

checked_from <- function(text, is_wide = FALSE, is_fit = FALSE) {
  # A certificate on goodness of fit leaves nothing undetermined.
  line <- sub("\n$", "", text)
  said <- numbers_of(if (is_fit) sub("^(accepted items [0-9]+)$", "\\1 withheld 0", line) else line, "^(accepted items ([0-9]+) withheld ([0-9]+)|rejected item ([0-9]+) ([A-Za-z]+) place ([0-9]+))$")
  accepted <- startsWith(text, "accepted")
  number <- function(at) if (nzchar(said[at])) as.integer(said[at]) else NA_integer_
  structure(class = "rp_checked", list(
    accepted = accepted, items = number(2), withheld = number(3), item = number(4), reason = if (accepted) NA_character_ else said[5],
    place = number(6), wide = is_wide, line = line
  ))
}

print.rp_checked <- function(x, ...) {
  cat(x$line, if (x$accepted && x$items == 0) ": it has no items, and nothing is proved", "\n", sep = "")
  if (length(x$says)) writeLines(x$says)
  invisible(x)
}

# Returns a line for each item of an accepted certificate, whose values are those that the program looked at; of a rejected one what the
# item that fails claims, why it fails, and what that means.
check_says <- function(checked, text, own_money) {
  found <- tryCatch(read_json(text), error = function(wrong) list())
  told <- tryCatch(vapply(found$items, item_says, "", levels = found$levels, own_money = own_money), error = function(wrong) character())
  if (checked$accepted) {
    withheld <- vapply(found$items, function(it) "withheld" %in% names(it), TRUE)
    return(if (length(told)) paste0("item ", seq_along(told), " ", told, ": ", ifelse(withheld, "nothing is said", "proved")) else character())
  }
  what <- if (checked$item == 0) "the certificate" else paste("item", checked$item)
  if (checked$item > 0 && checked$item <= length(told)) what <- paste(what, told[checked$item])
  why <- sentence(checked$reason, "reason")
  c(paste0(what, ": not proved.", if (!is.na(why)) paste0(" ", why)), rejection_means)
}

rejection_means <- "What is not proved may be true or false: the certificate does not prove it on these data, or is of other data."

# Returns the verdict of an item in a few words, as Python's `verify` has it.
item_says <- function(item, levels = NULL, own_money = FALSE) {
  kind <- item$item
  has <- function(name) name %in% names(item)
  if (has("withheld")) return(paste(kind, "withheld"))
  if (kind %in% names(fit_says)) return(fit_says[[kind]](item))
  bound <- function(it) if ("withheld" %in% names(it)) "withheld" else it$value
  if (kind == "efficiency") return(paste("efficiency", item$level, "attained", if (has("at_ranks")) "yes" else "no"))
  if (kind == "random") return(if (has("weights")) paste("random violated, maximum share", share_made(item)) else "random mixture")
  if (kind %in% c("demand", "welfare") && has("cycle")) return(paste(kind, "none, since the axiom is violated"))
  if (kind == "demand") {
    return(paste("demand", paste(vapply(item$goods, function(it) paste(bound(it$lower), "to", bound(it$upper)), ""), collapse = ", "), "(scaled)"))
  }
  if (kind == "welfare") return(paste("welfare of", item$observation, bound(item$lower), "to", item$upper, "(scaled)"))
  said <- paste(kind, if (has("cycle")) "violated" else "holds")
  if (kind %in% c("garp", "afriat") && length(levels)) said <- paste0(said, " at the levels ", levels_told(levels))
  if (kind == "quasilinear" && own_money) said <- paste(said, "on the exchanged intercepts as prices of one unit of money, which is not told of the data")
  said
}

# What the items on goodness of fit say, in a few words.
fit_says <- list(
  violations = function(it) paste0("violations: garp ", it$garp, ", wgarp ", it$wgarp, ", warp ", it$warp, ", sarp ", it$sarp, ", observations ", it$observations),
  kept = function(it) paste0("kept ", length(it$kept), if (length(it$kept) != as.numeric(it$most)) paste(" to", it$most)),
  levels = function(it) paste("levels,", c(mean = "mean of 1 - e", squares = "mean of (1 - e)^2")[[it$measure]], "between the bounds of this evidence"),
  steps = function(it) paste("steps of a cost of at most", it$cost, "(scaled)"),
  pump = function(it) paste("pump", fraction(it$num, it$den)),
  quasilinear_level = function(it) paste("quasilinear level", fraction(it$num, it$den)),
  homothetic_level = function(it) paste("homothetic level", fraction(it$low, "1099511627776"), "to", fraction(it$high, "1099511627776"))
)

# Returns levels in thousandths as shares, the first eight of them.
levels_told <- function(levels) {
  told <- paste(sprintf("%g", as.numeric(utils::head(levels, 8)) / 1000), collapse = ", ")
  if (length(levels) > 8) paste(told, "and", length(levels) - 8, "more") else told
}

# Returns the share of all choices that the parts of an item make.
share_made <- function(item) {
  made <- sum_of(vapply(item$parts, function(it) as.character(it[[2]]), ""))
  fraction(made, digits_of(product(limbs(item$den), limbs(item$total))))
}

# Returns the files of some data: an answer, a table, or the names of files; or budgets and choices.
files_of <- function(data, per, levels) {
  if (inherits(data, "rp_random")) data <- data$choices
  if (inherits(data, c("rp_test", "rp_demand", "rp_welfare", "rp_fit"))) data <- data$table
  if (is.character(data) && is.null(dim(data)) && length(data) %in% 1:2) return(named_files(data, per, levels))
  if (is.list(data) && !is.data.frame(data) && !inherits(data, c("rp_table", "rp_choices"))) {
    if (length(data) != 2) bad_data("data: a list has prices and quantities, or budgets and choices")
    second <- data[[2]]
    is_choices <- all(c("budget", "n") %in% names(second)) || identical(names(data), c("budgets", "choices"))
    data <- if (is_choices) choices_of(data[[1]], second, per, NULL) else table_of(data[[1]], second, levels = levels)
    levels <- NULL
  }
  if (inherits(data, "rp_choices")) {
    units <- if (is.null(per)) data$per else per_word(per)
    return(list(command = "checkrandom", files = choice_files(data), per = units, sheets = list(data$budgets, data$choices)))
  }
  if (!is.null(per)) bad_data("per is asked of budgets and choices, and not of a table")
  table <- table_of(data, levels = levels)
  list(command = "check", files = list(table.csv = csv_lines(table)), per = NULL, sheets = list(table))
}

named_files <- function(paths, per, levels) {
  if (!is.null(levels)) bad_data("a file has its levels in its column e")
  bytes <- lapply(paths, file_bytes)
  if (length(paths) == 1) return(list(command = "check", files = list(table.csv = bytes[[1]]), sheets = list()))
  list(command = "checkrandom", files = named(bytes, c("budgets.csv", "choices.csv")), per = per_word(per), sheets = list())
}

file_bytes <- function(path) {
  if (!file.exists(path) || dir.exists(path)) bad_data("there is no file ", quoted(path))
  read_bytes(path)
}

# Returns the bytes of a certificate: an answer's own, a text, or those of a file. A text of one line that is the name of
# a file is taken as that, unless it begins with a brace or a bracket.
certificate_bytes <- function(certificate) {
  if (inherits(certificate, "rp_fit") && is.null(certificate$certificate)) {
    bad_data("the fit of a unit of a panel has no certificate: call rp_fit on the rows of the unit, or keep the certificates of all by certificates =")
  }
  if (inherits(certificate, c("rp_test", "rp_demand", "rp_welfare", "rp_random", "rp_fit"))) certificate <- certificate$certificate
  if (is.raw(certificate)) return(certificate)
  if (!is.character(certificate) || !length(certificate) || anyNA(certificate)) bad_data("a certificate is an answer, a text, or the name of a file")
  text <- paste(certificate, collapse = "\n")
  if (grepl("^[[:space:]]*[[{]", text, useBytes = TRUE) || grepl("\n", text, fixed = TRUE)) return(charToRaw(text))
  if (!file.exists(text) || dir.exists(text)) {
    bad_data("the certificate is neither a text that begins with a brace, nor the name of a file: ", quoted(substr(text, 1, 60)))
  }
  read_bytes(text)
}
