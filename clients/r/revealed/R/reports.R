# Answers that are read from the program's report: contradictions, the money pump, the power of the test, trials.

# Returns the lines of a report.
report_of <- function(text) {
  lines <- strsplit(text, "\n", fixed = TRUE)[[1]]
  stopifnot(length(lines) > 0, endsWith(text, "\n"), validUTF8(text))
  list(lines = lines)
}

# Returns the first line that begins with a word, and what stands behind it.
line_of <- function(report, word) {
  found <- report$lines[startsWith(report$lines, paste0(word, " "))]
  stopifnot(length(found) > 0)
  substring(found[1], nchar(word) + 2)
}

second_word <- function(report, word) strsplit(line_of(report, word), " ", fixed = TRUE)[[1]][1]

# Returns the entries of a list, which is `none` where there are none.
words_of <- function(report, word) {
  found <- strsplit(line_of(report, word), " ", fixed = TRUE)[[1]]
  if (identical(found, "none")) character() else found
}

# Returns whether the verdict of a line is the first of two words, or NA where it is withheld.
holds_in <- function(report, word, words = c("holds", "violated"), may_be_withheld = FALSE) {
  said <- second_word(report, word)
  stopifnot(said %in% c(words, "withheld"[may_be_withheld]))
  if (said == "withheld") NA else said == words[1]
}

# Returns the whole numbers of a line of words and numbers, as `power 7 draws 10 violations 3`.
numbers_of <- function(line, form) {
  parts <- regmatches(line, regexec(form, line, perl = TRUE))[[1]]
  stopifnot(length(parts) > 1)
  parts[-1]
}

# ---- two observations that contradict each other

rp_pairs <- function(p, q = NULL, decimals = digits, levels = NULL, numbers = "shortest", exe = NULL, digits = NULL) {
  table <- table_of(p, q, forms_of(decimals, numbers), levels)
  text <- ask(c("pairs", "table.csv"), list(table.csv = csv_lines(table)), engine_of(exe), list(table))
  reading(text, {
    said <- line_of(report_of(text), "pair")
    pair <- if (said != "none") walk_of(table, numbers_of(said, "^([0-9]+) ([0-9]+)$"))
    structure(class = "rp_pairs", list(contradiction = !is.null(pair), pair = pair, table = table))
  })
}

rp_first_contradiction <- rp_pairs

print.rp_pairs <- function(x, ...) {
  cat(table_lines(x$table), paste("pair", if (x$contradiction) paste(x$pair, collapse = " ") else "none"), sep = "\n")
  invisible(x)
}

as.data.frame.rp_pairs <- function(x, row.names = NULL, optional = FALSE, ...) {
  label <- function(at) if (x$contradiction) x$pair[at] else x$table$labels[NA_integer_]
  frame_of(list(contradiction = x$contradiction, first = label(1), second = label(2)))
}

# ---- money pump

rp_money_pump <- function(p, q = NULL, decimals = digits, numbers = "shortest", exe = NULL, digits = NULL) {
  pump_on(table_of(p, q, forms_of(decimals, numbers)), engine_of(exe))
}

rp_pump <- rp_money_pump

pump_on <- function(table, engine) {
  if (table$own_money) bad_data("the money pump: ", own_money)
  read_pump(table, ask(c("pump", "table.csv"), list(table.csv = csv_lines(table)), engine, list(table)))
}

read_pump <- function(table, text) reading(text, {
  report <- report_of(text)
  ratio <- one_exact(line_of(report, "pump"))
  den <- fraction_parts(bare(ratio))$den
  scale <- paste0(den, strrep("0", money_places(table)))
  values <- vapply(words_of(report, "values"), fraction, "", den = scale, USE.NAMES = FALSE)
  structure(class = "rp_pump", list(
    ratio = ratio, pump = nearest_double(ratio), garp = bare(ratio) == "0", cycle = walk_of(table, words_of(report, "cycle")),
    values = exact_by_label(table, values), report = report$lines, table = table
  ))
})

print.rp_pump <- function(x, ...) {
  cat(table_lines(x$table), paste("pump", bare(x$ratio)), paste("cycle", paste(x$cycle, collapse = " ")), sep = "\n")
  invisible(x)
}

as.data.frame.rp_pump <- function(x, row.names = NULL, optional = FALSE, ...) {
  frame_of(c(beside("pump", x$ratio, exact_name = "pump_ratio"), list(cycle = paste(x$cycle, collapse = " "))))
}

# ---- the power of the test

rp_power <- function(p, q = NULL, seed, draws = 1000, decimals = digits, numbers = "shortest", exe = NULL, digits = NULL) {
  if (missing(seed)) bad_data("there is no seed: give the argument seed, a whole number")
  power_on(table_of(p, q, forms_of(decimals, numbers)), power_words(seed, draws), engine_of(exe))
}

rp_test_power <- rp_power

power_words <- function(seed, draws) c(word_within(seed, "seed", "power", "SEED"), word_within(draws, "draws", "power", "N"))

power_on <- function(table, words, engine) {
  read_power(table, words, ask(c("power", "table.csv", words), list(table.csv = csv_lines(table)), engine, list(table)))
}

read_power <- function(table, words, text) reading(text, {
  said <- numbers_of(line_of(report_of(text), "power"), "^([0-9]+) draws ([0-9]+) violations ([0-9]+)$")
  stopifnot(identical(said[1:2], words), as.integer(said[3]) <= as.integer(said[2]))
  structure(class = "rp_power", list(
    power = as.integer(said[3]) / as.integer(said[2]), violations = as.integer(said[3]), draws = as.integer(said[2]), seed = said[1], table = table
  ))
})

print.rp_power <- function(x, ...) {
  said <- paste0("of ", x$draws, " random behaviours on these budgets, ", x$violations, " violate garp (seed ", x$seed, ")")
  cat(table_lines(x$table), said, sep = "\n")
  invisible(x)
}

as.data.frame.rp_power <- function(x, row.names = NULL, optional = FALSE, ...) frame_of(unclass(x)[c("power", "violations", "draws", "seed")])

# ---- trials

rp_trial <- function(seed, rows, goods, exe = NULL, wide = TRUE) {
  words <- c(word_within(seed, "seed", "trial", "SEED"), word_within(rows, "rows", "trial", "ROWS"), word_within(goods, "goods", "trial", "GOODS"))
  given <- ask_wide(c("trial", words), list(), engine_of(exe), wide = wide)
  text <- given$text
  reading(text, {
    report <- report_of(text)
    stopifnot(identical(numbers_of(line_of(report, "trial"), "^([0-9]+) rows ([0-9]+) goods ([0-9]+)$"), words))
    index <- numbers_of(line_of(report, "efficiency"), "^([0-9]+(?:/[0-9]+)?) attained (yes|no)$")
    homothetic <- holds_in(report, "homothetic", may_be_withheld = TRUE)
    structure(class = "rp_trial", list(
      garp = holds_in(report, "garp"), efficiency = exact(index[1]), ccei = nearest_double(exact(index[1])), attained = index[2] == "yes",
      homothetic = homothetic, quasilinear = holds_in(report, "quasilinear"), words = words,
      wide = if (!is.null(given$stated) && !is.na(homothetic)) "homothetic" else character()
    ))
  })
}

rp_random_trial <- rp_trial

print.rp_trial <- function(x, ...) {
  cat(
    paste("trial", x$words[1], "rows", x$words[2], "goods", x$words[3]), paste("garp", verdict_word(x$garp)),
    paste("efficiency", bare(x$efficiency), "attained", if (x$attained) "yes" else "no"),
    paste0("homothetic ", verdict_word(x$homothetic), if (length(x$wide)) by_wide), paste("quasilinear", verdict_word(x$quasilinear)), sep = "\n"
  )
  invisible(x)
}

as.data.frame.rp_trial <- function(x, row.names = NULL, optional = FALSE, ...) {
  frame_of(c(
    list(seed = x$words[1], rows = as.integer(x$words[2]), goods = as.integer(x$words[3]), garp = x$garp),
    list(ccei = x$ccei), beside("efficiency", x$efficiency), unclass(x)[c("attained", "homothetic", "quasilinear")]
  ))
}
