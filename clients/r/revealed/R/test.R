# The verdicts on a table.

tests <- c("garp", "afriat", "homothetic", "quasilinear")

rp_test <- function(p, q = NULL, decimals = digits, levels = NULL, numbers = "shortest", exe = NULL, wide = TRUE, digits = NULL) {
  verdict_on(table_of(p, q, forms_of(decimals, numbers), levels), engine_of(exe), wide)
}

rp_analyse <- rp_test

# Returns the certificate itself: the verdicts with their evidence, as JSON.
rp_certify <- function(p, q = NULL, decimals = digits, levels = NULL, numbers = "shortest", exe = NULL, wide = TRUE, digits = NULL) {
  rp_test(p, q, decimals, levels, numbers, exe, wide)$certificate
}

verdict_on <- function(table, engine, wide = TRUE) {
  given <- ask_wide(c("certify", "table.csv"), list(table.csv = csv_lines(table)), engine, list(table), wide)
  read_verdict(table, given$text, given$stated, given$hint)
}

# Where the certificate is the wider edition's, `stated` is the program's own.
read_verdict <- function(table, text, stated = NULL, hint = NULL) reading(text, verdict_from(table, text, stated, hint))

verdict_from <- function(table, text, stated, hint) {
  items <- by_item(items_of(text, "table"))
  own <- if (is.null(stated)) items else by_item(items_of(stated, "table"))
  stopifnot(identical(names(items), c("garp", "afriat", "efficiency", "homothetic", "quasilinear")))
  garp <- read_axiom(table, items$garp)
  afriat <- read_afriat(table, items$afriat)
  efficiency <- read_efficiency(table, items$efficiency)
  homothetic <- read_homothetic(table, items$homothetic, hint)
  quasilinear <- if (table$own_money) list(verdict = NA, reason = own_money) else read_quasilinear(table, items$quasilinear)
  found <- list(garp = garp, afriat = afriat, homothetic = homothetic, quasilinear = quasilinear)
  structure(class = "rp_test", list(
    garp = garp$verdict, afriat = afriat$verdict, efficiency = efficiency$level, ccei = nearest_double(efficiency$level),
    attained = efficiency$attained, homothetic = homothetic$verdict, quasilinear = quasilinear$verdict,
    reasons = unlist(lapply(found, `[[`, "reason")), wide = names(items)[unlist(Map(is_wide, items, own))],
    ranks = garp$ranks, cycle = garp$cycle, utility = afriat$utility, lambda = afriat$lambda,
    evidence = lapply(c(found, list(efficiency = efficiency)), function(it) it[!names(it) %in% c("verdict", "reason", "level", "attained")]),
    certificate = text, table = table
  ))
}

by_label <- function(table, values) {
  stopifnot(length(values) == length(table$labels))
  named(values, as.character(table$labels))
}

walk_of <- function(table, walk) {
  at <- as.integer(walk)
  stopifnot(all(is.na(at) | (at >= 1 & at <= length(table$labels))))
  table$labels[at]
}

ranks_of <- function(table, ranks) by_label(table, as.integer(ranks))

exact_by_label <- function(table, texts) {
  stopifnot(length(texts) == length(table$labels))
  exact(texts, as.character(table$labels))
}

money_places <- function(table) places_of(table, "price") + places_of(table, "quantity")

# Utilities of a table with levels are in thousandths beside.
utility_places <- function(table) money_places(table) + if (is.null(table$levels)) 0 else 3

read_axiom <- function(table, item) {
  if (case_of(item, c("cycle", "ranks")) == "cycle") return(list(verdict = FALSE, cycle = walk_of(table, item$cycle)))
  list(verdict = TRUE, ranks = ranks_of(table, item$ranks))
}

read_afriat <- function(table, item) {
  switch(case_of(item, c("cycle", "withheld", "utility")),
    cycle = read_axiom(table, item),
    withheld = list(verdict = NA, reason = afriat_reason(table, item$withheld)),
    utility = list(
      verdict = TRUE, utility = exact_by_label(table, over_ten(item$utility, utility_places(table))),
      lambda = exact_by_label(table, item$lambda)
    )
  )
}

afriat_reason <- function(table, at) paste0("the numbers get past their width at ", quoted(walk_of(table, at)), "; they exist where garp is TRUE")

read_efficiency <- function(table, item) {
  attained <- case_of(item, c("at_ranks", "at_cycle")) == "at_ranks"
  c(
    list(level = one_exact(item$level), attained = attained, below = ranks_of(table, item$below)),
    list(above = walk_of(table, item$above)),
    if (attained) list(at_ranks = ranks_of(table, item$at_ranks)) else list(at_cycle = walk_of(table, item$at_cycle))
  )
}

read_homothetic <- function(table, item, hint = NULL) {
  switch(case_of(item, c("cycle", "withheld", "values")),
    cycle = list(verdict = FALSE, start = one_exact(item$start), cycle = walk_of(table, item$cycle)),
    withheld = {
      ends <- quoted(walk_of(table, item$withheld[2:3]))
      why <- paste0("after ", item$withheld[1], " steps the product from ", ends[1], " to ", ends[2], " gets past its width")
      list(verdict = NA, reason = hinted(why, hint))
    },
    values = list(verdict = TRUE, values = exact_by_label(table, item$values))
  )
}

read_quasilinear <- function(table, item) {
  if (case_of(item, c("cycle", "values")) == "cycle") return(list(verdict = FALSE, cycle = walk_of(table, item$cycle)))
  list(verdict = TRUE, values = exact_by_label(table, over_ten(item$values, money_places(table))))
}

# ---- the verdict's methods

by_wide <- " (by rp-wide; rp itself withholds it)"

verdict_word <- function(x) ifelse(is.na(x), "withheld", ifelse(x, "holds", "violated"))

print.rp_test <- function(x, ...) {
  cat(table_lines(x$table), verdict_lines(x), sep = "\n")
  invisible(x)
}

# Returns what stands above an answer on a table: its size, its levels, and the columns that were left out.
table_lines <- function(table) {
  c(
    paste("observations", length(table$labels), "goods", length(table$goods)),
    if (!is.null(table$levels)) paste(c("levels", table$levels), collapse = " "),
    if (length(table$left_out)) paste("columns left out:", listed(table$left_out)),
    offered_line(table$offered),
    numbers_line(table)
  )
}

# Returns the tests that are asked: where rows have money of their own, the quasilinear one is not, and so not withheld.
tests_of <- function(own_money) if (isTRUE(own_money)) setdiff(tests, "quasilinear") else tests

verdict_lines <- function(x) {
  asked <- tests_of(x$table$own_money)
  lines <- paste0(asked, " ", vapply(asked, function(it) verdict_word(x[[it]]), ""), ifelse(asked %in% x$wide, by_wide, ""))
  lines <- append(lines, paste("efficiency", bare(x$efficiency), "attained", if (x$attained) "yes" else "no"), 2)
  if (!is.null(x$cycle)) lines <- append(lines, paste(c("cycle", as.character(x$cycle)), collapse = " "), 1)
  c(lines, reason_lines(x$reasons))
}

reason_lines <- function(reasons) if (length(reasons)) paste0(names(reasons), ": ", reasons)

as.data.frame.rp_test <- function(x, row.names = NULL, optional = FALSE, what = c("verdicts", "observations"), ...) {
  if (chosen(what, c("verdicts", "observations"), "what") == "verdicts") return(verdict_row(x))
  number <- length(x$table$labels)
  column <- function(values) if (is.null(values)) rep(NA_character_, number) else bare(values)
  whole <- function(values) if (is.null(values)) rep(NA_integer_, number) else unname(values)
  evidence <- x$evidence
  frame_of(c(
    list(observation = x$table$labels, rank = whole(x$ranks)), beside("utility", column(x$utility)), beside("lambda", column(x$lambda)),
    beside("homothetic", column(evidence$homothetic$values)), beside("quasilinear", column(evidence$quasilinear$values)),
    list(below = whole(evidence$efficiency$below))
  ))
}

# Returns a data frame of columns of one length, some of them exact.
frame_of <- function(columns) structure(columns, class = "data.frame", row.names = seq_along(columns[[1]]))

verdict_row <- function(x) {
  frame_of(c(
    list(garp = x$garp, afriat = x$afriat, ccei = nearest_double(x$efficiency)), beside("efficiency", x$efficiency),
    list(
      attained = x$attained, homothetic = x$homothetic, quasilinear = x$quasilinear, wide = paste(x$wide, collapse = " "),
      reasons = paste(reason_lines(x$reasons), collapse = "; ")
    )
  ))
}

summary.rp_test <- function(object, ...) {
  shows <- function(name) {
    found <- object$evidence[[name]]
    if (is.null(found$cycle)) return(if (is.na(object[[name]])) object$reasons[[name]] else names(found)[1])
    paste("cycle", paste(found$cycle, collapse = " "))
  }
  tests <- tests_of(object$table$own_money)
  index <- paste(bare(object$efficiency), if (object$attained) "(attained)" else "(not attained)")
  above <- object$evidence$efficiency$above
  frame <- data.frame(
    verdict = c(verdict_word(unlist(object[tests])), index),
    evidence = c(vapply(tests, shows, ""), if (length(above)) paste("cycle", paste(above, collapse = " ")) else "below"),
    row.names = c(tests, "efficiency")
  )
  title <- paste(length(object$table$labels), "observations of", length(object$table$goods), "goods")
  summary_of(frame, paste(c(title, table_lines(object$table)[-1]), collapse = "; "))
}

# A summary is a frame with a line above it.
summary_of <- function(frame, title) structure(list(title = title, table = frame), class = "summary.rp")

print.summary.rp <- function(x, ...) {
  cat(x$title, "\n", sep = "")
  print(x$table, right = FALSE, ...)
  invisible(x)
}
