# Demand at new budgets, welfare at new prices, and the utility of other bundles.

bound_text <- function(bound, places) {
  if (case_of(bound, c("value", "withheld")) == "withheld") NA_character_ else over_ten(bound$value, places)
}

bound_reason <- function(bound, hint) if (is.null(bound$withheld)) NA_character_ else hinted(withheld_at(bound$withheld), hint)

withheld_at <- function(step) paste("the run of its program gets past 2^63 - 1 at step", step)

# Asks for an item on the axiom and then others, and returns them with what the axiom says of the table.
# `stated` are the items of the program itself, which are others where the wider edition gives more.
asked_of <- function(command, table, new, engine, wide) {
  files <- list(table.csv = csv_lines(table), new.csv = csv_lines(new))
  given <- ask_wide(c(command, "table.csv", "new.csv", "--json"), files, engine, list(table, new), wide)
  text <- given$text
  reading(text, {
    items <- items_of(text, "table")
    own <- if (is.null(given$stated)) items else items_of(given$stated, "table")
    axiom <- read_axiom(table, items[[1]])
    stopifnot(vapply(items, function(it) it$item, "") == c("garp", rep(command, length(items) - 1)), length(items) > 1, length(items) == length(own))
    list(
      items = items[-1], stated = own[-1], hint = given$hint, garp = axiom$verdict, ranks = axiom$ranks, cycle = axiom$cycle, certificate = text, table = table, new = new
    )
  })
}

# Puts the columns of some frames under one another.
stacked <- function(frames) {
  found <- lapply(named(names(frames[[1]]), names(frames[[1]])), function(name) do.call(c, lapply(frames, `[[`, name)))
  frame_of(found)
}

# ---- demand

rp_demand <- function(p, q = NULL, new, m = NULL, decimals = digits, numbers = "shortest", exe = NULL, wide = TRUE, digits = NULL) {
  if (missing(new)) bad_data("there are no new prices: give the argument new")
  forms <- forms_of(decimals, numbers)
  table <- table_of(p, q, forms)
  found <- asked_of("demand", table, new_prices(table, new, m, wants_m = TRUE, forms), engine_of(exe), wide)
  reading(found$certificate, {
    stopifnot(length(found$items) == length(found$new$labels))
    found$bounds <- stacked(Map(demand_frame, found$items, found$stated, found$new$labels, MoreArgs = list(table = table, hint = found$hint)))
    read_walk <- function(name) lapply(found$items, function(item) walk_of(table, item[[name]]))
    if (found$garp) {
      found$below <- named(read_walk("below"), as.character(found$new$labels))
      found$strict <- named(read_walk("strict"), as.character(found$new$labels))
    }
    found[c("items", "stated", "hint")] <- NULL
    structure(found, class = "rp_demand")
  })
}

rp_demand_bounds <- rp_demand

demand_frame <- function(item, stated, label, table, hint) {
  count <- length(table$goods)
  found <- list(budget = rep(label, count), good = table$goods)
  if (case_of(item, c("cycle", "goods")) == "cycle") {
    nothing <- exact(rep(NA, count))
    return(c(found, list(lower = nothing, upper = nothing, inner = nothing, wide = rep("", count), reason = rep("the axiom fails", count))))
  }
  stopifnot(length(item$goods) == count, length(item$inner$num) == count)
  places <- places_of(table, "quantity")
  side <- function(name) exact(vapply(item$goods, function(it) bound_text(it[[name]], places), ""))
  why <- function(name) vapply(item$goods, function(it) bound_reason(it[[name]], hint), "")
  of_wide <- function(name) unlist(Map(function(own, other) if (is_wide(own[[name]], other[[name]])) name else "", item$goods, stated$goods))
  inner <- over_ten(vapply(item$inner$num, fraction, "", den = item$inner$den, USE.NAMES = FALSE), places)
  reason <- ifelse(is.na(why("lower")), why("upper"), why("lower"))
  wide <- trimws(paste(of_wide("lower"), of_wide("upper")))
  c(found, list(lower = side("lower"), upper = side("upper"), inner = exact(inner), wide = wide, reason = reason))
}

# Doubles: lower bounds are rounded down and upper ones up, so that what lies between is not cut.
as.data.frame.rp_demand <- function(x, row.names = NULL, optional = FALSE, ...) {
  own <- x$bounds
  frame_of(c(
    own[c("budget", "good")], beside("lower", own$lower, double_below), beside("upper", own$upper, double_above), beside("inner", own$inner), own[c("wide", "reason")]
  ))
}

print.rp_demand <- function(x, ...) {
  cat(table_lines(x$table), axiom_line("demand", x), wide_line(nzchar(x$bounds$wide)), sep = "\n")
  print(x$bounds[c("budget", "good", "lower", "upper", "inner")], row.names = FALSE)
  invisible(x)
}

# Returns the line that marks bounds which the program itself withholds, where there are some.
wide_line <- function(is_wide) if (any(is_wide)) paste("by rp-wide, since rp itself withholds them: bounds of", sum(is_wide), "rows, which the column wide marks")

axiom_line <- function(what, x) paste0(what, ", ", if (x$garp) "garp holds" else paste("garp violated: cycle", paste(x$cycle, collapse = " ")))

summary.rp_demand <- function(object, ...) {
  frame <- object$bounds
  title <- paste0(length(object$new$labels), " budgets beside ", length(object$table$labels), " observations, ", counted(frame))
  summary_of(frame, title)
}

counted <- function(frame) {
  paste(sum(!is.na(bare(frame$lower))) + sum(!is.na(bare(frame$upper))), "bounds shown of", 2 * nrow(frame))
}

# ---- welfare

rp_welfare <- function(p, q = NULL, new, decimals = digits, numbers = "shortest", exe = NULL, wide = TRUE, digits = NULL) {
  if (missing(new)) bad_data("there are no new prices: give the argument new")
  forms <- forms_of(decimals, numbers)
  table <- table_of(p, q, forms)
  found <- asked_of("welfare", table, new_prices(table, new, forms = forms), engine_of(exe), wide)
  reading(found$certificate, {
    number <- length(table$labels)
    labels <- rep(found$new$labels, each = number)
    stopifnot(length(labels) == length(found$items))
    found$bounds <- welfare_frame(found, labels, table, places_of(found$new, "price") + places_of(table, "quantity"))
    found[c("items", "stated", "hint")] <- NULL
    structure(found, class = "rp_welfare")
  })
}

rp_welfare_bounds <- rp_welfare

welfare_frame <- function(given, labels, table, places) {
  items <- given$items
  fails <- vapply(items, function(it) case_of(it, c("cycle", "lower")) == "cycle", TRUE)
  upper <- function(it) if (is.null(it$upper)) NA_character_ else over_ten(it$upper, places)
  lower <- function(it) if (is.null(it$lower)) NA_character_ else bound_text(it$lower, places)
  found <- data.frame(prices = labels, observation = walk_of(table, vapply(items, function(it) it$observation, "")))
  found$lower <- exact(vapply(items, lower, ""))
  found$upper <- exact(vapply(items, upper, ""))
  found$at <- walk_of(table, vapply(items, function(it) if (is.null(it$at)) NA_character_ else it$at, ""))
  found$wide <- unlist(Map(function(own, other) is_wide(own$lower, other$lower), items, given$stated))
  found$reason <- ifelse(fails, "the axiom fails", vapply(items, function(it) bound_reason(it$lower, given$hint), ""))
  found
}

as.data.frame.rp_welfare <- function(x, row.names = NULL, optional = FALSE, ...) {
  own <- x$bounds
  frame_of(c(
    own[c("prices", "observation")], beside("lower", own$lower, double_below), beside("upper", own$upper, double_above), own[c("at", "wide", "reason")]
  ))
}

print.rp_welfare <- function(x, ...) {
  cat(table_lines(x$table), axiom_line("welfare", x), wide_line(x$bounds$wide), sep = "\n")
  print(x$bounds[c("prices", "observation", "lower", "upper", "at")], row.names = FALSE)
  invisible(x)
}

summary.rp_welfare <- function(object, ...) {
  title <- paste0(length(object$new$labels), " rows of new prices, ", counted(object$bounds))
  summary_of(object$bounds, title)
}

# ---- utility

rp_utility <- function(p, q = NULL, bundles, decimals = digits, levels = NULL, numbers = "shortest", exe = NULL, digits = NULL) {
  forms <- forms_of(decimals, numbers)
  if (missing(bundles)) bad_data("there are no bundles: give the argument bundles")
  table <- table_of(p, q, forms, levels)
  asked <- bundles_of(table, bundles, forms)
  files <- list(table.csv = csv_lines(table), bundles.csv = csv_lines(asked))
  text <- ask(c("utility", "table.csv", "bundles.csv"), files, engine_of(exe), list(table, asked))
  reading(text, utility_from(table, asked, report_of(text)))
}

rp_afriat_utility <- rp_utility

utility_from <- function(table, asked, report) {
  values <- report$lines[startsWith(report$lines, "at ")]
  stopifnot(length(values) == length(asked$labels), grepl(sprintf("^at [0-9]+ (value -?[0-9]+|none|withheld)$"), values))
  garp <- holds_in(report, "garp", c("holds", "violated"))
  afriat <- second_word(report, "afriat")
  stopifnot(afriat %in% c("model", "none", "withheld"), (afriat == "none") == !garp)
  value <- as.character(ifelse(grepl(" value ", values), sub("^.* value ", "", values), NA))
  stopifnot((afriat == "model") == !is.na(value))
  at <- sub("^.* at ", "", line_of(report, "afriat"))
  reason <- switch(afriat, model = NA_character_, none = "the axiom fails", withheld = afriat_reason(table, at))
  found <- list(garp = garp, cycle = NULL, utility = NULL, lambda = NULL, reason = reason, report = report$lines, table = table, bundles = asked)
  if (!garp) found$cycle <- walk_of(table, words_of(report, "cycle"))
  if (afriat == "model") {
    found$utility <- exact_by_label(table, over_ten(words_of(report, "utility"), utility_places(table)))
    found$lambda <- exact_by_label(table, words_of(report, "lambda"))
  }
  found$values <- exact(over_ten(value, utility_places(table)), as.character(asked$labels))
  structure(found, class = "rp_utility")
}

as.data.frame.rp_utility <- function(x, row.names = NULL, optional = FALSE, ...) {
  frame_of(c(list(bundle = x$bundles$labels), beside("utility", x$values), list(reason = rep(x$reason, length(x$bundles$labels)))))
}

print.rp_utility <- function(x, ...) {
  cat(table_lines(x$table), axiom_line("utility", x), sep = "\n")
  print(as.data.frame(x)[c("bundle", "utility_exact", "reason")], row.names = FALSE)
  invisible(x)
}
