# The bounds of each unit of a panel at new prices: demand on new budgets, or the money metric, by the call of panels, whose long file is
# that of `long.R`. The call writes several rows for a unit, one for each bound, and one for a unit with an error.

rp_panel_demand <- function(data, by, new, m = NULL, decimals = NULL, workers = NULL, numbers = "shortest", progress = interactive(), exe = NULL,
                            wide = TRUE, units = NULL) {
  panel_bounds("demand", data, by, if (missing(new)) NULL else new, m, forms_of(decimals, numbers), workers, progress, exe, wide, units)
}

rp_panel_welfare <- function(data, by, new, decimals = NULL, workers = NULL, numbers = "shortest", progress = interactive(), exe = NULL,
                             wide = TRUE, units = NULL) {
  panel_bounds("welfare", data, by, if (missing(new)) NULL else new, NULL, forms_of(decimals, numbers), workers, progress, exe, wide, units)
}

panel_bounds <- function(question, data, by, new, m, forms, workers, progress, exe, wide, units) {
  if (is.null(new)) bad_data("there are no new prices: give the argument new")
  if (!is_switch(progress)) bad_data("progress is TRUE or FALSE")
  if (!is_switch(wide)) bad_data("wide is TRUE or FALSE")
  data <- plain_frame(data)
  sides <- panel_sides(data, by)
  if (!is.null(sides$levels)) stop(refused("OwnLevels", hint = plain_hint("OwnLevels")))
  units <- unit_words(units, by)
  long <- long_sheet(data, by, sides, forms)
  asked <- list(
    question = question, goods = sides$goods, new = new_prices(list(goods = sides$goods), new, m, question == "demand", forms), engine = panel_engine(exe),
    words = c("long.csv", "--id", "household", paste0("--", question), "new.csv", if (wide) "--wide"), hint = hints_of_wide[[if (wide) "asked" else "unasked"]]
  )
  found <- rows_in_parallel(long, function(numbers) bounds_rows(long, numbers, asked), workers_of(workers), progress)
  keys <- keys_of(long, data, by)
  faults <- vapply(found, function(it) it$fault, "")
  refusal <- function(at) bounds_refusal(long, asked, found[[at]], long$rows[[at]], data)
  stop_where_new_is_refused(faults, refusal)
  stop_where_all_are_refused(faults, refusal, keys, units)
  frame <- do.call(rbind, lapply(seq_along(found), function(at) unit_frame(found[[at]], keys[at, , drop = FALSE], long, at, asked, refusal)))
  row.names(frame) <- NULL
  about <- list(by = by, units = units, question = question, faults = faults, garp = vapply(found, function(it) it$garp, NA), keys = keys, unnamed = sum(!long$is_named))
  structure(frame, class = c("rp_panel_bounds", "data.frame"), about = about)
}

# Stops with the error of the new prices where they have one beside the data of every unit that has none of its own.
stop_where_new_is_refused <- function(faults, refusal) {
  own <- which(!nzchar(faults) | startsWith(faults, of_new))
  if (length(own) && all(faults[own] == faults[own[1]]) && nzchar(faults[own[1]])) stop(refusal(own[1]))
}

# An error of the new prices beside a unit's own table has this in front.
of_new <- "NEW: "

# Returns what the call gives of some units, by their numbers: the bounds of each, or what went wrong for all.
bounds_rows <- function(long, numbers, asked) {
  blocks <- unlist(lapply(split(numbers, long$is_named[numbers]), function(own) split(own, ceiling(seq_along(own) / panel_block))), recursive = FALSE)
  found <- vector("list", length(numbers))
  for (block in blocks) {
    found[match(block, numbers)] <- tryCatch(bounds_of_block(long, block, asked), rp_error = function(wrong) rep(list(wrong), length(block)))
  }
  found
}

bounds_of_block <- function(long, block, asked) {
  pooled <- vapply(block, function(at) long$is_named[at] && anyDuplicated(long$labels[long$rows[[at]]]) > 0, TRUE)
  found <- rep(list(list(fault = "Pooled", garp = NA, places = list())), length(block))
  sent <- block[!pooled]
  if (!length(sent)) return(found)
  lines <- lines_of_block(long, sent)
  ran <- answer(asked$words, list(long.csv = lines$lines, new.csv = csv_lines(asked$new)), asked$engine)
  if (!ran$status %in% 0L) stop_at_refused(ran, asked$new)
  found[!pooled] <- units_in(ran$out, long, sent, asked, lines$rows)
  found
}

# Returns the bounds of each unit by the text of the call; stops where that is not a table of these units.
units_in <- function(text, long, sent, asked, places) {
  of <- c(demand = "good", welfare = "observation")[[asked$question]]
  head <- c("household", "observations", "goods", "price", of, "lower", "lower_floor", "upper", "upper_ceiling", "fault", "record", "column")
  fields <- csv_rows(text)
  if (!length(fields) || !all(lengths(fields) == length(head)) || !identical(fields[[1]], head)) stop(no_answer(text))
  table <- do.call(rbind, c(list(matrix("", 0, length(head))), fields[-1]))
  colnames(table) <- head
  at <- 0
  found <- vector("list", length(sent))
  for (number in seq_along(sent)) {
    own <- sent[number]
    if (at >= nrow(table)) stop(no_answer(text))
    inside <- if (asked$question == "demand") length(asked$goods) else length(long$rows[[own]])
    count <- if (nzchar(table[at + 1, "fault"])) 1 else length(asked$new$labels) * inside
    if (at + count > nrow(table)) stop(no_answer(text))
    rows <- table[at + seq_len(count), , drop = FALSE]
    id <- if (rows[1, "fault"] %in% c("NoId", "LongId")) "" else long$ids[own]
    wanted <- if (nzchar(rows[1, "fault"])) TRUE else {
      identical(unname(rows[, "price"]), as.character(rep(seq_along(asked$new$labels), each = inside))) &&
        identical(unname(rows[, of]), as.character(rep(seq_len(inside), length(asked$new$labels))))
    }
    if (!all(rows[, "household"] == id) || !wanted) stop(no_answer(text))
    found[[number]] <- unit_bounds(rows, places)
    at <- at + count
  }
  if (at != nrow(table)) stop(no_answer(text))
  found
}

# Returns the bounds of one unit by its rows.
unit_bounds <- function(rows, places) {
  fault <- rows[1, "fault"]
  place <- lapply(rows[1, c("record", "column")], function(it) if (nzchar(it)) as.integer(it))
  if (nzchar(fault)) {
    if (!startsWith(fault, of_new) && !is.null(place$record)) place$record <- places[place$record]
    return(list(fault = unname(fault), garp = NA, places = place))
  }
  amount <- function(name) {
    text <- unname(rows[, name])
    if (!all(grepl("^([0-9]+(/[0-9]+)?|violated|withheld)$", text))) stop(no_answer(paste(text, collapse = " ")))
    exact(ifelse(text %in% c("violated", "withheld"), NA, text))
  }
  list(fault = "", garp = unname(rows[1, "lower"]) != "violated", lower = amount("lower"), upper = amount("upper"))
}

# Returns the rows of one unit in the frame that is given back.
unit_frame <- function(own, key, long, at, asked, refusal) {
  is_demand <- asked$question == "demand"
  names <- if (is_demand) c("budget", "good") else c("prices", "observation")
  places <- if (is_demand) asked$goods else long$labels[long$rows[[at]]]
  if (!is_demand && anyNA(places)) places <- seq_along(places)
  has_bounds <- own$garp %in% TRUE
  news <- if (has_bounds) rep(asked$new$labels, each = length(places)) else asked$new$labels[NA_integer_]
  count <- length(news)
  inside <- if (has_bounds) rep(places, length(asked$new$labels)) else places[NA_integer_]
  lower <- if (has_bounds) own$lower else exact(NA)
  upper <- if (has_bounds) own$upper else exact(NA)
  why <- if (nzchar(own$fault)) conditionMessage(refusal(at)) else if (!has_bounds) "the axiom fails" else NA_character_
  reason <- rep(why, count)
  if (has_bounds) reason[is.na(bare(lower)) | is.na(bare(upper))] <- asked$hint
  frame_of(c(
    lapply(as.list(key), rep, count), named(list(news, inside), names), list(garp = rep(own$garp, count)),
    beside("lower", lower, double_below), beside("upper", upper, double_above), list(reason = reason, fault = rep(own$fault, count))
  ))
}

bounds_refusal <- function(long, asked, own, rows, data) {
  if (startsWith(own$fault, of_new)) return(refusal(asked$new, sub(of_new, "", own$fault, fixed = TRUE), own$places))
  if (own$fault == "Pooled") return(tryCatch(row_labels(long$labels[rows], TRUE, id_advice(long$names[1])), rp_bad_data = identity))
  panel_fault(long, own$fault, own$places, data)
}

# A part of it is a data frame.
`[.rp_panel_bounds` <- function(x, ...) {
  x <- as.data.frame(x)
  x[...]
}

as.data.frame.rp_panel_bounds <- function(x, row.names = NULL, optional = FALSE, ...) {
  class(x) <- "data.frame"
  attr(x, "about") <- NULL
  x
}

print.rp_panel_bounds <- function(x, ...) {
  about <- attr(x, "about", exact = TRUE)
  count <- function(number) format(number, big.mark = ",")
  what <- c(demand = "bounds on demand", welfare = "bounds on the money metric")[[about$question]]
  cat("panel of ", count(length(about$faults) - about$unnamed), " ", about$units, " by ", listed(about$by), ", ", what, " for ", count(sum(about$garp %in% TRUE)), "\n", sep = "")
  if (any(about$garp %in% FALSE)) cat("garp violated ", count(sum(about$garp %in% FALSE)), ": no bounds\n", sep = "")
  causes <- sort(table(about$faults[nzchar(about$faults)]), decreasing = TRUE)
  cat(sprintf("%s with an error: %s\n", count(as.vector(causes)), names(causes)), sep = "")
  frame <- as.data.frame(x)
  names <- c(about$by, if (about$question == "demand") c("budget", "good") else c("prices", "observation"), "lower_exact", "upper_exact")
  print(utils::head(frame[names], rows_shown), row.names = FALSE, ...)
  more <- nrow(frame) - rows_shown
  if (more > 0) cat(".. and ", count(more), " more rows, and more columns: as.data.frame() has all\n", sep = "")
  invisible(x)
}
