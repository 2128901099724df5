# Goodness of fit: how far the choices of a table, or of each unit of a panel, are from GARP. Every number is read from the report of
# the command `fit`, which `rp-wide` has.

rp_fit <- function(p, q = NULL, by = NULL, decimals = NULL, numbers = "shortest", workers = NULL, progress = interactive(), exe = NULL,
                   units = NULL, certificates = NULL) {
  forms <- forms_of(decimals, numbers)
  if (!is.null(by)) {
    if (!is.null(q)) bad_data("a panel is one long data frame with a column ", listed(by), ": leave q out")
    return(fit_panel(p, by, forms, workers, progress, exe, units, certificates))
  }
  if (!is.null(certificates)) bad_data("certificates are the files of a panel: give by. The certificate of one table is x$certificate")
  fit_on(table_of(p, q, forms), fit_engine(exe))
}

# Returns what answers for goodness of fit: the wider call of the library, if it has the command, or the program `rp-wide`.
fit_engine <- function(exe = NULL) {
  engine <- engine_of(exe)
  found <- wide_engine(engine)
  if (!is.null(found$call) && !has_fit(found)) found <- wide_program(engine)
  if (!is.null(found)) return(found)
  no_program(
    "goodness of fit is computed by rp-wide, which is neither beside the program, nor named by the variable RP_WIDE",
    if (!is.null(engine$call)) ", and the library has no command fit"
  )
}

# Whether a library has the command, which one up to 0.17.0 has not: by a table of one observation.
has_fit <- function(engine) identical(answer(c("fit", "table.csv"), list(table.csv = c("p_1,q_1", "1,1")), engine)$status, 0L)

# Returns the output of a call of `fit`. A program without the command ends with its usage.
fit_text <- function(ran, table) {
  if (ran$status %in% 2L) no_program("the program rp-wide that is called has no command fit: take that of the package's own version, ", own_version())
  text_of(ran, list(table))
}

own_version <- function() as.character(utils::packageVersion("revealed"))

# Returns the indices of a table and their certificate, which are asked for at one time.
fit_on <- function(table, engine) {
  files <- list(table.csv = csv_lines(table))
  ran <- long_answers(list(one_job(c("fit", "table.csv"), files), one_job(c("fit", "table.csv", "--json"), files)), engine, workers = 2L)
  text <- fit_text(ran[[1]][[1]], table)
  found <- read_fit(table, text)
  found$certificate <- fit_text(ran[[2]][[1]], table)
  reading(found$certificate, {
    items <- by_item(items_of(found$certificate, "fit"))
    # The certificate is that of the numbers which are told.
    stopifnot(identical(table$labels[as.integer(items$kept$kept)], setdiff_of(table$labels, found$drop)))
    found
  })
}

setdiff_of <- function(labels, others) labels[!labels %in% others]

read_fit <- function(table, text) reading(text, fit_from(table, report_of(text)$lines))

# The first line of each part of a report.
fit_parts <- c(
  violations = "violations", violating = "violating observations", efficiency = "efficiency", kept = "kept", levels = "levels mean",
  squares = "levels squares", steps = "steps", pump = "pump", quasilinear_level = "quasilinear level", homothetic = "homothetic level"
)

# Returns the lines of each part of a report by the name of the part.
parts_of_fit <- function(lines) {
  first <- vapply(fit_parts, function(it) match(TRUE, startsWith(lines, paste0(it, " "))), 0L)
  own <- first[!is.na(first)]
  stopifnot(!anyNA(first[1:8]), !is.unsorted(own, strictly = TRUE), own[1] == 2)
  ends <- c(own[-1] - 1L, length(lines))
  named(Map(function(from, to) lines[from:to], own, ends), names(own))
}

fit_from <- function(table, lines) {
  count <- length(table$labels)
  size <- as.integer(numbers_of(lines[1], "^observations ([0-9]+) goods ([0-9]+) places [0-9]+ [0-9]+$"))
  stopifnot(identical(size, c(count, length(table$goods))))
  parts <- parts_of_fit(lines)
  share <- "([0-9]+(?:/[0-9]+)?)"
  said <- function(part, form) numbers_of(parts[[part]][1], paste0("^", fit_parts[[part]], " ", form, "$"))
  violations <- as.integer(said("violations", "garp ([0-9]+) wgarp ([0-9]+) warp ([0-9]+) sarp ([0-9]+) of ([0-9]+)"))
  violating <- as.integer(said("violating", "([0-9]+) of ([0-9]+)"))
  stopifnot(violations[5] == count * (count - 1), violating[2] == count)
  index <- said("efficiency", paste0(share, " attained (yes|no)"))
  kept <- said("kept", "([0-9]+)(?: to ([0-9]+))? of ([0-9]+)")
  own <- as.integer(words_of(list(lines = parts$kept), "observations"))
  stopifnot(length(own) == as.integer(kept[1]), own %in% seq_len(count), !anyDuplicated(own), as.integer(kept[3]) == count)
  bounds <- function(part) {
    found <- said(part, paste0(share, " to ", share, "( exact)?"))
    list(low = exact(found[1]), high = exact(found[2]), meet = nzchar(found[3]))
  }
  levels <- by_names(c("levels", "squares"), function(part) {
    c(bounds(part), list(at = exact_by_label(table, words_of(list(lines = parts[[part]]), "at"))))
  })
  steps <- bounds("steps")
  found <- list(
    observations = count, goods = size[2], garp = violations[1] == 0, pairs = violations[5],
    violations = named(c(violations[1:4], violating[1]), fit_counts), efficiency = exact(index[1]), ccei = nearest_double(exact(index[1])),
    attained = index[2] == "yes", kept = as.integer(kept[1]), kept_most = as.integer(if (nzchar(kept[2])) kept[2] else kept[1]),
    drop = table$labels[setdiff(seq_len(count), own)],
    levels_low = levels$levels$low, levels_high = levels$levels$high, levels = levels$levels$at,
    squares_low = levels$squares$low, squares_high = levels$squares$high, squares = levels$squares$at,
    steps_low = steps$low, steps_high = steps$high, removed = removed_of(table, parts$steps), pump = exact(said("pump", share)),
    quasilinear_level = if (is.null(parts$quasilinear_level)) exact(NA) else exact(said("quasilinear_level", share)),
    homothetic_low = exact(NA), homothetic_high = exact(NA)
  )
  if (!is.null(parts$homothetic)) {
    found[c("homothetic_low", "homothetic_high")] <- lapply(said("homothetic", paste0(share, " to ", share)), exact)
  }
  meet <- c(
    kept = found$kept == found$kept_most, levels = levels$levels$meet, squares = levels$squares$meet, steps = steps$meet,
    homothetic = if (is.null(parts$homothetic)) NA else are_near(bare(found$homothetic_low), bare(found$homothetic_high))
  )
  found <- c(found, list(exact = meet, reasons = fit_reasons(parts), report = lines, certificate = NULL, table = table))
  structure(if (table$own_money) without_money(found) else found, class = "rp_fit")
}

# Returns what is made of each name, by these names.
by_names <- function(names, make) lapply(named(names, names), make)

fit_counts <- c("garp_pairs", "wgarp_pairs", "warp_pairs", "sarp_pairs", "observations")

# Returns which strict preferences the bound of the minimum cost index removes.
removed_of <- function(table, lines) {
  said <- lapply(grep("^removed ", lines, value = TRUE), numbers_of, form = "^removed ([0-9]+) to ([0-9]+(?: [0-9]+)*)$")
  over <- lapply(said, function(it) strsplit(it[2], " ", fixed = TRUE)[[1]])
  frame_of(list(
    observation = walk_of(table, rep(vapply(said, `[`, "", 1), lengths(over))), over = walk_of(table, unlist(c(character(), over)))
  ))
}

# Whether two bounds are at most 2^-40 apart.
are_near <- function(low, high) {
  low <- fraction_parts(low)
  high <- fraction_parts(high)
  apart <- plus(product(limbs(high$num), limbs(low$den)), product(limbs(low$num), limbs(high$den)), -1)
  one <- product(limbs(low$den), limbs(high$den))
  !is_negative(plus(one, product(apart, limbs("1099511627776")), -1))
}

fit_reasons <- function(parts) {
  absent <- setdiff(c("quasilinear_level", "homothetic"), names(parts))
  named(rep("rp-wide found no evidence for it in its limit of steps", length(absent)), absent)
}

# Of intercepts exchanged the sums of money of different rows tell nothing.
without_money <- function(found) {
  found[c("steps_low", "steps_high", "pump", "quasilinear_level")] <- list(exact(NA))
  found$removed <- found$removed[0, ]
  found$exact["steps"] <- NA
  found$reasons <- c(found$reasons[names(found$reasons) != "quasilinear_level"], "steps, pump, quasilinear_level" = own_money)
  found
}

# ---- its columns

# What stands in the columns of fractions, and on which side a double of it is.
fit_shares <- c(
  garp_share = "near", wgarp_share = "near", warp_share = "near", sarp_share = "near", ccei = "near", hm_low = "low", hm_high = "high",
  levels_low = "low", levels_high = "high", squares_low = "low", squares_high = "high", steps_low = "low", steps_high = "high", pump = "near",
  quasilinear_level = "near", homothetic_low = "low", homothetic_high = "high"
)

# Returns the row of a fit: whole numbers, verdicts and fractions by the names of their columns.
fit_row <- function(x) {
  over <- function(num, den) if (den == 0) NA_character_ else fraction(as.character(num), as.character(den))
  pairs <- vapply(x$violations[1:4], over, "", den = x$pairs, USE.NAMES = FALSE)
  shares <- c(
    pairs, bare(x$efficiency), over(x$kept, x$observations), over(x$kept_most, x$observations),
    vapply(names(fit_shares)[-(1:7)], function(name) bare(x[[name]]), "", USE.NAMES = FALSE)
  )
  counts <- c(
    observations = x$observations, goods = x$goods, x$violations[1:4], violating = x$violations[["observations"]], kept = x$kept, kept_most = x$kept_most,
    dropped = x$observations - x$kept
  )
  list(
    counts = counts, garp = x$garp, attained = x$attained, shares = named(shares, names(fit_shares)),
    open = paste(names(x$exact)[x$exact %in% FALSE], collapse = " "), reason = paste(reason_lines(x$reasons), collapse = "; ")
  )
}

# Returns the columns of some fits, an empty place where there is NULL: as doubles, or as exact numbers.
fit_columns <- function(fits, are_exact = FALSE) {
  rows <- lapply(fits, function(it) if (!is.null(it)) fit_row(it))
  whole <- function(name) vapply(rows, function(it) if (is.null(it)) NA_integer_ else as.integer(it$counts[[name]]), 0L)
  truth <- function(name) vapply(rows, function(it) if (is.null(it)) NA else it[[name]], NA)
  text <- function(name) vapply(rows, function(it) if (is.null(it)) "" else it[[name]], "")
  share <- function(name) {
    own <- exact(vapply(rows, function(it) if (is.null(it)) NA_character_ else it$shares[[name]], ""))
    if (are_exact) own else switch(fit_shares[[name]], near = nearest_double(own), low = double_below(own), high = double_above(own))
  }
  wholes <- function(names) by_names(names, whole)
  shares <- function(at) by_names(names(fit_shares)[at], share)
  frame_of(c(
    wholes(c("observations", "goods")), list(garp = truth("garp")), wholes(c(fit_counts[1:4], "violating")), shares(1:4), shares(5),
    list(attained = truth("attained")), wholes(c("kept", "kept_most", "dropped")), shares(6:17), list(open = text("open"), reasons = text("reason"))
  ))
}

as.data.frame.rp_fit <- function(x, row.names = NULL, optional = FALSE, what = c("indices", "exact", "observations"), ...) {
  switch(chosen(what, c("indices", "exact", "observations"), "what"),
    indices = fit_columns(list(x)), exact = fit_columns(list(x), are_exact = TRUE), observations = fit_observations(x)
  )
}

# Returns a row for each observation of a table: whether it is kept, and its levels.
fit_observations <- function(x) {
  labels <- x$table$labels
  frame_of(c(list(observation = labels, kept = !labels %in% x$drop), beside("level", x$levels), beside("squares_level", x$squares)))
}

# ---- what is printed

# Returns an index, or both bounds where they do not meet, with so many decimal places.
shown_bounds <- function(low, high, meet, digits = 3) {
  if (is.na(bare(high))) return("not available")
  if (isTRUE(meet)) shown_index(high, digits) else paste(shown_index(low, digits), "to", shown_index(high, digits))
}

# Returns what papers report of a fit: names, values, and what is said of each.
fit_told <- function(x) {
  share <- function(count) exact(fraction(as.character(count), as.character(x$observations)))
  dropped <- if (x$kept == x$observations) "" else paste0("; without ", listed_labels(x$drop))
  kept <- paste0("kept ", x$kept, if (!x$exact["kept"]) paste(" to", x$kept_most), " of ", x$observations, dropped)
  near <- function(value) if (is.na(bare(value))) "not available" else shown_index(value)
  list(
    names = c("CCEI", "HM", "AVI", "AVI squared", "MCI", "MPI", "quasilinear", "homothetic"),
    values = c(
      shown_index(x$efficiency), shown_bounds(share(x$kept), share(x$kept_most), x$exact[["kept"]]),
      shown_bounds(x$levels_low, x$levels_high, x$exact[["levels"]]), shown_bounds(x$squares_low, x$squares_high, x$exact[["squares"]]),
      shown_bounds(x$steps_low, x$steps_high, x$exact[["steps"]]), near(x$pump), near(x$quasilinear_level),
      shown_bounds(x$homothetic_low, x$homothetic_high, x$exact[["homothetic"]])
    ),
    says = c(
      "critical cost efficiency index", paste0("Houtman-Maks index: ", kept), "Varian's index, the mean of 1 - e",
      "Varian's index, the mean of (1 - e)^2, without a root", "minimum cost index", "money pump index, the maximum", "level of cyclical monotonicity",
      "level of homotheticity"
    )
  )
}

# Returns some labels in one line, the first twelve of them.
listed_labels <- function(labels) paste0(paste(utils::head(labels, 12), collapse = " "), if (length(labels) > 12) paste(" and", length(labels) - 12, "more"))

violation_line <- function(x) {
  if (x$garp && !x$violations[["sarp_pairs"]]) return("GARP holds, and so does SARP")
  count <- x$violations
  paste0(
    if (x$garp) "GARP holds" else paste("GARP violated", paste0("by ", count[["garp_pairs"]], " of ", x$pairs, " pairs, and ", count[["observations"]], " of ", x$observations, " observations")),
    "; pairs of WGARP ", count[["wgarp_pairs"]], ", WARP ", count[["warp_pairs"]], ", SARP ", count[["sarp_pairs"]]
  )
}

print.rp_fit <- function(x, ...) {
  told <- fit_told(x)
  rows <- paste0(format(told$names), "  ", format(told$values), "  ", told$says)
  cat(table_lines(x$table), violation_line(x), rows, reason_lines(x$reasons), sep = "\n")
  invisible(x)
}

summary.rp_fit <- function(object, ...) {
  told <- fit_told(object)
  title <- paste(object$observations, "observations of", object$goods, "goods;", violation_line(object))
  summary_of(data.frame(value = told$values, meaning = told$says, row.names = told$names), title)
}

# ---- panels

# So many units at most are fit by one process after another.
fit_block <- 20

# Returns how the call ended over each table, by as many processes as there are workers.
fit_tables <- function(tables, engine, workers, progress, words = c("fit", "table.csv")) {
  count <- length(tables)
  if (!count) return(list())
  size <- max(1, min(fit_block, ceiling(count / (4 * workers))))
  blocks <- unname(split(seq_len(count), ceiling(seq_len(count) / size)))
  bar <- if (progress) txtProgressBar(0, count, style = 3, file = stderr())
  if (progress) on.exit(close(bar))
  passed <- 0
  done <- function(at) {
    passed <<- passed + length(blocks[[at]])
    setTxtProgressBar(bar, passed)
  }
  jobs <- lapply(blocks, function(own) list(words = words, batch = lapply(tables[own], function(table) list(table.csv = csv_lines(table)))))
  do.call(c, long_answers(jobs, engine, workers, if (progress) done))
}

fit_panel <- function(data, by, forms, workers, progress, exe, units, certificates) {
  if (!is.null(certificates)) folder_for(certificates)
  if (!is_switch(progress)) bad_data("progress is TRUE or FALSE")
  workers <- workers_of(workers)
  data <- plain_frame(data)
  sides <- panel_sides(data, by)
  if (!is.null(sides$levels)) stop(refused("OwnLevels", hint = plain_hint("OwnLevels")))
  taken <- intersect(by, names(fit_columns(list())))
  if (length(taken)) bad_data("by: the answer has a column ", quoted(taken[1]), " of its own; give the column another name")
  units <- unit_words(units, by)
  long <- long_sheet(data, by, sides, forms)
  engine <- fit_engine(exe)
  tables <- lapply(seq_along(long$rows), function(at) tryCatch(table_of_unit(long, at, by, sides, forms, data), rp_error = identity))
  own <- which(!vapply(tables, inherits, TRUE, "rp_error"))
  ran <- vector("list", length(tables))
  ran[own] <- fit_tables(tables[own], engine, workers, progress)
  found <- lapply(seq_along(tables), function(at) if (is.null(ran[[at]])) tables[[at]] else fit_of_unit(ran[[at]], tables[[at]], long, at, data))
  keys <- keys_of(long, data, by)
  is_wrong <- vapply(found, inherits, TRUE, "rp_error")
  faults <- vapply(found, function(it) if (inherits(it, "rp_error")) fault_of(it) else "", "")
  refusal <- function(at) found[[at]]
  stop_where_all_are_refused(faults, refusal, keys, units)
  fits <- lapply(found, function(it) if (!inherits(it, "rp_error")) it)
  refusals <- lapply(seq_along(found), function(at) if (is_wrong[at]) of_unit(found[[at]], keys[at, , drop = FALSE]))
  about <- list(
    by = by, units = units, keys = keys, fits = fits, refusals = refusals, faults = faults, unnamed = sum(!long$is_named), own_money = isTRUE(sides$own_money),
    offered = long$offered, numbers = numbers_line(long), names = names(data)
  )
  if (!is.null(certificates)) keep_fits(about, certificates, engine, workers, progress)
  structure(fit_frame(about), class = c("rp_panel_fit", "data.frame"), about = about)
}

fault_of <- function(wrong) if (is.null(wrong$fault)) "Pooled" else wrong$fault

# Returns the table of a unit of a long frame, or stops with what is wrong with its rows.
table_of_unit <- function(long, at, by, sides, forms, data) {
  rows <- long$rows[[at]]
  if (!long$is_named[at]) stop(panel_fault(long, if (nzchar(long$columns[[1]][rows[1]])) "LongId" else "NoId", list(record = rows[1]), data))
  row_labels(long$labels[rows], TRUE, id_advice(by))
  # More records than a table has are refused for that alone.
  rows <- utils::head(rows, limit("table.records") + 1L)
  part <- list(
    goods = sides$goods, prices = lapply(sides$prices, `[`, rows), quantities = lapply(sides$quantities, `[`, rows), labels = sides$labels[rows],
    left_out = sides$left_out, own_money = sides$own_money
  )
  table_of_sides(part, forms, id_advice(by))
}

# Returns the fit of a unit, or its error in the places of the frame.
fit_of_unit <- function(ran, table, long, at, data) {
  told <- told_refusal(ran)
  if (is.null(told)) return(read_fit(table, fit_text(ran, table)))
  place <- told$places
  if (!is.null(place$record)) place$record <- long$rows[[at]][place$record]
  # The long file has a column of ids in front.
  if (!is.null(place$column)) place$column <- place$column + 1L
  panel_fault(long, told$fault, place, data)
}

# Returns the rows of the units, with what is wrong with those that have no indices.
fit_frame <- function(about, are_exact = FALSE) {
  place <- function(name) vapply(about$refusals, function(it) if (is.null(it[[name]])) NA_integer_ else as.integer(it[[name]]), 0L)
  frame_of(c(
    as.list(about$keys), fit_columns(about$fits, are_exact), list(fault = about$faults, record = place("record"), column = place("column"))
  ))
}

# Writes the table and the certificate of each unit with indices to a folder, and a list of these units.
keep_fits <- function(about, folder, engine, workers, progress) {
  own <- which(!vapply(about$fits, is.null, TRUE))
  tables <- lapply(about$fits[own], `[[`, "table")
  ran <- fit_tables(tables, engine, workers, progress, c("fit", "table.csv", "--json"))
  for (number in seq_along(own)) {
    file <- file.path(folder, paste0("unit_", number))
    write_lines(csv_lines(tables[[number]]), paste0(file, ".csv"))
    write_lines(sub("\n$", "", fit_text(ran[[number]], tables[[number]])), paste0(file, ".json"))
  }
  write.csv(cbind(about$keys[own, , drop = FALSE], file = sprintf("unit_%d", seq_along(own))), file.path(folder, "units.csv"), row.names = FALSE)
}

as.data.frame.rp_panel_fit <- function(x, row.names = NULL, optional = FALSE, what = c("indices", "exact", "observations"), ...) {
  what <- chosen(what, c("indices", "exact", "observations"), "what")
  about <- attr(x, "about", exact = TRUE)
  if (what == "exact") return(fit_frame(about, are_exact = TRUE))
  if (what == "observations") return(panel_observations(about))
  class(x) <- "data.frame"
  attr(x, "about") <- NULL
  x
}

# Returns a row for each observation of each unit with indices.
panel_observations <- function(about) {
  own <- which(!vapply(about$fits, is.null, TRUE))
  parts <- lapply(own, function(at) {
    part <- fit_observations(about$fits[[at]])
    frame_of(c(lapply(as.list(about$keys[at, , drop = FALSE]), rep, nrow(part)), as.list(part)))
  })
  stacked(parts)
}

# A part of it is a data frame.
`[.rp_panel_fit` <- function(x, ...) {
  x <- as.data.frame(x)
  x[...]
}

# Columns come first. What is known beside them is `fits` and `refusals`.
`$.rp_panel_fit` <- function(x, name) {
  column <- unclass(x)[[name, exact = TRUE]]
  if (!is.null(column) || !name %in% c("fits", "refusals")) column else attr(x, "about", exact = TRUE)[[name]]
}

# Returns what is said of a fit of a panel as a whole, in a few lines.
panel_fit_lines <- function(about) {
  fits <- Filter(Negate(is.null), about$fits)
  count <- function(number) format(number, big.mark = ",")
  causes <- sort(table(about$faults[nzchar(about$faults)]), decreasing = TRUE)
  first <- vapply(names(causes), function(it) paste(vapply(about$keys[match(it, about$faults), , drop = FALSE], function(key) quoted(as.character(key)), ""), collapse = ", "), "")
  holds <- sum(vapply(fits, function(it) it$garp, NA))
  stats <- fit_stats(fits, 3)
  means <- vapply(stats, function(it) it[["mean"]], "")
  open <- vapply(fits, function(it) !all(it$exact %in% c(TRUE, NA)), TRUE)
  c(
    paste0("panel of ", count(length(about$faults) - about$unnamed), " ", about$units, " by ", listed(about$by), ", ", count(length(fits)), " with indices"),
    if (length(fits)) paste0("GARP holds ", count(holds), ", violated ", count(length(fits) - holds), "; means: ", paste(names(means), means, collapse = ", ")),
    if (any(open)) paste(count(sum(open)), about$units, "have an index whose bounds do not meet, which the column open names"),
    sprintf("%s with an error: %s, the first %s", count(as.vector(causes)), names(causes), first),
    if (about$own_money) paste0("MCI, MPI and the quasilinear level: ", own_money),
    offered_line(about$offered), about$numbers
  )
}

print.rp_panel_fit <- function(x, ...) {
  about <- attr(x, "about", exact = TRUE)
  cat(panel_fit_lines(about), sep = "\n")
  frame <- as.data.frame(x)
  whole <- c(about$by, "observations", "garp_pairs", "ccei", "kept", "kept_most", "levels_high", "steps_high", "open", "fault")
  has <- vapply(frame[whole], function(it) !all(is.na(it) | it == ""), TRUE)
  print(utils::head(frame[whole[has]], rows_shown), ...)
  more <- nrow(frame) - rows_shown
  if (more > 0) cat(".. and ", format(more, big.mark = ","), " more rows, and more columns: as.data.frame() has all\n", sep = "")
  invisible(x)
}

summary.rp_panel_fit <- function(object, ...) {
  about <- attr(object, "about", exact = TRUE)
  fits <- Filter(Negate(is.null), about$fits)
  title <- paste0(length(about$faults), " ", about$units, ", ", length(about$faults) - length(fits), " of them with an error")
  summary_of(as.data.frame(do.call(rbind, fit_stats(fits, 3)), stringsAsFactors = FALSE), title)
}

# ---- the indices of papers, over units

# The names of papers, of the lower and the upper bound of each, and of what says whether they meet.
paper_indices <- list(
  HM = c("hm_low", "hm_high", "kept"), AVI = c("levels_low", "levels_high", "levels"), MCI = c("steps_low", "steps_high", "steps")
)

# Returns the bounds of an index of papers over fits, as exact numbers, and whether all of them meet.
paper_bounds <- function(fits, name) {
  own <- paper_indices[[name]]
  rows <- lapply(fits, fit_row)
  of <- function(column) exact(vapply(rows, function(it) it$shares[[column]], ""))
  meet <- vapply(fits, function(it) it$exact[[own[3]]], NA)
  high <- of(own[2])
  low <- of(own[1])
  # Bounds that meet to within 2^-40 are told as the upper one, at which GARP holds.
  low[meet %in% TRUE] <- high[meet %in% TRUE]
  list(low = low, high = high, open = sum(meet %in% FALSE), there = !anyNA(bare(high)))
}

# Returns the distribution of the CCEI and of each index of papers over fits, as texts. A mean, a quantile or an end of the lower bounds
# is no greater than that of the index, and so for the upper ones: both are told where they differ. Of a standard deviation this is not so.
fit_stats <- function(fits, digits) {
  index <- exact(vapply(fits, function(it) bare(it$efficiency), ""))
  bounds <- c(list(CCEI = list(low = index, high = index, open = 0, there = TRUE)), by_names(names(paper_indices), function(it) paper_bounds(fits, it)))
  bounds <- Filter(function(it) it$there, bounds)
  lapply(bounds, function(it) {
    of <- function(make) {
      ends <- c(shown_index(make(it$low), digits), shown_index(make(it$high), digits))
      # Where both ends read alike, so does the index between them.
      paste(unique(ends), collapse = " to ")
    }
    if (!length(fits)) return(named(rep("", 5), c("mean", "standard deviation", "minimum", "median", "maximum")))
    deviation <- if (it$open) "not known" else if (length(fits) > 1) sprintf("%.*f", digits, stats::sd(nearest_double(it$high))) else "none"
    c(
      mean = of(function(x) mean(nearest_double(x))), "standard deviation" = deviation, minimum = of(function(x) sort(x)[1]),
      median = of(function(x) stats::median(nearest_double(x))), maximum = of(function(x) sort(x, decreasing = TRUE)[1])
    )
  })
}

# Returns the fits of the units of a panel that have verdicts, which are made when they are first looked at.
panel_fits <- function(panel) {
  own <- inside(panel)
  if (is.null(own$fits)) {
    if (!is.null(own$levels)) stop(refused("OwnLevels", hint = plain_hint("OwnLevels")))
    tables <- lapply(which(answered(panel)), table_in, panel = panel)
    # The program of panels has no command fit: the one beside it, or on the path, has.
    engine <- fit_engine(if (!is.null(own$exe) && startsWith(basename(own$exe), "rp-panel")) NULL else own$exe)
    ran <- fit_tables(tables, engine, own$workers, own$progress)
    own$fits <- Map(function(ran, table) read_fit(table, fit_text(ran, table)), ran, tables)
  }
  own$fits
}

# Returns the rows of a paper's table on HM, AVI and MCI.
fit_cells <- function(panel, digits) {
  fits <- panel_fits(panel)
  stats <- fit_stats(fits, digits)[-1]
  words <- c(HM = "HM (share kept)", AVI = "AVI (mean of 1 - e)", MCI = "MCI")
  unlist(lapply(names(stats), function(it) {
    open <- paper_bounds(fits, it)$open
    c(
      named(stats[[it]], paste0(words[[it]], ", ", names(stats[[it]]))),
      if (open) named(paste(open, "of", length(fits)), paste0(words[[it]], ", bounds do not meet"))
    )
  }))
}

# Returns the cells of each unit on HM, AVI and MCI, by the names of their columns.
fit_unit_cells <- function(panel, digits) {
  fits <- panel_fits(panel)
  lapply(Filter(function(it) it$there, by_names(names(paper_indices), function(it) c(paper_bounds(fits, it), name = it))), function(it) {
    meet <- vapply(fits, function(fit) fit$exact[[paper_indices[[it$name]][3]]], NA)
    found <- rep("", length(answered(panel)))
    found[answered(panel)] <- vapply(seq_along(fits), function(at) shown_bounds(it$low[at], it$high[at], meet[at], digits), "")
    found
  })
}
