# A panel: the row of each unit (household, subject, region) of one long frame, on all processors. The frame becomes long files with a
# column of ids, units in blocks, and the rows are those of the call of panels (`long.R`).

rp_panel <- function(data, by = id, ask = c("test", "pump", "power"), decimals = digits, levels = NULL, seed = NULL, draws = 1000, workers = NULL,
                     numbers = "shortest", progress = interactive(), exe = NULL, wide = TRUE, units = NULL, digits = NULL, id = NULL,
                     certificates = NULL) {
  id <- by
  if (!is.null(certificates)) folder_for(certificates)
  kind <- chosen(ask, c("test", "pump", "power"), "ask")
  is_drawn <- isTRUE(attr(data, "rp_drawn", exact = TRUE))
  data <- plain_frame(data)
  if (!is_switch(progress)) bad_data("progress is TRUE or FALSE")
  if (!is_switch(wide)) bad_data("wide is TRUE or FALSE")
  workers <- workers_of(workers)
  sides <- c(panel_sides(data, id, levels), is_drawn = is_drawn)
  units <- unit_words(units, id)
  forms <- forms_of(decimals, numbers)
  if (kind == "power" && is.null(seed)) bad_data("there is no seed: give the argument seed, a whole number")
  if (kind != "test" && !is.null(sides$levels)) {
    stop(refused("OwnLevels", hint = plain_hint("OwnLevels")))
  }
  if (kind == "pump" && sides$own_money) bad_data("the money pump: ", own_money)
  words <- panel_words(kind, seed, draws, wide, sides$own_money && !is_drawn)
  long <- long_sheet(data, id, sides, forms)
  engine <- panel_engine(exe)
  found <- rows_in_parallel(long, function(numbers) panel_rows(long, numbers, words, engine), workers, progress)
  keys <- keys_of(long, data, id)
  texts <- do.call(rbind, c(list(matrix("", 0, length(columns_answered(long)), dimnames = list(NULL, columns_answered(long)))), found))
  # Of intercepts exchanged this test tells nothing: the call says what is so of the prices that it was given.
  if (sides$own_money) texts[, "quasilinear"] <- ""
  refusal <- function(at) panel_refusal(long, texts[at, ], long$rows[[at]], data)
  stop_where_all_are_refused(texts[, "fault"], refusal, keys, units)
  own <- list2env(list(
    keys = keys, texts = with_places(texts, long, data), ask = kind, data = data, id = id, forms = forms, levels = sides$levels,
    own_money = sides$own_money, units = units, places = long$rows, sides = sides, offered = long$offered, numbers = numbers_line(long), exe = exe,
    workers = workers, progress = progress
  ))
  # Why units have no verdicts is put into words where it is looked at.
  delayedAssign("refusals", lapply(seq_along(long$rows), function(at) of_unit(refusal(at), keys[at, , drop = FALSE])), assign.env = own)
  panel <- structure(panel_frame(own), class = c("rp_panel", "data.frame"), panel = own)
  if (!is.null(certificates)) keep_certificates(panel, certificates, exe, wide, workers, progress)
  panel
}

# Returns the error of a unit with the unit in front of it; a row without an id has no unit. NULL stays.
of_unit <- function(wrong, key) {
  if (is.null(wrong) || isTRUE(wrong$fault %in% c("NoId", "LongId"))) return(wrong)
  unit <- paste(names(key), vapply(key, function(it) quoted(as.character(it)), ""), collapse = ", ")
  wrong$unit <- unit
  wrong$message <- paste0(unit, if (startsWith(wrong$message, "row ")) ", " else ": ", wrong$message)
  wrong
}

# Returns what is known of a panel beside its columns.
inside <- function(panel) attr(panel, "panel", exact = TRUE)

# Returns the texts of a panel, the places of its faults as those in the frame.
with_places <- function(texts, long, data) {
  of_frame <- match(long$names, names(data))
  for (at in which(nzchar(texts[, "column"]))) {
    column <- of_frame[as.integer(texts[at, "column"])]
    texts[at, "column"] <- if (is.na(column)) "" else as.character(column)
  }
  texts
}

# Returns how many processes run at once.
workers_of <- function(workers) if (is.null(workers)) processors() else as.integer(whole_word(workers, "workers", "1", "4096"))

# Returns what `some` gives of the units of a long file, whose numbers it takes; a few units are asked about by one call.
rows_in_parallel <- function(long, some, workers, progress) {
  found <- in_parallel(length(long$rows), some, if (length(long$rows) < 50) 1L else workers, progress)
  if (any(vapply(found, is.null, TRUE))) stop(failed(NA_integer_, "a process of R ended before its answer"))
  wrong <- Filter(function(it) inherits(it, "rp_error"), found)
  if (length(wrong)) stop(wrong[[1]])
  found
}

# Returns what tells the units of a long file apart, a row for each.
keys_of <- function(long, data, id) {
  keys <- data[vapply(long$rows, `[`, 1L, 1), id, drop = FALSE]
  as.data.frame(keys, row.names = seq_along(long$rows))
}

# Stops with the error of a panel whose units all have the same one.
stop_where_all_are_refused <- function(faults, refusal, keys, units) {
  if (!length(faults) || length(unique(faults)) > 1 || !nzchar(faults[[1]])) return(invisible())
  first <- refusal(1)
  who <- if (length(faults) == 1) paste0("the panel has one unit (", units, "), with an error") else {
    paste("all", format(length(faults), big.mark = ","), units, "have one error, the first")
  }
  key <- paste(vapply(keys, function(it) quoted(as.character(it[1])), ""), collapse = ", ")
  first$message <- paste0(who, ", ", key, ": ", conditionMessage(first))
  first$count <- length(faults)
  class(first) <- c("rp_all_refused", class(first))
  stop(first)
}

# Returns the sides of a long frame as those of one table.
panel_sides <- function(data, id, levels = NULL) {
  if (!is.data.frame(data)) bad_data("a panel is a data frame")
  if (!is.character(id) || !length(id)) bad_data("by names the column, or the columns, that tell the units apart")
  absent <- setdiff(id, names(data))
  if (length(absent)) bad_data("by: there is no column ", quoted(absent[1]), "; found: ", listed(names(data)))
  taken <- intersect(id, c(panel_columns[-1], offered_columns))
  if (length(taken)) bad_data("by: the answer has a column ", quoted(taken[1]), " of its own; give the column another name")
  rest <- as.data.frame(unclass(as.list(data)[!names(data) %in% id]), optional = TRUE, stringsAsFactors = FALSE)
  sides <- sides_of(rest, in_panel = TRUE)
  # A column that has no numbers is told at once, and not for each unit.
  for (column in c(sides$prices, sides$quantities)) number_texts(column[0])
  sides$labels <- frame_labels(if ("obs" %in% names(data)) rest else data)
  if (!is.null(levels)) {
    if (!is.null(sides$levels)) bad_data("levels are given twice: by the column e and by the argument")
    sides$levels <- levels_for(levels, nrow(data))
  }
  if (!is.null(sides$levels)) {
    sides$levels <- thousandths(sides$levels)
    warn_of_levels(number_texts(sides$levels))
  }
  sides
}

# Returns the table of the unit in a row of a panel.
table_in <- function(panel, at) {
  panel <- inside(panel)
  rows <- panel$places[[at]]
  sides <- panel$sides
  part <- list(
    goods = sides$goods, prices = lapply(sides$prices, `[`, rows), quantities = lapply(sides$quantities, `[`, rows),
    labels = sides$labels[rows], levels = if (!is.null(sides$levels)) sides$levels[rows], left_out = sides$left_out, own_money = sides$own_money, is_drawn = sides$is_drawn
  )
  suppressWarnings(table_of_sides(part, panel$forms, id_advice(panel$id)))
}

# Returns how many processes run at once: as many as there are processors, or two where R's checks ask for that. Windows has no
# copies of a process, nor what tells the processors of one.
processors <- function() {
  if (on_windows()) return(1L)
  if (!tolower(Sys.getenv("_R_CHECK_LIMIT_CORES_")) %in% c("", "false")) return(2L)
  own <- get("mcaffinity", asNamespace("parallel"))()
  if (length(own)) length(own) else max(1L, detectCores(), na.rm = TRUE)
}

# Runs batch after batch, so that a bar can tell how far it is.
in_parallel <- function(count, some, workers, progress) {
  size <- if (progress) max(4 * workers, ceiling(count / 20)) else max(1, count)
  batches <- split(seq_len(count), ceiling(seq_len(count) / size))
  bar <- if (progress && count > 0) txtProgressBar(0, count, style = 3, file = stderr())
  found <- list()
  for (batch in batches) {
    parts <- split(batch, ceiling(seq_along(batch) * (if (workers > 1) 4 * workers else 1) / length(batch)))
    answers <- mclapply(parts, some, mc.cores = if (on_windows()) 1L else workers, mc.set.seed = FALSE, mc.allow.recursive = FALSE)
    # Where a process ended before its answer, there is none for any of its units.
    answers <- Map(function(it, part) if (is.list(it) && length(it) == length(part)) it else vector("list", length(part)), answers, parts)
    found <- c(found, do.call(c, unname(answers)))
    if (!is.null(bar)) setTxtProgressBar(bar, max(batch))
  }
  if (!is.null(bar)) close(bar)
  found
}

# ---- its methods

# Returns which rows have verdicts.
answered <- function(x) !nzchar(inside(x)$texts[, "fault"])

# Returns the columns of a panel. Indices are doubles, with which everything of R calculates, and beside each stands the exact number.
panel_frame <- function(own) {
  text <- function(name) unname(own$texts[, name])
  truth <- function(name, yes, no) ifelse(text(name) %in% yes, TRUE, ifelse(text(name) %in% no, FALSE, NA))
  whole <- function(name) as.integer(ifelse(nzchar(text(name)), text(name), NA))
  floor <- function(name) as.numeric(ifelse(nzchar(text(name)), text(name), NA))
  share <- function(name) exact(ifelse(nzchar(text(name)), text(name), NA))
  index <- nearest_double(share("efficiency"))
  frame_of(c(
    as.list(own$keys),
    list(observations = whole("observations"), goods = whole("goods"), garp = truth("garp", "holds", "violated"), ccei = index, efficiency = index),
    list(efficiency_exact = share("efficiency"), efficiency_floor = floor("efficiency_floor"), attained = truth("attained", "yes", "no")),
    list(homothetic = truth("homothetic", "holds", "violated"), quasilinear = truth("quasilinear", "holds", "violated")),
    beside("pump", share("pump")), list(pump_floor = floor("pump_floor")), beside("power", share("power")),
    list(fault = text("fault"), record = whole("record"), column = whole("column")),
    if ("offered_least" %in% colnames(own$texts)) {
      list(offered_least = floor("offered_least"), below_line = whole("below_line"), over_line = whole("over_line"))
    }
  ))
}

as.data.frame.rp_panel <- function(x, row.names = NULL, optional = FALSE, ...) {
  class(x) <- "data.frame"
  attr(x, "panel") <- NULL
  x
}

# A part of a panel is a data frame.
`[.rp_panel` <- function(x, ...) {
  x <- as.data.frame(x)
  x[...]
}

# Columns come first. What is known beside them is `keys`, `texts` and `refusals`.
`$.rp_panel` <- function(x, name) {
  column <- unclass(x)[[name, exact = TRUE]]
  if (!is.null(column) || !name %in% c("keys", "texts", "refusals", "places", "data", "offered", "numbers")) column else inside(x)[[name]]
}

# Returns what is said of a panel as a whole, in a few lines. It is told by what was answered, whatever became of the columns.
panel_lines <- function(x) {
  frame <- panel_frame(inside(x))
  own <- frame[answered(x), ]
  unnamed <- sum(frame$fault %in% c("NoId", "LongId"))
  count <- function(number) format(number, big.mark = ",")
  holds <- sum(own$garp)
  causes <- sort(table(frame$fault[!answered(x)]), decreasing = TRUE)
  first <- vapply(names(causes), function(it) paste(vapply(inside(x)$keys[match(it, frame$fault), , drop = FALSE], function(key) quoted(as.character(key)), ""), collapse = ", "), "")
  c(
    paste0("panel of ", count(nrow(frame) - unnamed), " ", inside(x)$units, " by ", listed(inside(x)$id), ", ", count(nrow(own)), " with verdicts"),
    if (nrow(own)) {
      paste0(
        "garp holds ", count(holds), ", violated ", count(nrow(own) - holds), "; efficiency (CCEI) mean ", shown_index(mean(own$ccei), 4),
        ", minimum ", sprintf("%.6f", min(own$efficiency_floor))
      )
    },
    sprintf("%s with an error: %s, the first %s", count(as.vector(causes)), names(causes), first),
    if (inside(x)$own_money) paste0("quasilinear: ", own_money),
    offered_line(inside(x)$offered),
    inside(x)$numbers
  )
}

# So many rows are shown of a panel.
rows_shown <- 6

print.rp_panel <- function(x, ...) {
  frame <- panel_frame(inside(x))
  cat(panel_lines(x), sep = "\n")
  whole <- c(inside(x)$id, "observations", "garp", "ccei", "homothetic", "quasilinear", if (inside(x)$ask != "test") inside(x)$ask, "fault")
  has <- vapply(frame[whole], function(it) !all(is.na(it) | it == ""), TRUE)
  print(utils::head(frame[whole[has]], rows_shown), ...)
  more <- nrow(frame) - rows_shown
  if (more > 0) cat(".. and ", format(more, big.mark = ","), " more rows, and more columns: as.data.frame() has all\n", sep = "")
  invisible(x)
}

summary.rp_panel <- function(object, ...) {
  frame <- panel_frame(inside(object))
  own <- frame[answered(object), ]
  title <- paste0(nrow(frame), " ", inside(object)$units, ", ", nrow(frame) - nrow(own), " of them with an error")
  ask <- inside(object)$ask
  if (ask != "test") {
    return(summary_of(as.data.frame(t(as.matrix(summary(own[[ask]])))), title))
  }
  counts <- vapply(own[intersect(tests_of(inside(object)$own_money), names(own))], function(it) {
    c(holds = sum(it %in% TRUE), violated = sum(it %in% FALSE), withheld = sum(is.na(it)))
  }, c(holds = 0L, violated = 0L, withheld = 0L))
  summary_of(as.data.frame(t(counts)), title)
}
