# The call of panels: a long file with a column of ids, and the rows that come of it. Nothing is taken for an answer but a row for each
# unit, and for each record without one.

panel_columns <- c(
  "household", "observations", "goods", "garp", "efficiency", "efficiency_floor", "attained", "homothetic", "quasilinear", "pump", "pump_floor", "power",
  "fault", "record", "column"
)

# The columns of what was spent of offered budgets, which come last if prices are exchanged intercepts.
offered_columns <- c("offered_least", "below_line", "over_line")

# So many units are asked about in one call at most.
panel_block <- 200

# Returns the words of the call over a long file.
panel_words <- function(kind, seed, draws, wide, intercepts = FALSE) {
  c(
    "long.csv", "--id", "household", if (kind == "pump") "--pump", if (kind == "power") c("--power", rev(power_words(seed, draws))),
    if (intercepts) "--intercepts", if (wide) "--wide"
  )
}

# Returns what answers: the call of the library, or the program `rp-panel`. Either is what `exe` names, where that is no `rp`; else what
# RP_PANEL names, else what belongs to the library or the program that is found.
panel_engine <- function(exe = NULL) {
  named <- Sys.getenv("RP_PANEL")
  own <- if (!is.null(exe)) exe else if (nzchar(named)) named
  if (!is.null(own)) {
    path <- on_path(own)
    if (is.null(path)) no_program(if (is.null(exe)) "the variable RP_PANEL" else "the argument exe", " names ", quoted(own), ", which is no program")
    if (!is_library(path) && basename(path) != program_name()) return(list(program = path))
  }
  engine <- engine_of(exe)
  call <- if (!is.null(engine$call)) library_call(engine$path, "panel")
  if (!is.null(call)) return(list(call = call))
  path <- if (is.null(engine$call)) engine$program else engine$path
  found <- Find(is_program, panel_places(path))
  if (is.null(found)) no_program(path, " has no call of panels, and no ", panel_name(), " stands beside it: take both of one release, or set RP_PANEL")
  list(program = found)
}

panel_name <- function(windows = on_windows()) if (windows) "rp-panel.exe" else "rp-panel"

# Returns where the program of panels may stand beside a program, or beside what that leads to; and where `rt` builds both.
panel_places <- function(program) {
  folders <- unique(dirname(c(program, normalizePath(program, "/", mustWork = FALSE))))
  c(file.path(folders, panel_name()), file.path(dirname(dirname(folders)), "rp_panel_program", "out", "rp_panel_program"))
}

# ---- the long file

# Returns a frame as a long file: `cells` has the texts of each column after the ids, `rows` the rows of each unit and then each
# row without one, `ids` its id, which is empty where it has none that is taken.
long_sheet <- function(data, id, sides, forms) {
  count <- length(sides$goods)
  levels <- !is.null(sides$levels)
  columns <- c(sides$prices, sides$quantities, if (levels) list(sides$levels))
  kinds <- c(rep(c("price", "quantity"), each = count), if (levels) "")
  of_kind <- list(price = forms[[1]], quantity = forms[[2]])
  ids <- ids_of(data, id)
  taken <- nzchar(ids) & nchar(ids, "bytes") <= limit("long.household_bytes")
  rows <- unname(split(which(taken), match(ids[taken], unique(ids[taken]))))
  rows <- c(rows, as.list(which(!taken)))
  whole <- list(
    file = "table", header = c("household", sprintf("p_%d", seq_len(count)), sprintf("q_%d", seq_len(count)), if (levels) "e"),
    names = c(id[1], price_names(sides), paste0("q_", sides$goods), if (levels) "e"), kinds = c("", kinds), columns = c(list(ids), columns),
    labels = labels_in(sides$labels), forms = forms, own_money = sides$own_money
  )
  # What fits is told by all units, which are rounded alike.
  whole$fit <- once(function() fit_of(whole))
  refuse_doubles(whole, data)
  cells <- lapply(seq_along(columns), function(at) cells_of(columns[[at]], if (nzchar(kinds[at])) of_kind[[kinds[at]]]))
  if (isTRUE(sides$own_money) && !isTRUE(sides$is_drawn)) {
    several <- length(unique(ids[taken])) > 1
    calls <- if (several) paste(whole$labels, "of", ids) else whole$labels
    whole$measure <- measure_of(cells, ids, levels)
    whole$offered <- offered_of(cells[2:1], cells[3:4], calls, c(whole$names[3:2], whole$names[4:5]))
  }
  c(whole, list(cells = cells, ids = vapply(rows, function(at) ids[at[1]], ""), rows = rows, is_named = rep(c(TRUE, FALSE), c(length(rows) - sum(!taken), sum(!taken)))))
}

# Returns the id and the line of a unit of one choice, whose numbers have the decimal places of all prices and of all quantities. It
# stands in front of each block, since what rounding explains is told by the decimal places of a whole file.
measure_of <- function(cells, ids, levels) {
  id <- "places"
  while (id %in% ids) id <- paste0(id, "'")
  last <- function(columns) {
    places <- places_given(unlist(cells[columns]))
    if (places) paste0("1.", strrep("0", places - 1), "1") else "1"
  }
  fields <- c(id, rep(c(last(1:2), last(3:4)), each = 2), if (levels) limit_text("table.level_scale"))
  list(id = id, line = paste(fields, collapse = ","))
}

# Returns the names of the columns of the answer about a long file.
columns_answered <- function(long) c(panel_columns, if (!is.null(long$measure)) offered_columns)

# Returns a function that reckons what another does when it is first asked, and keeps it.
once <- function(reckon) {
  found <- NULL
  function() {
    if (is.null(found)) found <<- reckon()
    found
  }
}

# Refuses the whole panel where a double needs more decimal places or digits than are taken, and nothing rounds it.
refuse_doubles <- function(long, data) {
  first <- vapply(seq_along(long$kinds), function(at) {
    form <- if (long$kinds[at] %in% c("price", "quantity")) long$forms[[if (long$kinds[at] == "price") 1 else 2]]
    if (is.null(form) || !is.null(form$digits)) return(NA_integer_)
    match(TRUE, is_beyond(long$columns[[at]], form$shortest))
  }, 0L)
  if (all(is.na(first))) return(invisible())
  column <- which.min(first)
  stop(panel_fault(long, "TooManyDecimals", list(record = first[column], column = column), data))
}

# Returns the texts of numbers. What is no plain number is refused, however it is written; so it is not. One that has too many digits
# for a text has one that is refused for the same fault.
cells_of <- function(column, form) {
  texts <- tryCatch(number_texts(column, form), rp_too_long = function(wrong) {
    vapply(seq_along(column), function(at) {
      tryCatch(number_texts(column[at], form), rp_too_long = function(it) if (it$fault == "TooLarge") strrep("9", 30) else paste0("0.", strrep("3", 30)))
    }, "")
  })
  ifelse(grepl(plain, texts, useBytes = TRUE), texts, "?")
}

# Returns the id of each row: the text of its column, without the blanks round it, or of several columns as a record of CSV; empty
# where one is missing.
ids_of <- function(data, id) {
  parts <- lapply(id, function(name) id_texts(data[[name]]))
  if (length(parts) == 1) return(parts[[1]])
  whole <- Reduce(`&`, lapply(parts, nzchar))
  ifelse(whole, do.call(paste, c(lapply(parts, csv_field), sep = ",")), "")
}

id_texts <- function(x) {
  if (is.list(x)) bad_data("by: a column is a list")
  whole <- is.double(x) && is.null(attributes(x))
  text <- if (!whole) as.character(x) else ifelse(is.finite(x) & x == floor(x) & abs(x) < 1e15, sprintf("%.0f", x), as.character(x))
  text[is.na(x)] <- ""
  gsub("^[ \t]+|[ \t]+$", "", enc2utf8(text), useBytes = TRUE)
}

# Quotes the fields that have to be.
csv_field <- function(text) ifelse(grepl("[\",\r\n]", text, useBytes = TRUE), paste0("\"", gsub("\"", "\"\"", text, fixed = TRUE), "\""), text)

# Returns the labels of the rows as they are told.
labels_in <- function(labels) {
  if (is.factor(labels)) labels <- as.character(labels)
  labels <- as.vector(labels)
  is_whole <- is.double(labels) && all(is.na(labels) | is.finite(labels) & labels == floor(labels) & abs(labels) < 2^31)
  if (is_whole) as.integer(labels) else labels
}

# ---- the call

# Returns the rows of some units, by their numbers: a vector of the texts of the columns for each, or what went wrong for all.
panel_rows <- function(long, numbers, words, engine) {
  blocks <- unlist(lapply(split(numbers, long$is_named[numbers]), function(own) split(own, ceiling(seq_along(own) / panel_block))), recursive = FALSE)
  found <- vector("list", length(numbers))
  for (block in blocks) {
    rows <- tryCatch(block_rows(long, block, words, engine), rp_error = function(wrong) rep(list(wrong), length(block)))
    found[match(block, numbers)] <- rows
  }
  found
}

block_rows <- function(long, block, words, engine) {
  pooled <- vapply(block, function(at) long$is_named[at] && anyDuplicated(long$labels[long$rows[[at]]]) > 0, TRUE)
  asked <- block[!pooled]
  columns <- columns_answered(long)
  found <- rep(list(stats::setNames(ifelse(columns == "fault", "Pooled", ""), columns)), length(block))
  if (length(asked)) found[!pooled] <- called_rows(long, asked, words, engine)
  found
}

# Returns the long file of some units, and the rows of the frame that are in it. A unit with more records than a table has is refused
# for that alone, so no more of its records decide anything.
lines_of_block <- function(long, block) {
  rows <- unlist(lapply(long$rows[block], utils::head, limit("table.records") + 1L))
  lines <- do.call(paste, c(list(csv_field(long$columns[[1]][rows])), lapply(long$cells, `[`, rows), sep = ","))
  list(rows = rows, lines = c(paste(long$header, collapse = ","), lines))
}

called_rows <- function(long, block, words, engine) {
  sent <- lines_of_block(long, block)
  measure <- long$measure
  rows <- c(if (!is.null(measure)) NA, sent$rows)
  ran <- answer(words, list(long.csv = c(sent$lines[1], measure$line, sent$lines[-1])), engine)
  if (!ran$status %in% 0L) stop_at_refused(ran)
  named <- long$is_named[block]
  table <- panel_answer(ran$out, c(measure$id, long$ids[block][named]), sum(!named), columns_answered(long))
  table <- table[seq_len(nrow(table)) > length(measure$id), , drop = FALSE]
  with_record <- nzchar(table[, "record"])
  table[with_record, "record"] <- as.character(rows[as.integer(table[with_record, "record"])])
  lapply(seq_len(nrow(table)), function(at) table[at, ])
}

# Stops with the refusal of a long file as a whole, or of what stands beside it.
stop_at_refused <- function(ran, new = NULL) {
  told <- told_refusal(ran)
  if (is.null(told)) stop(failed(ran$status, ran$said))
  if (!is.null(new) && told$file == "new") stop(refusal(new, told$fault, told$places))
  stop(refused(told$fault, "table", told$places, hint = panel_hint(told$fault)))
}

# Returns the fields of a table that the call wrote, a row for each of these units and for each of so many records without one; stops
# where it is any other.
panel_answer <- function(text, ids, unnamed, columns = panel_columns) {
  fields <- csv_rows(text)
  whole <- length(fields) > 0 && all(lengths(fields) == length(columns)) && identical(fields[[1]], columns)
  if (!whole) stop(no_answer(text))
  table <- do.call(rbind, c(list(matrix("", 0, length(columns))), fields[-1]))
  colnames(table) <- columns
  empty <- rowSums(table[, 2:12, drop = FALSE] != "") == 0
  fine <- grepl("^[0-9]+,[0-9]+,(holds|violated),[0-9]+(/[0-9]+)?,[0-9]+[.][0-9]{6},(yes|no),(holds|violated|withheld),(holds|violated)$", apply(table[, 2:9, drop = FALSE], 1, paste, collapse = ","))
  if (length(columns) > length(panel_columns)) {
    spent <- apply(table[, offered_columns, drop = FALSE], 1, paste, collapse = ",")
    empty <- empty & spent == ",,"
    fine <- fine & grepl("^[0-9]+[.][0-9]{6},[0-9]+,[0-9]+$", spent)
  }
  is_row <- ifelse(table[, "fault"] != "", empty, fine)
  is_told <- identical(unname(table[, 1]), c(ids, rep("", unnamed)))
  last <- table[nrow(table) + 1 - seq_len(unnamed), "fault"]
  if (!all(is_row) || !is_told || !all(last %in% c("NoId", "LongId"))) stop(no_answer(text))
  table
}

# Returns the records of a text that was written as CSV.
csv_rows <- function(text) {
  if (!nzchar(text)) return(list())
  if (!grepl("\"", text, fixed = TRUE, useBytes = TRUE)) {
    lines <- strsplit(text, "\n", fixed = TRUE, useBytes = TRUE)[[1]]
    return(lapply(strsplit(paste0(lines, ","), ",", fixed = TRUE, useBytes = TRUE), utf8))
  }
  at <- gregexpr("(\"([^\"]|\"\")*\"|[^,\n\"]*)[,\n]", text, perl = TRUE, useBytes = TRUE)
  found <- regmatches(text, at)[[1]]
  if (sum(nchar(found, "bytes")) != nchar(text, "bytes")) return(list())
  field <- substring_bytes(found)
  is_quoted <- startsWith(field, "\"")
  field[is_quoted] <- gsub("\"\"", "\"", sub("\"$", "", sub("^\"", "", field[is_quoted], useBytes = TRUE), useBytes = TRUE), fixed = TRUE, useBytes = TRUE)
  ends <- grepl("\n$", found, useBytes = TRUE)
  unname(lapply(split(field, cumsum(c(0, utils::head(ends, -1)))), utf8))
}

# Returns texts without their last byte.
substring_bytes <- function(texts) sub("[,\n]$", "", texts, useBytes = TRUE)

utf8 <- function(texts) {
  Encoding(texts) <- "UTF-8"
  texts
}

# ---- faults

# Returns the refusal of a unit, told by the names of the frame; NULL where it has verdicts.
panel_refusal <- function(long, texts, rows, data) {
  fault <- texts[["fault"]]
  if (!nzchar(fault)) return(NULL)
  if (fault == "Pooled") return(tryCatch(row_labels(long$labels[rows], TRUE, id_advice(long$names[1])), rp_bad_data = identity))
  panel_fault(long, fault, lapply(texts[c("record", "column")], function(it) if (nzchar(it)) as.integer(it)), data)
}

# Returns the refusal of a record of the long file, told by the names of the frame.
panel_fault <- function(long, fault, place, data) {
  column <- place$column
  value <- if (!is.null(column) && !is.null(place$record)) long$columns[[column]][place$record]
  name <- if (is.null(column)) NA else long$names[column]
  hint <- panel_hint(fault)
  if (is.na(hint)) hint <- hint_of(long, fault, column, value)
  own <- match(name, names(data))
  places <- list(record = place$record, column = if (!is.na(own)) own)
  refused(fault, "table", places, label_of(long, place$record), name, shown(value), hint)
}

# Returns what the row of a fault is called: its number where it has no label, NA where the fault has no row.
label_of <- function(long, record) {
  if (is.null(record)) return(NA)
  if (is.na(long$labels[record])) record else long$labels[record]
}

# Returns what to do about a fault of a panel, or NA.
panel_hint <- function(fault) {
  if (fault == "TooManyRecords") {
    return(paste0("One unit has at most ", limit_text("table.records"), " observations. Test parts of its observations, such as years."))
  }
  if (fault %in% c("NoId", "LongId")) sentence(fault) else NA
}
