# Tables of prices and purchases.

# Returns the table of prices p and quantities q, or of one frame with p_NAME and q_NAME for each good.
table_of <- function(p, q = NULL, forms = NULL, levels = NULL) {
  if (inherits(p, "rp_table")) return(if (is.null(levels)) p else with_levels(p, levels))
  sides <- if (is.null(q)) sides_of(p) else two_sides(side_of(p, "p_", "prices"), side_of(q, "q_", "quantities"))
  if (!is.null(levels)) {
    if (!is.null(sides$levels)) bad_data("levels are given twice: by the column e and by the argument")
    sides$levels <- levels_for(levels, length(sides$labels))
  }
  table_of_sides(sides, forms)
}

table_of_sides <- function(sides, forms, advice = id_advice(NULL)) {
  numbers <- seq_along(sides$goods)
  has_levels <- !is.null(sides$levels)
  if (has_levels) sides$levels <- thousandths(sides$levels)
  labels <- row_labels(sides$labels, apart = TRUE, advice)
  found <- sheet(
    "table", c(sprintf("p_%d", numbers), sprintf("q_%d", numbers), "e"[has_levels]),
    c(rep(c("price", "quantity"), each = length(numbers)), ""[has_levels]),
    c(price_names(sides)[numbers], paste0("q_", sides$goods)[numbers], "e"[has_levels]),
    c(sides$prices, sides$quantities, list(sides$levels)[has_levels]), labels, forms
  )
  found$goods <- sides$goods
  found$levels <- if (has_levels) found$texts[[length(found$texts)]]
  warn_of_levels(found$levels)
  found$left_out <- sides$left_out
  found$own_money <- isTRUE(sides$own_money)
  # The prices are the intercepts exchanged.
  if (found$own_money && !isTRUE(sides$is_drawn)) {
    found$offered <- offered_of(found$texts[2:1], found$texts[3:4], labels, c(found$names[2:1], found$names[3:4]))
  }
  structure(found, class = "rp_table")
}

# Warns of levels that look like shares: 1 is a level, and hardly the one that is meant.
warn_of_levels <- function(texts) {
  if (!"1" %in% texts) return(invisible())
  message <- "a level of 1 is one thousandth, which excuses nearly everything; 1000 is the whole of what was spent"
  warning(structure(class = c("rp_warning", "warning", "condition"), list(message = message, call = NULL)))
}

# Returns levels in thousandths of what was spent. Levels of which none is above 1, and one is between 0 and 1, are shares: 0.95 is 950
# thousandths. Others are thousandths already, and what is no whole number of them stays as it is, to be refused.
thousandths <- function(levels) {
  texts <- tryCatch(number_texts(levels, list(shortest = TRUE)), rp_too_long = function(it) "")
  if (!all(grepl(plain, texts, useBytes = TRUE))) return(levels)
  shares <- as.numeric(texts)
  if (any(shares > 1) || !any(shares > 0 & shares < 1)) return(levels)
  ifelse(nchar(places_in(texts)) <= 3, sprintf("%.0f", shares * 1000), texts)
}

id_advice <- function(id) {
  if (is.null(id)) return("Use rp_panel(data, by = ..) with the column that tells the units apart, or give each row a label of its own.")
  paste0("by = ", paste(quoted(id), collapse = ", "), " does not tell the units apart. Name every column that does.")
}

levels_for <- function(levels, count) {
  if (!length(levels) %in% c(1, count)) bad_data("levels: one number, or one for each of the ", count, " rows, shares such as 0.95, or thousandths from 1 to 1000")
  rep(levels, length.out = count)
}

with_levels <- function(table, levels) {
  if (!is.null(table$levels)) bad_data("levels are given twice: by the table and by the argument")
  count <- length(table$goods)
  own <- seq_len(count)
  sides <- list(
    goods = table$goods, prices = table$texts[own], quantities = table$texts[count + own], labels = table$labels,
    levels = levels_for(levels, length(table$labels)), left_out = table$left_out, own_money = table$own_money
  )
  table_of_sides(sides, NULL)
}

# Why two answers are not given where the prices are intercepts exchanged.
own_money <- "intercepts exchanged give each row money of its own, and this adds money of different rows"

# Returns the columns that have the price of each good: its own, or the intercept of the other good.
price_names <- function(sides) if (isTRUE(sides$own_money)) paste0("i_", rev(sides$goods)) else paste0("p_", sides$goods)

# Returns the two sides of one frame. Where budget lines of two goods are kept by their intercepts, i_NAME in place of p_NAME,
# these are exchanged, which is exact, and each row has money of its own then. Columns other than p_NAME, q_NAME, e and obs are left out, and told where the answer
# is printed.
sides_of <- function(d, in_panel = FALSE) {
  if (!is.data.frame(d)) bad_data("there are no quantities; a data frame alone has columns p_NAME and q_NAME for each good")
  prices <- starting(names(d), "p_")
  is_line <- !length(prices) && length(starting(names(d), "i_")) > 0
  first <- if (is_line) "i_" else "p_"
  if (is_line) prices <- starting(names(d), "i_")
  quantities <- starting(names(d), "q_")
  wanted <- "a table has a column p_NAME, the price, and a column q_NAME, the quantity, for each good NAME"
  if (!length(c(prices, quantities))) bad_data(wanted, ", perhaps e and obs. The intercepts of budget lines of two goods stand in i_NAME, in place of p_NAME. Rename the columns; found: ", listed(names(d)))
  for (name in names(d)[names(d) %in% c(prices, quantities)]) {
    other <- paste0(if (startsWith(name, first)) "q_" else first, substring(name, 3))
    if (!other %in% names(d)) unpaired(d, name, paste0("there is no column ", quoted(other), "; ", wanted, "; found: ", listed(names(d))))
  }
  near <- names(d)[!names(d) %in% "e" & trimws(tolower(names(d))) == "e"]
  if (length(near)) unpaired(d, near[1], "levels of observations stand in a column e", "BadHeader")
  goods <- substring(prices, 3)
  if (is_line && length(goods) != 2) bad_data("a budget line has two intercepts, i_NAME of each of two goods, and here are ", listed(goods))
  left_out <- setdiff(names(d), c(prices, quantities, "e", "obs"))
  if (!in_panel) no_panel(d, left_out)
  list(
    goods = goods, prices = columns_of(d, if (is_line) rev(prices) else prices), quantities = columns_of(d, paste0("q_", goods)),
    labels = frame_labels(d), levels = if ("e" %in% names(d)) d[["e"]], left_out = left_out, own_money = is_line
  )
}

# Refuses a frame with a column of ids: one with such a name whose values come again.
no_panel <- function(d, left_out) {
  for (name in left_out[trimws(tolower(left_out)) %in% unlist(catalogue()$id_columns)]) {
    values <- length(unique(d[[name]]))
    if (values > 1 && values < nrow(d)) {
      bad_data(
        "the column ", quoted(name), " has ", values, " values for ", nrow(d), " rows, and a table is one unit, such as a subject. Use rp_panel(data, by = ",
        quoted(name), "). If these rows are those of one unit, leave the column out."
      )
    }
  }
}

unpaired <- function(d, name, hint, fault = "Unpaired") {
  stop(refused(fault, places = list(column = match(name, names(d))), name = name, hint = hint))
}

# Returns the names that begin so; refuses one that is nearly so, lest a good be left out unsaid.
starting <- function(names, prefix) {
  if (anyDuplicated(names)) bad_data("two columns have the name ", quoted(names[anyDuplicated(names)]))
  own <- startsWith(names, prefix)
  near <- which(!own & startsWith(tolower(sub("^[ \t]+", "", names, useBytes = TRUE)), prefix))
  if (length(near)) {
    hint <- paste0("a column of this kind begins with ", quoted(prefix))
    stop(refused("BadHeader", places = list(column = near[1]), name = names[near[1]], hint = hint))
  }
  names[own]
}

# Returns a frame as R's own, whose brackets are those of no package.
plain_frame <- function(data) if (is.data.frame(data)) as.data.frame(data) else data

columns_of <- function(d, names) lapply(names, function(name) d[[name]])

frame_labels <- function(d) {
  if ("obs" %in% names(d)) return(d[["obs"]])
  if (.row_names_info(d) > 0L) row.names(d) else seq_len(nrow(d))
}

# Returns the columns of a matrix or a frame, with the names of their goods and of the rows where there are any.
side_of <- function(data, prefix, what) {
  data <- plain_frame(data)
  if (is.data.frame(data)) {
    names <- setdiff(names(data), "obs")
    goods <- ifelse(startsWith(names, prefix), substring(names, 3), names)
    if ("e" %in% names && length(names) > 1 && all(startsWith(names[names != "e"], prefix))) {
      bad_data(what, ": the column e has levels, which one frame of prices and quantities has, or the argument levels")
    }
    if (anyDuplicated(goods)) bad_data(what, ": two columns are of the good ", quoted(goods[anyDuplicated(goods)]))
    labels <- if ("obs" %in% names(data) || .row_names_info(data) > 0L) frame_labels(data)
    return(list(columns = columns_of(data, names), goods = goods, labels = labels, count = nrow(data), is_frame = TRUE))
  }
  if (length(dim(data)) != 2) bad_data(what, ": neither a matrix nor a data frame")
  names <- colnames(data)
  goods <- if (!is.null(names)) ifelse(startsWith(names, prefix), substring(names, 3), names)
  if (anyDuplicated(goods)) bad_data(what, ": two columns are of the good ", quoted(goods[anyDuplicated(goods)]))
  columns <- lapply(seq_len(ncol(data)), function(at) data[, at])
  list(columns = columns, goods = goods, labels = rownames(data), count = nrow(data), is_frame = FALSE)
}

# Puts prices and quantities together: by the names of their goods where both have them, else by their places.
two_sides <- function(p, q) {
  if (p$count != q$count || length(p$columns) != length(q$columns)) {
    bad_data(
      "prices and quantities have not the same shape: ", p$count, " rows of ", length(p$columns), " goods, and ",
      q$count, " rows of ", length(q$columns)
    )
  }
  if (!is.null(p$labels) && !is.null(q$labels) && !identical(as.character(p$labels), as.character(q$labels))) {
    bad_data("the rows of prices and quantities have not the same names in the same order")
  }
  both <- !is.null(p$goods) && !is.null(q$goods)
  if (both && setequal(p$goods, q$goods)) {
    q$columns <- q$columns[match(p$goods, q$goods)]
  } else if (both && (p$is_frame || q$is_frame || any(p$goods %in% q$goods))) {
    bad_data(
      "prices and quantities are not of the same goods: prices have ", listed(p$goods), ", and quantities ", listed(q$goods),
      "; matrices without column names are taken by place"
    )
  }
  goods <- if (!is.null(p$goods)) p$goods else if (!is.null(q$goods)) q$goods else as.character(seq_along(p$columns))
  labels <- if (!is.null(p$labels)) p$labels else if (!is.null(q$labels)) q$labels else seq_len(p$count)
  list(goods = goods, prices = p$columns, quantities = q$columns, labels = labels)
}
