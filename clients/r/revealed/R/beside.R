# What stands beside a table: new prices, bundles; and data of other shapes: budgets and choices, technologies, menus.

# Returns new prices of a table's goods, with what is spent where `m` is wanted.
new_prices <- function(table, new, m = NULL, wants_m = FALSE, forms = NULL) {
  new <- plain_frame(if (is.null(dim(new))) one_row(new, "new prices are") else new)
  if (wants_m && is.data.frame(new) && "m" %in% names(new) && !"m" %in% table$goods) {
    if (is.null(m)) m <- new[["m"]]
    new <- new[names(new) != "m"]
  }
  side <- of_goods(side_of(new, "p_", "new prices"), table$goods, "new prices")
  columns <- side$columns
  numbers <- seq_along(columns)
  header <- sprintf("p_%d", numbers)
  names <- paste0("p_", table$goods)
  kinds <- rep("price", length(columns))
  if (wants_m) {
    if (is.null(m)) bad_data("there is no m, what is spent: give the argument m, or a column m beside the new prices")
    if (length(m) == 1) m <- rep(m, side$count)
    if (length(m) != side$count) bad_data("m: there is not one for each row of new prices")
    columns <- c(columns, list(m))
    header <- c(header, "m")
    names <- c(names, "m")
    kinds <- c(kinds, "money")
  }
  sheet("new", header, kinds, names, columns, row_labels(labels_or_numbers(side)), forms)
}

# Returns bundles of a table's goods.
bundles_of <- function(table, bundles, forms = NULL) {
  if (is.null(dim(bundles))) bundles <- one_row(bundles, "bundles are")
  side <- of_goods(side_of(bundles, "q_", "bundles"), table$goods, "bundles")
  numbers <- seq_along(side$columns)
  kinds <- rep("quantity", length(numbers))
  sheet("bundles", sprintf("q_%d", numbers), kinds, paste0("q_", table$goods), side$columns, row_labels(labels_or_numbers(side)), forms)
}

labels_or_numbers <- function(side) if (is.null(side$labels)) seq_len(side$count) else side$labels

# Puts the columns in the order of the goods: by their names where they have any.
of_goods <- function(side, goods, what) {
  if (is.null(side$goods)) {
    if (length(side$columns) == length(goods)) return(side)
    bad_data(what, ": each row has a number for each of the ", length(goods), " goods, and not ", length(side$columns))
  }
  if (!setequal(side$goods, goods)) bad_data(what, ": the table's goods are ", listed(goods), ", and these are of ", listed(side$goods))
  side$columns <- side$columns[match(goods, side$goods)]
  side
}

# Returns one row of numbers as a matrix.
one_row <- function(new, what) {
  if (is.list(new) || is.null(new)) bad_data(what, " a matrix, a data frame or one row of numbers")
  if (inherits(new, c("bigz", "bigq"))) new <- number_texts(new)
  matrix(new, 1, dimnames = if (!is.null(names(new))) list(NULL, names(new)))
}

# ---- budgets and choices

# Returns the sheets of budgets and of choices from them.
choices_of <- function(budgets, choices, per, forms) {
  if (inherits(budgets, "rp_choices")) return(budgets)
  if (is.data.frame(budgets) && is.data.frame(choices)) {
    of <- function(data) intersect(c("p_", "q_"), substring(names(data), 1, 2))
    if (identical(of(budgets), "q_") && identical(of(choices), "p_")) {
      bad_data("budgets and choices are exchanged: the budgets have columns q_NAME, and the choices p_NAME. Give the budgets first.")
    }
  }
  if (is.data.frame(budgets)) budgets <- with_income(budgets)
  if (is.data.frame(choices)) choices <- counted_choices(choices)
  first <- loose_sheet("budgets", budgets, "p_", "price", character(), c(w = "money"), forms)
  labels <- if (is.data.frame(budgets) && "obs" %in% names(budgets)) first$labels
  second <- loose_sheet("choices", choices, "q_", "quantity", c(budget = ""), c(n = ""), forms)
  if (!is.null(labels)) second <- by_budget(second, labels)
  goods <- substring(first$names[startsWith(first$header, "p_")], 3)
  theirs <- substring(second$names[startsWith(second$header, "q_")], 3)
  if (!setequal(goods, theirs)) bad_data("budgets are of the goods ", listed(goods), ", and choices of ", listed(theirs))
  second$header[startsWith(second$header, "q_")] <- sprintf("q_%d", match(theirs, goods))
  structure(list(budgets = first, choices = second, per = per_word(per)), class = "rp_choices")
}

# Returns a frame of budgets under the names of the program's file: the income is `m`, as in every call, or `w`; what the budgets are
# called is `obs` or `budget`.
with_income <- function(budgets) {
  for (it in list(c("m", "w", "the income"), c("budget", "obs", "what budgets are called"))) {
    if (!it[1] %in% names(budgets)) next
    if (it[2] %in% names(budgets)) bad_data("budgets: ", it[3], " is given twice, by the columns ", quoted(it[1]), " and ", quoted(it[2]))
    names(budgets)[names(budgets) == it[1]] <- it[2]
  }
  budgets
}

# Names by which people may mean `n`. Without `n` each row is one person's choice, so such a column must not be passed over.
count_names <- c("n", "share", "shares", "count", "counts", "freq", "frequency", "weight", "weights")

# Returns a frame of choices with `n`, how many times each was made. Without that column each row is one person's choice, and rows that say
# the same become one, which is called by the first of them.
counted_choices <- function(choices) {
  if ("n" %in% names(choices)) return(choices)
  own <- choices[names(choices) == "budget" | startsWith(names(choices), "q_")]
  if (!"budget" %in% names(own) || length(own) < 2) return(choices)
  unread <- names(choices)[tolower(names(choices)) %in% count_names]
  if (length(unread)) {
    bad_data(
      "choices: the column ", quoted(unread[1]), " is not read. Name it 'n' if its integers say how many people chose the bundle. ", from_shares,
      " Leave the column out if each row is one person's choice."
    )
  }
  key <- do.call(paste, c(lapply(unname(as.list(own)), function(it) if (is.double(it)) format(it, digits = 17) else as.character(it)), sep = "\r"))
  first <- which(!duplicated(key))
  found <- own[first, , drop = FALSE]
  found$n <- as.vector(table(factor(key, key[first])))
  found$obs <- frame_labels(choices)[first]
  found
}

per_word <- function(per) if (!is.null(per)) word_within(per, "per", "random", "--per")

# Puts the numbers of budgets where their labels stand.
by_budget <- function(choices, labels) {
  at <- match("budget", choices$names)
  number <- match(as.character(choices$columns[[at]]), as.character(labels))
  if (anyNA(number)) stop(refusal(choices, "UnknownBudget", list(record = which(is.na(number))[1], column = at)))
  choices$texts[[at]] <- as.character(number)
  choices
}

# Returns a sheet of a frame that has other columns beside those of goods: a matrix begins with those of `before` and ends
# with those of `after`.
loose_sheet <- function(file, data, prefix, kind, before, after, forms) {
  others <- c(before, after)
  wanted <- paste0(file, " have a column ", prefix, "NAME for each good NAME, and ", paste(sub("^w$", "m", names(others)), collapse = " and "))
  if (is.data.frame(data)) {
    own <- starting(names(data), prefix)
    missing <- setdiff(names(others), names(data))
    if (length(missing)) bad_data(file, ": there is no column ", quoted(sub("^w$", "m", missing[1])), "; ", wanted, "; found: ", listed(names(data)))
    if (!length(own)) bad_data(wanted, "; found: ", listed(names(data)))
    if ("e" %in% names(data)) bad_data(file, ": a column e of levels belongs to a table of prices and purchases, and not here")
    names <- c(own, names(others))
    columns <- columns_of(data, names)
    labels <- frame_labels(data)
  } else {
    if (length(dim(data)) != 2) bad_data(file, ": neither a matrix nor a data frame")
    goods <- seq_len(max(0, ncol(data) - length(others)))
    if (!length(goods)) bad_data("too few columns: ", wanted, "; there are ", ncol(data))
    names <- c(names(before), paste0(prefix, goods), names(after))
    columns <- lapply(seq_len(ncol(data)), function(at) data[, at])
    labels <- if (is.null(rownames(data))) seq_len(nrow(data)) else rownames(data)
  }
  is_good <- startsWith(names, prefix)
  header <- names
  header[is_good] <- sprintf("%s%d", prefix, seq_len(sum(is_good)))
  kinds <- ifelse(is_good, kind, unname(others[names]))
  sheet(file, header, kinds, names, columns, row_labels(labels), forms)
}

# ---- technologies and asked outputs

# Returns the sheet of what a firm was seen to do: a frame with w_NAME and x_NAME for each input, y and perhaps p.
technology_of <- function(data, forms) {
  if (!is.data.frame(data)) bad_data("a technology is a data frame with w_NAME and x_NAME for each input NAME, y and perhaps p")
  prices <- starting(names(data), "w_")
  used <- starting(names(data), "x_")
  wanted <- "a technology has a column w_NAME, the price, and x_NAME, how much was used, for each input NAME, the output y, and perhaps its price p"
  inputs <- substring(prices, 3)
  whole <- length(inputs) && setequal(inputs, substring(used, 3)) && "y" %in% names(data)
  if (!whole) bad_data(wanted, "; found: ", listed(names(data)))
  if ("e" %in% names(data)) bad_data("technology: a column e of levels belongs to a table of prices and purchases, and not here")
  numbers <- seq_along(inputs)
  has_price <- "p" %in% names(data)
  names <- c(prices, paste0("x_", inputs), "y", "p"[has_price])
  header <- c(sprintf("w_%d", numbers), sprintf("x_%d", numbers), "y", "p"[has_price])
  kinds <- c(rep(c("price", "quantity"), each = length(numbers)), "quantity", "price"[has_price])
  found <- sheet("technology", header, kinds, names, columns_of(data, names), row_labels(frame_labels(data)), forms)
  c(found, list(inputs = inputs, has_price = has_price))
}

# Returns the sheet of outputs that are asked for at new prices of a technology's inputs.
outputs_of <- function(technology, new, forms) {
  inputs <- technology$inputs
  wanted <- paste0("new has a column w_NAME for each input NAME, which are ", listed(inputs), ", and y, the output that is asked for")
  if (!is.data.frame(new)) bad_data(wanted, "; it is a data frame")
  own <- starting(names(new), "w_")
  if (!setequal(substring(own, 3), inputs) || !"y" %in% names(new)) bad_data(wanted, "; found: ", listed(names(new)))
  names <- c(paste0("w_", inputs), "y")
  header <- c(sprintf("w_%d", seq_along(inputs)), "y")
  kinds <- c(rep("price", length(inputs)), "quantity")
  sheet("new", header, kinds, names, columns_of(new, names), row_labels(frame_labels(new)), forms)
}

# ---- menus

# Returns the sheet of choices from menus: letters from a to f, and how often.
menus_of <- function(data) {
  data <- plain_frame(data)
  wanted <- c("menu", "choice", "n")
  absent <- if (is.data.frame(data)) setdiff(wanted, names(data)) else wanted
  if (length(absent)) {
    bad_data(
      "choices from menus are a data frame with the columns menu (letters from a to f, in order), choice (one of them) and n",
      if (is.data.frame(data)) paste0("; found: ", listed(names(data)))
    )
  }
  if (anyDuplicated(names(data))) bad_data("two columns have the name ", quoted(names(data)[anyDuplicated(names(data))]))
  if ("e" %in% names(data)) bad_data("menus: a column e of levels belongs to a table of prices and purchases, and not here")
  letters <- lapply(data[c("menu", "choice")], function(column) {
    texts <- if (is.factor(column)) as.character(column) else column
    if (!is.character(texts)) bad_data("menus: menu and choice are texts of the letters a to f")
    ifelse(is.na(texts), "", texts)
  })
  found <- list(
    file = "menus", header = wanted, kinds = rep("", 3), names = wanted, columns = unname(as.list(data[wanted])),
    texts = c(unname(letters), list(number_texts(data$n))), labels = row_labels(frame_labels(data)), words = 1:2
  )
  found
}
