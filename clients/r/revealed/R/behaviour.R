# Random behaviour on the budgets of a panel, and tables of a panel.

rp_random_panel <- function(panel, times = NULL, seed = 1, workers = NULL, progress = FALSE, exe = NULL) {
  if (!inherits(panel, "rp_panel") || inside(panel)$ask == "power") bad_data("random behaviour is drawn on the budgets of a panel of tests or of pumps")
  if ("draw" %in% c(inside(panel)$id, names(inside(panel)$data))) bad_data("a column has the name draw, which random behaviour takes for its own")
  own <- which(answered(panel))
  if (!length(own)) bad_data("none of the ", inside(panel)$units, " has a verdict, so there are no budgets")
  # A thousand behaviours, or a few more, where nothing is said.
  times <- if (is.null(times)) ceiling(1000 / length(own)) else as.integer(whole_word(times, "times", "1", "1000000"))
  drawn <- drawn_data(panel, own, times, seed_of(seed))
  # What is drawn has units of its own, so nothing is said of the budgets that were offered.
  attr(drawn, "rp_drawn") <- TRUE
  rp_panel(drawn, by = c(inside(panel)$id, "draw"), units = "behaviours", ask = inside(panel)$ask, workers = workers, progress = progress, exe = exe)
}

seed_of <- function(seed) as.numeric(whole_word(seed, "seed", "0", "4294967295"))

# Returns a long frame of behaviours: all units, then all again, as often as `times`, from one stream of words. Prices and
# quantities are whole numbers in units of their own, which change neither the axiom nor an index.
drawn_data <- function(panel, own, times, seed) {
  tables <- lapply(own, table_in, panel = panel)
  budgets <- lapply(tables, budgets_of)
  drawn <- with_words(seed, lapply(seq_len(times), function(draw) lapply(budgets, behaviour)))
  rows <- vapply(tables, function(table) length(table$labels), 0L)
  unit <- rep(rep(own, rows), times)
  goods <- seq_along(tables[[1]]$goods)
  prices <- lapply(goods, function(good) rep(unlist(lapply(budgets, function(it) it$prices[, good])), times))
  quantities <- lapply(goods, function(good) unlist(lapply(drawn, function(all) lapply(all, function(it) it[, good]))))
  levels <- unlist(lapply(tables, `[[`, "levels"))
  frame_of(c(
    lapply(inside(panel)$keys, `[`, unit), list(draw = rep(seq_len(times), each = sum(rows))),
    if (!"obs" %in% inside(panel)$id) list(obs = rep(sequence(rows), times)),
    named(prices, price_names(tables[[1]])), named(quantities, paste0("q_", tables[[1]]$goods)), if (!is.null(levels)) list(e = rep(levels, times))
  ))
}

# ---- the generator, which Python's package and the page have too: the same seed gives the same behaviours

first_modulus <- 4294967087
second_modulus <- 4294944443
# A share of what is spent is a whole number of these parts of it.
whole_share <- 2^29

# Evaluates with the words of MRG32k3a (L'Ecuyer 1999) from a seed, which R has as the kind "L'Ecuyer-CMRG", and leaves the caller's
# generator as it was.
with_words <- function(seed, value) {
  old <- if (exists(".Random.seed", globalenv(), inherits = FALSE)) get(".Random.seed", globalenv(), inherits = FALSE)
  kinds <- RNGkind()
  on.exit({
    suppressWarnings(RNGkind(kinds[1], kinds[2], kinds[3]))
    if (is.null(old)) rm(".Random.seed", envir = globalenv()) else assign(".Random.seed", old, envir = globalenv())
  })
  RNGkind("L'Ecuyer-CMRG", "Inversion", "Rejection")
  # The seed is spread over the state as set.seed does it, which takes none above 2^31.
  state <- numeric()
  for (at in 1:50) seed <- next_seed(seed)
  while (length(state) < 6) {
    seed <- next_seed(seed)
    if (seed < second_modulus) state <- c(state, seed)
  }
  signed <- ifelse(state >= 2^31, state - 2^32, state)
  assign(".Random.seed", c(get(".Random.seed", globalenv())[1], as.integer(signed)), envir = globalenv())
  value
}

next_seed <- function(seed) (69069 * seed + 1) %% 2^32

# Returns the next words, each from 1 to the first modulus.
next_words <- function(count) round(stats::runif(count) * (first_modulus + 1))

# Returns the budgets of a table in whole numbers: prices, and how much of each good what was spent would buy, in units that are as
# fine as fit. Each number is below 2^53, so doubles have it exactly.
budgets_of <- function(table) {
  count <- length(table$goods)
  side <- function(at, kind) {
    places <- places_of(table, kind)
    found <- vapply(table$texts[at], function(it) round(as.numeric(it) * 10^places), numeric(length(table$labels)))
    matrix(found, ncol = count)
  }
  prices <- side(seq_len(count), "price")
  quantities <- side(count + seq_len(count), "quantity")
  spent <- rowSums(prices * quantities)
  most <- as.numeric(limit_text("table.largest"))
  for (unit in 6:-9) {
    amounts <- if (unit >= 0) spent * 10^unit else floor(spent / 10^-unit)
    buys <- if (max(amounts) < 2^53) floor_over(amounts, prices) else amounts / prices
    if (max(buys, 0) <= most) break
  }
  list(prices = prices, most = buys)
}

# Returns the whole part of whole numbers below 2^53 over others, which a quotient near a whole number may miss by one.
floor_over <- function(a, b) {
  found <- floor(a / b)
  found - (found * b > a)
}

# Returns the quantities of one behaviour, by the next words: a division of what is spent, each as likely as any other.
behaviour <- function(budgets) {
  most <- budgets$most
  goods <- ncol(most)
  words <- matrix(next_words((goods - 1) * nrow(most)), nrow(most), byrow = TRUE)
  for (row in seq_len(nrow(most))) {
    cuts <- c(0, sort(floor((words[row, ] - 1) / 8)), whole_share)
    most[row, ] <- floor(most[row, ] * diff(cuts) / whole_share)
  }
  # Where parts of a unit are not bought, nothing may be left of a bundle: then one unit of the first good is taken.
  most[rowSums(most) == 0, 1] <- 1
  most
}

# ---- tables

rp_panel_table <- function(panel, random = NULL, what = c("summary", "units"), format = c("text", "latex"),
                           digits = 3, names = NULL, tests = c("garp", "homothetic", "quasilinear"), thresholds = NULL, units = NULL,
                           fit = FALSE) {
  if (!inherits(panel, "rp_panel")) bad_data("a table is made of what rp_panel gives")
  if (is.null(names)) names <- c(capital(if (is.null(units)) inside(panel)$units else unit_words(units, "")), "Random")
  if (is.null(thresholds)) thresholds <- unlist(catalogue()$thresholds)
  thresholds <- number_texts(thresholds, list(shortest = TRUE))
  if (!all(grepl("^(0([.][0-9]+)?|1([.]0+)?)$", thresholds))) bad_data("thresholds are numbers from 0 to 1, as c(0.90, 0.95)")
  if (!is.null(random) && (!inherits(random, "rp_panel") || inside(random)$ask != inside(panel)$ask)) {
    bad_data("random is a panel of the same kind, as rp_random_panel makes it")
  }
  digits <- as.integer(whole_word(digits, "digits", "1", "9"))
  # The older name of a row for each unit.
  what <- if (identical(what, "households")) "units" else chosen(what, c("summary", "units"), "what")
  if (!is.character(tests) || !length(tests) || !all(tests %in% c("garp", "homothetic", "quasilinear"))) {
    bad_data("tests are some of 'garp', 'homothetic', 'quasilinear'")
  }
  asked <- tests
  tests <- intersect(tests, tests_of(inside(panel)$own_money))
  if (!is_switch(fit)) bad_data("fit is TRUE or FALSE")
  if (fit && inside(panel)$ask != "test") bad_data("fit = TRUE is for panels of tests: rp_panel without ask")
  notes <- c(
    if (!setequal(asked, tests)) paste("quasilinear and money pump are absent:", own_money), if (fit && isTRUE(inside(panel)$own_money)) paste("MCI is absent:", own_money),
    offered_line(inside(panel)$offered), inside(panel)$numbers
  )
  cells <- if (what == "units") unit_cells(panel, digits, tests, fit) else {
    sides <- lapply(c(list(panel), if (!is.null(random)) list(random)), summary_cells, digits = digits, tests = tests, thresholds = thresholds, fit = fit)
    sides <- of_all_rows(sides)
    named(c(list(names(sides[[1]])), lapply(sides, unname)), c("", names[seq_along(sides)]))
  }
  lines <- if (chosen(format, c("text", "latex"), "format") == "text") c(text_lines(cells), notes) else latex_lines(cells, notes)
  structure(lines, class = "rp_lines")
}

print.rp_lines <- function(x, ...) {
  cat(x, sep = "\n")
  invisible(x)
}

as.character.rp_lines <- function(x, ...) as.vector(unclass(x))

# Returns how many of some verdicts hold; one that is withheld may hold or not, so it stands between the two.
share_told <- function(is) {
  whole <- length(is)
  if (!whole) return("none")
  holds <- sum(is %in% TRUE)
  withheld <- sum(is.na(is))
  if (!withheld) return(sprintf("%d of %d (%.1f%%)", holds, whole, 100 * holds / whole))
  most <- holds + withheld
  sprintf("between %d and %d of %d (%.1f%% to %.1f%%), %d withheld", holds, most, whole, 100 * holds / whole, 100 * most / whole, withheld)
}

# Returns the columns of a table with the rows of each of them: where another column alone has a row, it is empty.
of_all_rows <- function(sides) {
  if (length(sides) < 2) return(sides)
  rows <- names(sides[[1]])
  more <- setdiff(names(sides[[2]]), rows)
  # A row that only the second has stands where it has it.
  for (name in more) rows <- append(rows, name, match(names(sides[[2]])[match(name, names(sides[[2]])) - 1], rows))
  lapply(sides, function(it) named(ifelse(rows %in% names(it), it[rows], ""), rows))
}

# Returns what a paper tells of a panel, by what it is called.
summary_cells <- function(panel, digits, tests, thresholds, fit = FALSE) {
  frame <- panel_frame(inside(panel))
  own <- frame[answered(panel), ]
  count <- nrow(own)
  counts <- if (count) range(own$observations)
  common <- c("N" = count, "With an error" = nrow(frame) - count, "Observations of each" = paste(unique(counts), collapse = " to "))
  index <- function(x, word) {
    number <- as.double(x)
    found <- if (count) {
      some <- stats::quantile(number, c(0.25, 0.5, 0.75), names = FALSE)
      ends <- c(sort(x)[1], sort(x, decreasing = TRUE)[1])
      deviation <- if (count > 1) sprintf("%.*f", digits, stats::sd(number)) else "none"
      c(shown_index(mean(number), digits), deviation, shown_index(ends[1], digits), shown_index(some, digits), shown_index(ends[2], digits))
    } else {
      rep("", 7)
    }
    named(found, paste0(word, ", ", c("mean", "standard deviation", "minimum", "first quartile", "median", "third quartile", "maximum")))
  }
  switch(inside(panel)$ask,
    test = c(
      common, "GARP holds" = share_told(own$garp), index(own$efficiency_exact, "CCEI"),
      named(vapply(thresholds, function(it) share_told(own$efficiency_exact >= exact(it)), ""), paste("CCEI of at least", sub("^(0[.][0-9])$", "\\10", thresholds))),
      if (fit) fit_cells(panel, digits),
      if ("homothetic" %in% tests) c("Homothetic holds" = share_told(own$homothetic)),
      if ("quasilinear" %in% tests) c("Quasilinear holds" = share_told(own$quasilinear))
    ),
    pump = c(common, "GARP holds" = share_told(own$garp), index(own$pump_exact, "Maximum money pump")),
    power = c(common, index(own$power_exact, "Power"))
  )
}

unit_cells <- function(panel, digits, tests, fit = FALSE) {
  frame <- panel_frame(inside(panel))
  is_answer <- answered(panel)
  word <- function(x) ifelse(is_answer, verdict_word(x), "")
  index <- function(x) {
    found <- rep("", length(x))
    found[is_answer] <- shown_index(x[is_answer], digits)
    found
  }
  told <- function(x) ifelse(is.na(x), "", as.character(x))
  own <- switch(inside(panel)$ask,
    test = c(
      list(GARP = word(frame$garp), CCEI = index(frame$efficiency_exact), exactly = told(bare(frame$efficiency_exact))),
      if (fit) fit_unit_cells(panel, digits),
      lapply(frame[intersect(c("homothetic", "quasilinear"), tests)], word)
    ),
    pump = list(GARP = word(frame$garp), `money pump` = index(frame$pump_exact), exactly = told(bare(frame$pump_exact))),
    power = list(
      violations = sub("/.*", "", inside(panel)$texts[, "power"]), draws = sub(".*/", "", inside(panel)$texts[, "power"]), power = index(frame$power_exact)
    )
  )
  keys <- lapply(inside(panel)$keys, function(it) as.character(it))
  refused <- if (!all(is_answer)) list(refused = inside(panel)$texts[, "fault"])
  c(keys, own, refused)
}

text_lines <- function(cells) {
  sides <- c("left", rep("right", length(cells) - 1))
  columns <- Map(function(name, column, side) format(c(name, as.character(column)), justify = side), names(cells), cells, sides)
  lines <- sub(" +$", "", do.call(paste, c(unname(columns), sep = "  ")))
  c(lines[1], strrep("-", max(nchar(lines))), lines[-1])
}

# Returns a word as it stands above a column.
capital <- function(word) paste0(toupper(substring(word, 1, 1)), substring(word, 2))

latex_lines <- function(cells, notes = NULL) {
  row <- function(at) paste0(paste(vapply(cells, function(it) latex_text(it[at]), ""), collapse = " & "), " \\\\")
  c(
    paste0("\\begin{tabular}{l", strrep("r", length(cells) - 1), "}"), "\\hline",
    paste0(paste(latex_text(names(cells)), collapse = " & "), " \\\\"), "\\hline",
    vapply(seq_along(cells[[1]]), row, ""), "\\hline",
    sprintf("\\multicolumn{%d}{l}{\\footnotesize %s} \\\\", length(cells), latex_text(notes)), "\\end{tabular}"
  )
}

# Returns texts with what LaTeX reads as more than a letter written out.
latex_text <- function(x) {
  x <- as.character(x)
  parts <- strsplit(x, "", fixed = TRUE)
  special <- c(
    "\\" = "\\textbackslash{}", "{" = "\\{", "}" = "\\}", "$" = "\\$", "&" = "\\&", "#" = "\\#", "_" = "\\_", "%" = "\\%",
    "~" = "\\textasciitilde{}", "^" = "\\textasciicircum{}", "<" = "\\textless{}", ">" = "\\textgreater{}"
  )
  vapply(parts, function(it) {
    at <- match(it, names(special))
    paste(ifelse(is.na(at), it, special[at]), collapse = "")
  }, "")
}
