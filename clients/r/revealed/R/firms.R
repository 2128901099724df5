# What firms do: cost minimisation, profit maximisation, and bounds on what an output costs.

rp_cost <- function(technology, new, decimals = digits, numbers = "shortest", exe = NULL, wide = TRUE, digits = NULL) {
  forms <- forms_of(decimals, numbers)
  own <- technology_of(technology, forms)
  asked <- outputs_of(own, if (missing(new)) NULL else new, forms)
  files <- list(technology.csv = csv_lines(own), new.csv = csv_lines(asked))
  given <- ask_wide(c("cost", "technology.csv", "new.csv"), files, engine_of(exe), list(own, asked), wide)
  reading(given$text, cost_from(own, asked, report_of(given$text), if (!is.null(given$stated)) report_of(given$stated), given$hint))
}

rp_cost_minimisation <- rp_cost

cost_from <- function(own, asked, report, stated = NULL, hint = NULL) {
  lines <- report$lines
  verdict <- function(word) {
    at <- which(startsWith(lines, paste0(word, " ")))
    if (!length(at)) return(list(holds = NULL, pair = NULL))
    holds <- holds_in(report, word)
    list(holds = holds, pair = if (!holds) walk_of(own, numbers_of(lines[at + 1], "^pair ([0-9]+) ([0-9]+)$")))
  }
  cost <- verdict("cost")
  profit <- verdict("profit")
  stopifnot(!is.null(cost$holds), is.null(profit$holds) != own$has_price)
  bounds <- lines[startsWith(lines, "bounds ")]
  stopifnot(length(bounds) == length(asked$labels))
  of_rp <- if (is.null(stated)) bounds else stated$lines[startsWith(stated$lines, "bounds ")]
  frames <- Map(cost_frame, bounds, of_rp, asked$labels, MoreArgs = list(own = own, asked = asked, hint = hint))
  found <- list(
    cost = cost$holds, cost_pair = cost$pair, profit = profit$holds, profit_pair = profit$pair, bounds = stacked(unname(frames)),
    report = lines, technology = own, new = asked
  )
  structure(found, class = "rp_cost")
}

# Returns the row of a line such as `bounds prices 1 1 output 3 lower 10/3 upper 4 at 2`.
cost_frame <- function(line, stated, label, own, asked, hint) {
  money <- places_of(asked, "price") + places_of(own, "quantity")
  number <- "([0-9]+(?:/[0-9]+)?)"
  bounds <- paste0("(none|lower (withheld )?", number, " upper (none|", number, " at ([0-9]+)))")
  said <- numbers_of(line, paste0("^bounds prices [0-9 ]+ output ([0-9]+) ", bounds, "$"))
  output <- exact(over_ten(said[1], places_of(own, "quantity")))
  nothing <- exact(NA)
  if (said[2] == "none") {
    return(list(new = label, output = output, lower = nothing, upper = nothing, at = own$labels[NA_integer_], wide = FALSE, reason = "cost is not minimised"))
  }
  withheld <- nzchar(said[3])
  is_made <- said[5] != "none"
  list(
    new = label, output = output, lower = if (withheld) nothing else exact(over_ten(said[4], money)),
    upper = if (is_made) exact(over_ten(said[6], money)) else nothing,
    at = if (is_made) walk_of(own, said[7]) else own$labels[NA_integer_],
    wide = !withheld && grepl(" lower withheld ", stated, fixed = TRUE),
    reason = if (withheld) hinted(withheld_at(said[4]), hint) else if (is_made) NA_character_ else "no observation made so much, so there is no upper bound"
  )
}

as.data.frame.rp_cost <- function(x, row.names = NULL, optional = FALSE, ...) {
  own <- x$bounds
  frame_of(c(
    own["new"], beside("output", own$output), beside("lower", own$lower, double_below), beside("upper", own$upper, double_above), own[c("at", "wide", "reason")]
  ))
}

print.rp_cost <- function(x, ...) {
  said <- function(word, pair) paste0(word, " ", verdict_word(x[[word]]), if (!is.null(pair)) paste(": pair", paste(pair, collapse = " ")))
  cat(
    paste("technology records", length(x$technology$labels), "inputs", length(x$technology$inputs)), said("cost", x$cost_pair),
    if (!is.null(x$profit)) said("profit", x$profit_pair), wide_line(x$bounds$wide), sep = "\n"
  )
  print(x$bounds[c("new", "output", "lower", "upper", "at")], row.names = FALSE)
  invisible(x)
}

summary.rp_cost <- function(object, ...) summary_of(object$bounds, paste0("cost ", verdict_word(object$cost), ", ", counted(object$bounds)))
