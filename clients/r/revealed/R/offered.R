# What choices spent of the budgets that were offered, where budget lines are given by their intercepts.
#
# The verdicts are about the chosen bundles and what these cost: of the offered line the slope alone is used. So this is no part of a
# verdict. It is a report about the user's own columns: which share of the offered budget each choice spent, x/i_x + y/i_y, and whether
# rounding to the decimal places that the columns have explains that the share is not 1.

# Returns what is said of choices on lines: `lines` and `bundles` are two columns of texts each, as they are taken. NULL where a text is
# no number or an intercept is 0, which the program refuses; stops where a choice costs more than was offered, by more than rounding.
offered_of <- function(lines, bundles, labels, names) {
  texts <- c(lines, bundles)
  if (!length(texts[[1]]) || !all(vapply(texts, function(it) all(grepl(plain, it, useBytes = TRUE)), TRUE))) return(NULL)
  half <- function(side) 0.5 * 10^-places_given(unlist(side))
  of_line <- half(lines)
  of_bundle <- half(bundles)
  intercepts <- lapply(lines, as.numeric)
  chosen <- lapply(bundles, as.numeric)
  if (any(unlist(intercepts) == 0)) return(NULL)
  share <- chosen[[1]] / intercepts[[1]] + chosen[[2]] / intercepts[[2]]
  # The most and the least that the share may have been before rounding.
  least <- pmax(chosen[[1]] - of_bundle, 0) / (intercepts[[1]] + of_line) + pmax(chosen[[2]] - of_bundle, 0) / (intercepts[[2]] + of_line)
  most <- (chosen[[1]] + of_bundle) / (intercepts[[1]] - of_line) + (chosen[[2]] + of_bundle) / (intercepts[[2]] - of_line)
  narrow <- pmin(intercepts[[1]], intercepts[[2]]) <= of_line
  over <- which(least > 1)
  if (length(over)) stop(overspent(over, share, texts, labels, names))
  at <- which.min(share)
  list(rows = length(share), below = labels[!narrow & most < 1], least = share[at], at = labels[at])
}

# Returns the most decimal places of the texts that are numbers which the program takes; zeros at the end count.
places_given <- function(texts) {
  own <- texts[grepl(plain, texts, useBytes = TRUE)]
  min(max(nchar(ifelse(grepl(".", own, fixed = TRUE), sub("^[^.]*[.]", "", own), "")), 0), most_places())
}

overspent <- function(over, share, texts, labels, names) {
  first <- over[1]
  amounts <- paste(names, vapply(texts, `[`, "", first), collapse = ", ")
  problem("rp_overspent", paste0(
    "row ", quoted(labels[first]), " (", amounts, "): the choice costs ", share_text(share[first], ceiling), " of the offered budget, more than rounding explains",
    if (length(over) == 2) ", and 1 other choice does too" else if (length(over) > 2) paste0(", and ", format(length(over) - 1, big.mark = ","), " other choices do too"),
    ". Correct the row. If no line was offered, give prices in columns p_NAME."
  ), label = labels[first], share = share[first], count = length(over))
}

# Returns a share to four places, rounded down, or up.
share_text <- function(share, to = floor) sprintf("%.4f", to(round(share * 1e4, 6)) / 1e4)

# Returns the line that says what choices spent of the offered budgets; NULL where no lines were given.
offered_line <- function(offered) {
  if (is.null(offered)) return(NULL)
  count <- function(number) format(number, big.mark = ",")
  paste0(
    "offered budgets: ",
    if (length(offered$below)) {
      paste(count(length(offered$below)), "of", count(offered$rows), "choices spent less than was offered by more than rounding")
    } else {
      paste("all", count(offered$rows), "choices lie on their lines, within rounding")
    },
    "; minimum share ", share_text(offered$least), ", row ", offered$at
  )
}
