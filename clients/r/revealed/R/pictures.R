# Pictures in base graphics: a table of two goods, and the distribution of an index over a panel.

ink <- c(own = "#0072B2", other = "#999999", violation = "#D55E00", faint = "#C8C8C8")

# Draws the budget lines of a table of two goods, what was chosen, and a cycle that violates the axiom.
plot.rp_test <- function(x, labels = NULL, main = NULL, xlab = NULL, ylab = NULL, legend = TRUE, ...) {
  table <- x$table
  if (length(table$goods) != 2) bad_data("a picture of budget lines has two goods, and this table has ", length(table$goods))
  p <- lapply(1:2, function(at) as.numeric(table$texts[[at]]))
  q <- lapply(3:4, function(at) as.numeric(table$texts[[at]]))
  spent <- p[[1]] * q[[1]] + p[[2]] * q[[2]]
  # The lines that were offered, where intercepts tell them: they are the prices exchanged.
  ends <- if (is.null(table$offered)) list(spent / p[[1]], spent / p[[2]]) else list(p[[2]], p[[1]])
  graphics::plot.new()
  graphics::plot.window(c(0, max(ends[[1]])) * 1.04, c(0, max(ends[[2]])) * 1.04, xaxs = "i", yaxs = "i", ...)
  graphics::axis(1)
  graphics::axis(2, las = 1)
  graphics::box(bty = "l")
  walk <- match(x$cycle, table$labels)
  plain_rows <- setdiff(seq_along(spent), walk)
  draw_lines(plain_rows, ends, col = ink[["faint"]])
  graphics::points(q[[1]][plain_rows], q[[2]][plain_rows], pch = 16, cex = 0.8, col = ink[["own"]], xpd = NA)
  draw_cycle(walk, q, ends)
  draw_labels(if (is.null(labels)) length(spent) <= 12 else labels, walk, q, table$labels)
  if (is.null(main)) main <- paste0(if (x$garp) "GARP holds" else "GARP violated", ", CCEI ", shown_index(x$efficiency))
  graphics::title(main = main, xlab = if (is.null(xlab)) table$goods[1] else xlab, ylab = if (is.null(ylab)) table$goods[2] else ylab)
  if (legend) draw_key(c(length(plain_rows) > 0, length(plain_rows) > 0, length(walk) > 0, length(walk) > 0))
  invisible(x)
}

# Draws some budget lines from axis to axis.
draw_lines <- function(rows, ends, ...) {
  none <- numeric(length(rows))
  if (length(rows)) graphics::segments(ends[[1]][rows], none, none, ends[[2]][rows], xpd = NA, ...)
}

# Draws a cycle: its budget lines, its choices, and an arrow from each to the one that it is revealed preferred to.
draw_cycle <- function(walk, q, ends) {
  if (!length(walk)) return(invisible())
  own <- unique(walk)
  draw_lines(own, ends, col = ink[["violation"]], lwd = 2)
  from <- walk[-length(walk)]
  to <- walk[-1]
  for (at in which(from != to)) draw_arrow(c(q[[1]][from[at]], q[[2]][from[at]]), c(q[[1]][to[at]], q[[2]][to[at]]))
  graphics::points(q[[1]][own], q[[2]][own], pch = 21, bg = ink[["violation"]], cex = 1.2, xpd = NA)
}

# Draws an arrow beside the line from one point to another, so that two that go to and fro stand apart, and ends it a little
# before the point.
draw_arrow <- function(from, to) {
  per_inch <- diff(graphics::par("usr"))[c(1, 3)] / graphics::par("pin")
  along <- (to - from) / per_inch
  size <- sqrt(sum(along^2))
  # Two choices at one place have no arrow between them.
  if (size < 0.02) return(invisible())
  along <- along / size
  aside <- c(-along[2], along[1]) * 0.05
  gap <- min(0.1, size / 4)
  start <- from + (aside + along * gap) * per_inch
  end <- from + (aside + along * (size - gap)) * per_inch
  graphics::segments(start[1], start[2], end[1], end[2], lwd = 1.3, xpd = NA)
  # The head alone, so that its sides are whole.
  near <- end - along * 0.02 * per_inch
  graphics::arrows(near[1], near[2], end[1], end[2], length = 0.08, lwd = 1.3, xpd = NA)
}

draw_labels <- function(labels, walk, q, names) {
  if (isFALSE(labels) && !length(walk)) return(invisible())
  at <- if (isFALSE(labels)) unique(walk) else seq_along(names)
  per_inch <- diff(graphics::par("usr"))[c(1, 3)] / graphics::par("pin")
  put <- function(aside, colour) {
    x <- q[[1]][at] + aside[1] * per_inch[1]
    y <- q[[2]][at] + aside[2] * per_inch[2]
    graphics::text(x, y, names[at], pos = 3, offset = 0.5, cex = 0.8, col = colour, xpd = NA)
  }
  # A white rim keeps a label apart from the lines behind it.
  for (angle in seq(0, 7) * pi / 4) put(0.015 * c(cos(angle), sin(angle)), "white")
  put(c(0, 0), "black")
}

draw_key <- function(own) {
  words <- c("budget line", "choice", "cycle: budget and choice", "revealed preferred to")
  graphics::legend(
    "topright", words[own], bty = "n", cex = 0.85, col = c("#A8A8A8", ink[["own"]], ink[["violation"]], "black")[own],
    lty = c(1, NA, 1, 1)[own], lwd = c(1, NA, 2, 1.3)[own], pch = c(NA, 16, 16, 62)[own]
  )
}

# Returns an index with so many decimal places: the nearest, of two the even one; but only 1 reads 1, and only 0 reads 0.
shown_index <- function(x, digits = 3) {
  number <- as.double(x)
  text <- if (inherits(x, "rp_exact")) vapply(bare(x), nearest_text, "", digits = digits, USE.NAMES = FALSE) else sprintf("%.*f", digits, number)
  ten <- 10^digits
  is_one <- if (inherits(x, "rp_exact")) bare(x) == "1" else number >= 1
  is_zero <- if (inherits(x, "rp_exact")) bare(x) == "0" else number <= 0
  text <- ifelse(!is_one & as.numeric(text) >= 1, sprintf("%.*f", digits, (ten - 1) / ten), text)
  ifelse(!is_zero & as.numeric(text) <= 0, sprintf("<%.*f", digits, 1 / ten), text)
}

# Returns a fraction with so many decimal places, the nearest, of two the even one.
nearest_text <- function(text, digits) {
  if (is.na(text)) return("NA")
  parts <- strsplit(text, "/", fixed = TRUE)[[1]]
  decimal <- if (length(parts) == 1) parts else decimal_of(parts[1], parts[2], digits + 20L)
  found <- strsplit(paste0(plain_decimal(decimal, digits), "."), ".", fixed = TRUE)[[1]]
  part <- if (length(found) > 1) found[2] else ""
  paste0(found[1], ".", part, strrep("0", digits - nchar(part)))
}

# Draws the distribution of the index over the units of a panel, and beside it that of another, such as random behaviour on the same
# budgets (after Choi, Fisman, Gale and Kariv 2007), with the share of each of at least 0.90 and 0.95. An index of exactly 1 has a bar of its own.
plot.rp_panel <- function(x, random = NULL, type = c("histogram", "cumulative"), breaks = seq(0, 1, 0.05), main = NULL, xlab = NULL, ylab = NULL,
                          names = NULL, fit = FALSE, ...) {
  type <- chosen(type, c("histogram", "cumulative"), "type")
  if (is.null(names)) names <- c(inside(x)$units, "random behaviour")
  if (!is_switch(fit)) bad_data("fit is TRUE or FALSE")
  if (fit) return(draw_fits(x, random, type, breaks, main, ylab, names, ...))
  own <- list(index_of(x))
  if (!is.null(random)) {
    if (!inherits(random, "rp_panel") || inside(random)$ask != inside(x)$ask) bad_data("random is a panel of the same kind, as rp_random_panel makes it")
    own[[2]] <- index_of(random)
  }
  if (!all(lengths(own))) bad_data("none of the ", inside(x)$units, " has a verdict, so there is no picture")
  is_test <- inside(x)$ask == "test"
  if (is.null(xlab)) xlab <- c(test = "critical cost efficiency index (CCEI)", pump = "money pump ratio", power = "power")[[inside(x)$ask]]
  if (is.null(ylab)) ylab <- if (type == "histogram") "share of each" else "share at or below"
  if (type == "histogram") draw_histogram(own, breaks, xlab, ylab, main, has_spike = is_test, ...) else draw_cumulative(own, xlab, ylab, main, ...)
  words <- paste0(names[seq_along(own)], " (", lengths(own), ")")
  if (is_test) words <- paste0(words, ": ", vapply(c(list(x), if (!is.null(random)) list(random)), shares_above, ""))
  graphics::legend(if (is_test) "topleft" else "topright", words, fill = ink[c("own", "other")][seq_along(own)], border = NA, bty = "n", cex = 0.9)
  invisible(x)
}

# Draws the distributions of the CCEI, HM, AVI and MCI over the units of a panel, each in a picture of its own. A unit whose bounds do not
# meet is at the bound that is further from rational choice, and what stands below the picture says of how many units this is so.
draw_fits <- function(x, random, type, breaks, main, ylab, names, ...) {
  panels <- c(list(x), if (!is.null(random)) list(random))
  for (it in panels) if (!inherits(it, "rp_panel") || inside(it)$ask != "test") bad_data("fit = TRUE is for panels of tests: rp_panel without ask")
  if (!all(vapply(panels, function(it) any(answered(it)), TRUE))) bad_data("none of the ", inside(x)$units, " has a verdict, so there is no picture")
  fits <- lapply(panels, panel_fits)
  old <- graphics::par(mfrow = c(2, 2))
  on.exit(graphics::par(old))
  if (is.null(ylab)) ylab <- if (type == "histogram") "share of each" else "share at or below"
  draw <- function(own, breaks, xlab, best) {
    if (type == "histogram") draw_histogram(own, breaks, xlab, ylab, main, has_spike = TRUE, spike = best, ...) else draw_cumulative(own, xlab, ylab, main, ...)
  }
  draw(lapply(panels, index_of), breaks, "CCEI", 1)
  words <- paste0(names[seq_along(panels)], " (", lengths(fits), ")")
  graphics::legend("topleft", words, fill = ink[c("own", "other")][seq_along(panels)], border = NA, bty = "n", cex = 0.9)
  for (name in base::names(paper_indices)) {
    bounds <- lapply(fits, paper_bounds, name = name)
    if (!all(vapply(bounds, function(it) it$there, TRUE))) next
    is_share <- name == "HM"
    own <- lapply(bounds, function(it) nearest_double(if (is_share) it$low else it$high))
    open <- sum(vapply(bounds, function(it) it$open, 0L))
    said <- paste0(c(HM = "HM (share kept)", AVI = "AVI (mean of 1 - e)", MCI = "MCI")[[name]], if (open) paste0(", ", if (is_share) "lower" else "upper", " bounds of ", open))
    draw(own, if (is_share) breaks else pretty(c(0, max(unlist(own), 0.01)), 10), said, if (is_share) 1 else 0)
  }
  invisible(x)
}

# Returns which share of the units that have a verdict has an index of at least 0.90, and at least 0.95, by the exact index.
shares_above <- function(panel) {
  index <- exact(unname(inside(panel)$texts[answered(panel), "efficiency"]))
  share <- function(level) 100 * mean(as.numeric(index >= exact(level)))
  sprintf("%.1f%% at least 0.90, %.1f%% at least 0.95", share("9/10"), share("19/20"))
}

# Returns the index of each unit that has one, as doubles that only a whole 1 lets read 1.
index_of <- function(x) {
  own <- answered(x)
  if (!any(own)) return(numeric())
  as.double(exact(unname(inside(x)$texts[own, c(test = "efficiency", pump = "pump", power = "power")[[inside(x)$ask]]])))
}

# Draws bars of shares. With `has_spike` a value of exactly 1 is in no bin, and has a bar of its own behind them. A spike at 0 is that at the
# end of the scale of the numbers with a sign before them, whose direction is turned.
draw_histogram <- function(own, breaks, xlab, ylab, main, has_spike = FALSE, spike = 1, ...) {
  sign <- if (spike == 0) -1 else 1
  own <- lapply(own, function(it) sign * it)
  breaks <- sort(unique(sign * as.numeric(breaks)))
  if (length(breaks) < 2 || min(unlist(own)) < breaks[1] || max(unlist(own)) > breaks[length(breaks)]) bad_data("the breaks do not hold every index")
  shares <- lapply(own, shares_in, breaks = breaks, has_spike = has_spike, spike = spike)
  used <- range(which(Reduce(`+`, shares) > 0))
  last <- length(breaks) - 1
  bins <- seq(max(1, min(used[1], last) - 1), if (has_spike) last else min(last, used[2] + 1))
  left <- breaks[bins]
  width <- breaks[bins + 1] - left
  if (has_spike) {
    # Half a bin apart from the others.
    left <- c(left, breaks[last + 1] + width[length(width)] / 2)
    width <- c(width, width[length(width)])
    bins <- c(bins, last + 1)
  }
  graphics::plot.new()
  across <- c(left[1], max(left + width))
  graphics::plot.window(if (spike == 0) rev(across) else across, c(0, max(unlist(shares)) * 1.15), yaxs = "i", ...)
  for (side in seq_along(own)) {
    from <- left + width * (0.08 + 0.84 * (side - 1) / length(own))
    graphics::rect(from, 0, from + 0.84 * width / length(own), shares[[side]][bins], col = ink[c("own", "other")][side], border = NA)
  }
  if (has_spike) {
    # The bins end at 1, and the bar behind them is of an index of 1, so its tick is no part of the scale.
    ticks <- pretty(breaks[c(bins[1], last + 1)])
    ticks <- ticks[ticks >= left[1] & ticks < breaks[last + 1] + width[1] / 4]
    graphics::axis(1, ticks, ifelse(abs(ticks - spike) < 1e-9, as.character(spike), format(abs(ticks))))
    middle <- left[length(left)] + width[length(width)] / 2
    graphics::axis(1, middle, FALSE)
    graphics::mtext(paste("exactly", spike), 1, 1.9, at = middle, cex = graphics::par("cex") * graphics::par("cex.axis"))
  } else {
    graphics::axis(1)
  }
  graphics::axis(2, las = 1)
  graphics::title(main = main, xlab = xlab, ylab = ylab)
}

# Returns the share of values in each bin, which has its right end and not its left one, and behind them that of exactly 1, or 0.
shares_in <- function(values, breaks, has_spike, spike = 1) {
  is_one <- has_spike & values == spike
  bins <- findInterval(values[!is_one], breaks, left.open = TRUE, rightmost.closed = TRUE)
  c(tabulate(bins, length(breaks) - 1), if (has_spike) sum(is_one)) / length(values)
}

draw_cumulative <- function(own, xlab, ylab, main, ...) {
  graphics::plot.new()
  graphics::plot.window(c(min(unlist(own)), max(1, unlist(own))), c(0, 1), ...)
  for (side in rev(seq_along(own))) {
    it <- stats::ecdf(own[[side]])
    at <- sort(unique(c(graphics::par("usr")[1], own[[side]], graphics::par("usr")[2])))
    graphics::lines(at, it(at), type = "s", lwd = 2, col = ink[c("own", "other")][side])
  }
  graphics::axis(1)
  graphics::axis(2, las = 1)
  graphics::box(bty = "l")
  graphics::title(main = main, xlab = xlab, ylab = ylab)
}
