# Numbers that come back, exactly, in the class rp_exact, and as doubles.

# Exact numbers are texts, such as 4/5 and -17, of a class that keeps them from being taken for anything else.
exact <- function(texts, names = NULL) {
  texts <- as.character(texts)
  names(texts) <- names
  structure(texts, class = "rp_exact")
}

bare <- function(x) named(as.vector(unclass(x)), NULL)

as.character.rp_exact <- function(x, ...) bare(x)

as.double.rp_exact <- function(x, ...) {
  vapply(strsplit(bare(x), "/", fixed = TRUE), function(it) {
    it <- as.numeric(it)
    if (length(it) > 1) it[1] / it[2] else it
  }, 0)
}

format.rp_exact <- function(x, ...) named(format(ifelse(is.na(x), "NA", bare(x)), justify = "right"), names(x))

print.rp_exact <- function(x, ...) {
  print(noquote(named(bare(x), names(x))), ...)
  invisible(x)
}

`[.rp_exact` <- function(x, ...) structure(unclass(x)[...], class = "rp_exact")

`[[.rp_exact` <- function(x, ...) structure(unclass(x)[[...]], class = "rp_exact")

c.rp_exact <- function(...) structure(unlist(lapply(list(...), unclass)), class = "rp_exact")

rep.rp_exact <- function(x, ...) structure(rep(unclass(x), ...), class = "rp_exact")

unique.rp_exact <- function(x, ...) exact(unique(bare(x)))

as.data.frame.rp_exact <- function(x, ...) {
  names <- names(x)
  found <- as.data.frame.vector(structure(bare(x), class = "rp_exact"), nm = "value", ...)
  if (!is.null(names) && !anyDuplicated(names)) rownames(found) <- names
  found
}

# ---- by doubles, which these say themselves

summary.rp_exact <- function(object, ...) summary(as.double(object), ...)
mean.rp_exact <- function(x, ...) mean(as.double(x), ...)
median.rp_exact <- function(x, na.rm = FALSE, ...) stats::median(as.double(x), na.rm = na.rm, ...)
quantile.rp_exact <- function(x, ...) stats::quantile(as.double(x), ...)

# Returns the greatest double that is no greater than each number, the least that is no less, or the nearest of all; but of these
# only that of 1 is 1, and only that of 0 is 0.
double_below <- function(x) doubles_of(bare(x), up = FALSE)
double_above <- function(x) doubles_of(bare(x), up = TRUE)

nearest_double <- function(x) {
  signed <- bare(x)
  texts <- sub("^-", "", signed)
  below <- doubles_of(texts, up = FALSE)
  above <- doubles_of(texts, up = TRUE)
  found <- as.double(exact(texts))
  # Of numbers too long for whole doubles the middle between the two tells which is nearer.
  long <- which(grepl("[0-9]{16}", texts) & below != above)
  found[long] <- as.numeric(mapply(nearer, texts[long], below[long], above[long]))
  found <- ifelse(found == 1 & texts != "1", below, ifelse(found == 0 & texts != "0", above, found))
  ifelse(startsWith(signed, "-"), -found, found)
}

# Returns the one of the two doubles beside a number of 0 or more that is nearer to it.
nearer <- function(text, below, above) {
  step <- above - below
  of_two <- -log2(step) + 1
  middle <- digits_of(plus(limbs(sprintf("%.0f", below / step * 2)), 1))
  parts <- fraction_parts(text)
  left <- product(limbs(parts$num), limbs(sprintf("%.0f", 2^max(of_two, 0))))
  right <- product(product(limbs(middle), limbs(parts$den)), limbs(sprintf("%.0f", 2^max(-of_two, 0))))
  if (is_negative(plus(left, right, -1))) below else above
}

doubles_of <- function(texts, up) {
  found <- rep(NA_real_, length(texts))
  own <- which(!is.na(texts))
  signs <- startsWith(texts[own], "-")
  num <- sub("^-", "", sub("/.*$", "", texts[own]))
  den <- ifelse(grepl("/", texts[own], fixed = TRUE), sub("^[^/]*/", "", texts[own]), "1")
  is_up <- rep(up, length(own)) != signs
  short <- nchar(num) <= 15 & nchar(den) <= 15
  value <- numeric(length(own))
  value[short] <- short_double(as.numeric(num[short]), as.numeric(den[short]), is_up[short])
  value[!short] <- as.numeric(mapply(long_double, num[!short], den[!short], is_up[!short]))
  found[own] <- ifelse(signs, -value, value)
  found
}

# Returns num over den, whole numbers below 10^15, rounded up or down: what the quotient times den is beside num is known
# exactly, as a double and its error (Dekker 1971).
short_double <- function(num, den, up) {
  halves <- function(x) {
    large <- 134217729 * x
    high <- large - (large - x)
    list(high = high, low = x - high)
  }
  quotient <- num / den
  back <- quotient * den
  a <- halves(quotient)
  b <- halves(den)
  error <- ((a$high * b$high - back) + a$high * b$low + a$low * b$high) + a$low * b$low
  over <- (back - num) + error
  # Times 1 - 2^-53 is the double before a double, and over it the one after.
  step <- 1 - 2^-53
  ifelse(over > 0 & !up, quotient * step, ifelse(over < 0 & up, quotient / step, quotient))
}

# The same of whole numbers of any length, above 0.
long_double <- function(num, den, up) {
  if (!grepl("[1-9]", num)) return(0)
  power <- function(of) limbs(sprintf("%.0f", 2^of))
  of_two <- floor(log2(as.numeric(num)) - log2(as.numeric(den))) - 52
  repeat {
    parts <- if (of_two < 0) divided(product(limbs(num), power(-of_two)), limbs(den)) else divided(limbs(num), product(limbs(den), power(of_two)))
    whole <- sum(parts$quotient * limb^(seq_along(parts$quotient) - 1))
    if (whole >= 2^53) of_two <- of_two + 1 else if (whole < 2^52) of_two <- of_two - 1 else break
  }
  (whole + (up && any(parts$rest != 0))) * 2^of_two
}

# ---- the order of exact numbers

# Returns -1, 0 or 1 where a is below b, the same or above.
compared <- function(a, b) {
  a <- fraction_parts(a)
  b <- fraction_parts(b)
  if (a$negative != b$negative) return(if (a$negative) -1 else 1)
  left <- product(limbs(a$num), limbs(b$den))
  right <- product(limbs(b$num), limbs(a$den))
  left <- plus(left, right, -1)
  found <- if (is_negative(left)) -1 else if (any(left != 0)) 1 else 0
  if (a$negative) -found else found
}

# The same, by doubles where these tell: they are nearer to the numbers than a part in a million million.
order_between <- function(a, b) {
  left <- as.double(exact(a))
  right <- as.double(exact(b))
  if (isTRUE(abs(left - right) > 1e-12 * (abs(left) + abs(right)))) sign(left - right) else compared(a, b)
}

# Returns the parts of a text such as -3/4, 0.25 or 12.
fraction_parts <- function(text) {
  negative <- startsWith(text, "-")
  parts <- strsplit(sub("^-", "", text), "/", fixed = TRUE)[[1]]
  places <- nchar(sub("^[^.]*\\.?", "", parts[1]))
  num <- sub("^0+(?=[0-9])", "", sub(".", "", parts[1], fixed = TRUE), perl = TRUE)
  den <- paste0(if (length(parts) > 1) parts[2] else "1", strrep("0", places))
  list(negative = negative && num != "0", num = num, den = den)
}

Ops.rp_exact <- function(e1, e2) {
  if (.Generic %in% c("==", "!=", "<", "<=", ">", ">=") && is_plain_number(e1) && is_plain_number(e2)) {
    e1 <- number_texts(e1)
    e2 <- number_texts(e2)
    found <- suppressWarnings(mapply(function(a, b) if (nzchar(a) && nzchar(b)) order_between(a, b) else NA_real_, e1, e2, USE.NAMES = FALSE))
    return(get(.Generic)(as.numeric(found), 0))
  }
  if (missing(e2)) return(get(.Generic)(big(e1, .Generic)))
  get(.Generic)(big(e1, .Generic), big(e2, .Generic))
}

is_plain_number <- function(x) {
  if (inherits(x, "rp_exact")) return(TRUE)
  is.numeric(x) && !inherits(x, c("bigz", "bigq", "integer64")) && all(is.finite(x) | is.na(x))
}

# Returns the place of each in their order, so that order(), sort() and rank() go by the numbers. Doubles tell the order
# but for those that are near to one another.
xtfrm.rp_exact <- function(x) {
  texts <- unique(bare(x)[!is.na(x)])
  near <- as.double(exact(texts))
  at <- order(near)
  run <- cumsum(c(TRUE, diff(near[at]) > 1e-9 * abs(near[at][-1])))[seq_along(at)]
  places <- numeric(length(at))
  places[at] <- seq_along(at)
  for (own in split(at, run)[tabulate(run) > 1]) {
    less <- vapply(own, function(a) sum(vapply(own, function(b) compared(texts[b], texts[a]) < 0, TRUE)), 0)
    places[own] <- min(places[own]) + less
  }
  places[match(bare(x), texts)]
}

sort.rp_exact <- function(x, decreasing = FALSE, ...) x[order(xtfrm(x), decreasing = decreasing, na.last = NA)]

# Numbers of gmp, for what is asked of exact numbers; a double is no answer unless it is asked for.
big <- function(x, what) {
  if (!requireNamespace("gmp", quietly = TRUE)) {
    bad_data(what, " of exact numbers needs the package gmp; as.numeric(x) gives a double near each")
  }
  gmp::as.bigq(if (inherits(x, "rp_exact")) bare(x) else x)
}

Summary.rp_exact <- function(..., na.rm = FALSE) {
  x <- c(...)
  if (na.rm) x <- x[!is.na(x)]
  if (.Generic %in% c("max", "min", "range") && inherits(x, "rp_exact") && length(x)) {
    if (anyNA(x)) return(exact(rep(NA, if (.Generic == "range") 2 else 1)))
    at <- order(xtfrm(x))
    ends <- exact(bare(x)[c(at[1], at[length(at)])])
    return(switch(.Generic, max = ends[2], min = ends[1], range = ends))
  }
  if (!.Generic %in% c("max", "min", "range", "sum", "prod")) bad_data(.Generic, " is not told of exact numbers")
  get(.Generic)(big(x, .Generic))
}

# What R reckons with doubles, as round(x, 2), is reckoned with the nearest ones.
Math.rp_exact <- function(x, ...) get(.Generic)(named(nearest_double(x), names(x)), ...)

# Returns two columns of a frame: the nearest doubles, or those on one side, and beside them the exact texts.
beside <- function(name, x, doubles = nearest_double, exact_name = paste0(name, "_exact")) {
  texts <- exact(bare(x))
  named(list(doubles(texts), texts), c(name, exact_name))
}
