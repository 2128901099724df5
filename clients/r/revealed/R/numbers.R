# Numbers as text on their way to the program. A double is written as the shortest decimal that gives it back, and the result says so;
# strictly, as the binary fraction that it is. Nothing is rounded unasked.

plain <- "^[0-9]+(\\.[0-9]+)?$"
number <- "^([+-]?)([0-9]+\\.?[0-9]*|\\.[0-9]+)([eE][+-]?[0-9]{1,3})?$"

# Returns the text of each number, exactly, or rounded to so many decimal places, half to even; an empty text where the
# value is missing, and the text of what is no number as it stands, for the program to refuse. A `form` has `digits`, how many
# places are asked for, and `shortest`, whether a double is the shortest decimal that gives it back.
number_texts <- function(x, form = NULL) {
  digits <- form$digits
  if (inherits(x, c("bigz", "bigq"))) return(big_texts(x, digits))
  if (inherits(x, "integer64")) {
    if (!"bit64" %in% loadedNamespaces()) bad_data("whole numbers of bit64 need that package loaded")
    x <- as.character(x)
  }
  if (inherits(x, c("Date", "POSIXt", "difftime"))) bad_data("a date or a time is no price and no quantity")
  if (is.factor(x) || is.logical(x) || inherits(x, "rp_exact")) x <- as.character(x)
  if (is.list(x)) bad_data("a column is a list")
  if (is.integer(x)) return(ifelse(is.na(x), "", sprintf("%d", x)))
  if (is.double(x)) return(double_texts(as.vector(unclass(x)), digits, isTRUE(form$shortest)))
  if (!is.character(x)) bad_data("a column has no numbers but ", class(x)[1])
  cells <- unname(as.vector(x))
  cells[is.na(cells)] <- ""
  trimmed <- gsub("^[ \t]+|[ \t]+$", "", cells, useBytes = TRUE)
  plainly <- grepl(plain, trimmed, useBytes = TRUE)
  cells[plainly] <- trimmed[plainly]
  other <- which((!plainly | !is.null(digits)) & grepl(number, trimmed, useBytes = TRUE))
  cells[other] <- vapply(trimmed[other], plain_decimal, "", digits = digits)
  cells
}

double_texts <- function(x, digits, shortest) {
  text <- ifelse(is.na(x), "", as.character(x))
  own <- which(is.finite(x))
  if (shortest) {
    text[own] <- if (is.null(digits)) shortest_decimals(x[own]) else rounded_decimals(x[own], as.integer(digits))
    return(text)
  }
  places <- if (is.null(digits)) binary_places(x[own]) else rep(as.integer(digits), length(own))
  # Without `digits` so many places are all that the double has. With it, they are the nearest to the double itself.
  text[own] <- unsigned_zero(sprintf("%.*f", places, x[own]))
  text
}

# Returns the shortest decimals of doubles without exponents.
shortest_decimals <- function(x) {
  short <- unsigned_zero(shortest_texts(x))
  other <- grepl("e", short, fixed = TRUE)
  short[other] <- vapply(short[other], plain_decimal, "")
  short
}

# Returns the shortest decimals of doubles, rounded. No number between a double and its shortest decimal has as few places as those half
# way between two rounded ones: so the double itself is rounded, but where its shortest decimal lies half way.
rounded_decimals <- function(x, digits) {
  text <- sprintf("%.*f", digits, x)
  if (digits > 0) text <- sub("[.]?0+$", "", text)
  half <- abs(x) >= 1e8
  near <- which(!half)
  half[near] <- is_quotient(x[near], digits + 1) & round(abs(x[near]) * 10^(digits + 1)) %% 10 == 5
  text[half] <- vapply(shortest_decimals(x[half]), plain_decimal, "", digits = digits)
  unsigned_zero(text)
}

# Returns the shortest decimal that gives each double back: 15 digits are enough for one that was read from as few, and 17 for all. What
# R reads is now and then not the nearest double, so a decimal of few places also gives a double back where its quotient is that.
shortest_texts <- function(x) {
  text <- character(length(x))
  few <- abs(x) < 1e9 & is_quotient(x, most_places())
  text[few] <- sub("\\.?0+$", "", sprintf("%.*f", most_places(), x[few]))
  long <- which(!few)
  text[long] <- sprintf("%.15g", x[long])
  for (count in 16:17) {
    left <- long[as.numeric(text[long]) != x[long]]
    text[left] <- sprintf("%.*g", count, x[left])
  }
  text
}

# Returns whether each double is what a whole number over a power of ten is in doubles.
is_quotient <- function(x, places) round(x * 10^places) / 10^places == x

# Returns which numbers are doubles that need more than 6 decimal places or 7 digits: their shortest decimals, or they themselves.
is_beyond <- function(x, shortest = TRUE) {
  found <- logical(length(x))
  if (!is.double(x) || inherits(x, c("bigz", "bigq", "integer64"))) return(found)
  x <- as.vector(unclass(x))
  own <- which(is.finite(x) & x != floor(x))
  value <- x[own]
  places <- pmin(most_places(), digits_taken() - nchar(sprintf("%.0f", floor(abs(value)))))
  found[own] <- places < 0
  fits <- own[places >= 0]
  value <- x[fits]
  places <- as.integer(places[places >= 0])
  found[fits] <- !(is_quotient(value, places) | as.numeric(sprintf("%.*f", places, value)) == value)
  found | (!shortest & is_shortened(x))
}

# Returns which doubles are other numbers than their shortest decimals: a binary fraction of at most six places is whole in 64ths.
is_shortened <- function(x) {
  if (!is.double(x) || inherits(x, c("bigz", "bigq", "integer64"))) return(logical(length(x)))
  parts <- as.vector(unclass(x)) * 2^most_places()
  is.finite(parts) & parts != floor(parts)
}

# What a result says where doubles were taken for decimals that are other numbers.
shortened <- "numbers: shortest decimals of doubles"

# Returns the least number of places after which each double ends, in base 2 as in base 10.
binary_places <- function(x) {
  places <- integer(length(x))
  left <- which(x != floor(x))
  while (length(left)) {
    x[left] <- x[left] * 2
    places[left] <- places[left] + 1L
    left <- left[x[left] != floor(x[left])]
  }
  places
}

unsigned_zero <- function(text) sub("^-(0+(\\.0*)?)$", "\\1", text)

# Returns a number such as +1.5e3 without its exponent, and rounded where digits are asked for.
plain_decimal <- function(text, digits = NULL) {
  parts <- regmatches(text, regexec("^([+-]?)([0-9]*)\\.?([0-9]*)(?:[eE]([+-]?[0-9]+))?$", text, perl = TRUE))[[1]]
  power <- if (nzchar(parts[5])) as.integer(parts[5]) else 0L
  all <- paste0(parts[3], parts[4])
  point <- nchar(parts[3]) + power
  if (point < 1) {
    all <- paste0(strrep("0", 1 - point), all)
    point <- 1
  }
  if (point > nchar(all)) all <- paste0(all, strrep("0", point - nchar(all)))
  whole <- substring(all, 1, point)
  part <- substring(all, point + 1)
  if (!is.null(digits) && nchar(part) > digits) {
    kept <- paste0(whole, substring(part, 1, digits))
    rest <- substring(part, digits + 1)
    half <- paste0("5", strrep("0", nchar(rest) - 1))
    is_odd <- grepl("[13579]$", kept)
    # texts of one length, so their order is that of the numbers
    more <- order_of(rest, half)
    if (more > 0 || (more == 0 && is_odd)) kept <- digits_of(plus(limbs(kept), 1))
    kept <- paste0(strrep("0", max(0, digits + 1 - nchar(kept))), kept)
    whole <- substring(kept, 1, nchar(kept) - digits)
    part <- substring(kept, nchar(kept) - digits + 1)
  }
  sign <- if (parts[2] == "-") "-" else ""
  unsigned_zero(paste0(sign, whole, if (nzchar(part)) paste0(".", part)))
}

order_of <- function(a, b) {
  left <- utf8ToInt(a) - utf8ToInt(b)
  first <- left[left != 0]
  if (length(first)) sign(first[1]) else 0
}

# Returns the texts of numbers of gmp.
big_texts <- function(x, digits) {
  if (!requireNamespace("gmp", quietly = TRUE)) bad_data("numbers of gmp need that package")
  stop_at_too_long(x)
  texts <- as.character(x)
  texts[is.na(texts) | texts == "NA"] <- ""
  are_fractions <- grepl("/", texts, fixed = TRUE)
  texts[are_fractions] <- vapply(strsplit(texts[are_fractions], "/", fixed = TRUE), function(it) {
    # Twenty places: those past the sixth are either all 0, or they are refused, as a third is.
    decimal <- decimal_of(sub("^-", "", it[1]), it[2], if (is.null(digits)) 20L else digits + 20L)
    if (!is.null(digits)) decimal <- plain_decimal(decimal, digits)
    unsigned_zero(paste0(if (startsWith(it[1], "-")) "-", decimal))
  }, "")
  texts
}

# A number of gmp of more digits before its point, or below its line, is refused before it is made a text.
most_figures <- 2000

# Stops at the first number of gmp that is too long, with the fault of it and its place.
stop_at_too_long <- function(x) {
  figures <- function(of) ifelse(is.na(of), 0, gmp::sizeinbase(of, 10))
  over <- figures(if (inherits(x, "bigq")) gmp::numerator(x) else x)
  under <- if (inherits(x, "bigq")) figures(gmp::denominator(x)) else rep(1, length(over))
  long <- which(over - under > most_figures | under > most_figures)
  if (!length(long)) return(invisible())
  fault <- if (over[long[1]] - under[long[1]] > most_figures) "TooLarge" else "TooManyDecimals"
  size <- paste("a number of some", format(max(over[long[1]], under[long[1]]), big.mark = ","), "digits")
  stop(structure(class = c("rp_too_long", "error", "condition"), list(message = size, call = NULL, fault = fault, at = long[1])))
}

# Returns num over den with so many places; the last one is 1 where it would be 0 and the number goes on.
decimal_of <- function(num, den, places) {
  parts <- divided(limbs(paste0(num, strrep("0", places))), limbs(den))
  text <- digits_of(parts$quotient)
  text <- paste0(strrep("0", max(0, places + 1 - nchar(text))), text)
  if (any(parts$rest != 0)) text <- sub("0$", "1", text)
  text <- paste0(substring(text, 1, nchar(text) - places), ".", substring(text, nchar(text) - places + 1))
  sub("\\.?0+$", "", text)
}

# ---- what rounding does

# Returns the most decimal places with which every number of a kind has at most seven digits, by the largest of them; -1
# where the largest has more than seven before its point.
places_that_fit <- function(texts) {
  texts <- unique(texts[grepl(plain, texts, useBytes = TRUE)])
  whole <- nchar(sub("^0+", "", sub("\\..*$", "", texts)))
  most <- max(whole, 0L)
  places <- min(most_places(), digits_taken() - most)
  if (places < 0) return(-1L)
  # Doubles tell which are the largest, but for those that are near to one another.
  long <- texts[whole == most]
  near <- as.numeric(long)
  largest <- vapply(long[near >= max(near, 0) * (1 - 1e-12)], plain_decimal, "", digits = places)
  # Rounding may carry the largest into one digit more.
  figures <- nchar(sub("^0+", "", gsub(".", "", largest, fixed = TRUE)))
  as.integer(if (any(figures > digits_taken())) places - 1 else places)
}

# Returns what stands behind the point of each text, without the zeros at its end.
places_in <- function(texts) sub("0+$", "", ifelse(grepl(".", texts, fixed = TRUE), sub("^[^.]*\\.", "", texts), ""))
