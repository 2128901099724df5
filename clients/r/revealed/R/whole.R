# Whole numbers of any length, 0 or more: limbs of seven decimal digits, the lowest first. A sum of products of limbs stays
# below 2^53, so doubles hold each of these steps exactly.

limb <- 1e7

limbs <- function(text) {
  end <- seq(nchar(text), 1, by = -7)
  as.numeric(substring(text, pmax(end - 6, 1), end))
}

digits_of <- function(x) {
  sub("^0+(?=[0-9])", "", paste(sprintf("%07.0f", rev(x)), collapse = ""), perl = TRUE)
}

# Puts each limb between 0 and limb - 1; the last one may be below 0, as the sign of the whole.
carry <- function(x) {
  at <- 1
  while (at <= length(x)) {
    over <- floor(x[at] / limb)
    last <- at == length(x)
    if (over > 0 || (over < 0 && !last)) {
      x[at] <- x[at] - over * limb
      if (last) x <- c(x, over) else x[at + 1] <- x[at + 1] + over
    }
    at <- at + 1
  }
  top <- which(x != 0)
  if (length(top)) x[seq_len(max(top))] else 0
}

# Returns a plus `times` b.
plus <- function(a, b, times = 1) {
  size <- max(length(a), length(b))
  carry(c(a, numeric(size - length(a))) + times * c(b, numeric(size - length(b))))
}

is_negative <- function(x) x[length(x)] < 0

product <- function(a, b) {
  sum <- 0
  for (at in seq_along(b)) sum <- plus(sum, carry(c(numeric(at - 1), a * b[at])))
  sum
}

# Returns the quotient and the rest of a by b, which is above 0.
divided <- function(a, b) {
  nearly <- function(x) sum(x * limb^(seq_along(x) - 1))
  quotient <- numeric(length(a))
  rest <- 0
  for (at in rev(seq_along(a))) {
    rest <- carry(c(a[at], rest))
    guess <- floor(nearly(rest) / nearly(b))
    left <- plus(rest, b, -guess)
    while (is_negative(left)) {
      guess <- guess - 1
      left <- plus(left, b)
    }
    while (!is_negative(more <- plus(left, b, -1))) {
      guess <- guess + 1
      left <- more
    }
    quotient[at] <- guess
    rest <- left
  }
  list(quotient = carry(quotient), rest = rest)
}

common_divisor <- function(a, b) {
  while (any(b != 0)) {
    rest <- divided(a, b)$rest
    a <- b
    b <- rest
  }
  a
}

# Returns the text of num over den in lowest terms; num may have a sign.
fraction <- function(num, den) {
  if (nchar(num) < 16 && nchar(den) < 16) return(small_fraction(as.numeric(num), as.numeric(den)))
  negative <- startsWith(num, "-")
  a <- limbs(sub("^-", "", num))
  b <- limbs(den)
  common <- common_divisor(a, b)
  a <- digits_of(divided(a, common)$quotient)
  b <- digits_of(divided(b, common)$quotient)
  paste0(if (negative) "-", a, if (b != "1") paste0("/", b))
}

# The same below 10^15, where doubles are exact.
small_fraction <- function(num, den) {
  a <- abs(num)
  b <- den
  while (b != 0) {
    rest <- a %% b
    a <- b
    b <- rest
  }
  if (a == den) sprintf("%.0f", num / a) else sprintf("%.0f/%.0f", num / a, den / a)
}

# Returns texts of whole numbers or fractions, each over ten to the power of `places`, in lowest terms.
over_ten <- function(texts, places) {
  if (places == 0 || !length(texts)) return(texts)
  tens <- strrep("0", places)
  found <- unique(texts[!is.na(texts) & texts != "0"])
  of <- vapply(strsplit(found, "/", fixed = TRUE), function(it) {
    fraction(it[1], paste0(if (length(it) > 1) it[2] else "1", tens))
  }, "")
  ifelse(texts %in% found, of[match(texts, found)], texts)
}
