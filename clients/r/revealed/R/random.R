# Choices of many people from budgets.

rp_random <- function(budgets, choices, per = NULL, decimals = digits, numbers = "shortest", exe = NULL, wide = TRUE, digits = NULL,
                      steps = NULL) {
  own <- choices_of(budgets, choices, per, forms_of(decimals, numbers))
  limit <- steps_of(steps, wide)
  words <- c("random", "budgets.csv", "choices.csv", "--json", units_of(own$per))
  given <- ask_choices(words, choice_files(own), engine_of(exe), list(own$budgets, own$choices), wide, beside = limit)
  read_random(own, given$text, given$is_wide)
}

rp_random_utility <- rp_random

# Returns the words of units that are asked for, a number that `per_word` gave.
units_of <- function(per) if (!is.null(per)) c("--per", per)

# Returns the words of a limit of steps, which the wider edition alone takes.
steps_of <- function(steps, wide) {
  if (is.null(steps)) return(NULL)
  if (identical(wide, FALSE)) bad_data("steps is a limit of rp-wide, which wide = FALSE does not use: leave one of them out")
  option <- Filter(function(it) it$name == "--steps", catalogue()$wide_options)[[1]]
  c("--steps", whole_word(steps, "steps", option$least, option$most))
}

choice_files <- function(own) list(budgets.csv = csv_lines(own$budgets), choices.csv = csv_lines(own$choices))

read_random <- function(own, text, is_wide = FALSE) reading(text, {
  items <- items_of(text, "random")
  stopifnot(length(items) == 1, identical(items[[1]]$item, "random"))
  random_from(own, items[[1]], text, is_wide)
})

random_from <- function(own, item, text, is_wide) {
  found <- list(
    rational = NA, share = exact(NA), reason = NULL, parts = NULL, weights = NULL, total = item$total, wide = is_wide, certificate = text,
    choices = own
  )
  if (case_of(item, c("withheld", "parts")) == "withheld") {
    found$reason <- if (is_wide) unfound(item$withheld) else withheld_at(item$withheld)
    return(structure(found, class = "rp_random"))
  }
  found$rational <- is.null(item$weights)
  den <- digits_of(product(limbs(item$den), limbs(item$total)))
  weights <- vapply(item$parts, `[[`, "", 2)
  found$parts <- list(
    patches = lapply(item$parts, function(it) as.integer(it[[1]])),
    share = exact(vapply(weights, fraction, "", den = den, USE.NAMES = FALSE))
  )
  found$share <- exact(fraction(digits_of(Reduce(plus, lapply(weights, limbs), 0)), den))
  stopifnot(found$rational == (bare(found$share) == "1"))
  if (!found$rational) found$weights <- exact(vapply(item$weights, fraction, "", den = item$den, USE.NAMES = FALSE))
  structure(found, class = "rp_random")
}

# What is said where the wider edition ends its search.
unfound <- function(steps) {
  paste0("rp-wide found no evidence in ", steps, " steps of its search; fewer budgets, or coarser shares by per =, make that shorter")
}

taken_by_wide <- " (by rp-wide; rp itself refuses these choices)"

# Of the types that make the choices, or as many of them as rational types can: a row for each, or one for each patch that they
# have, with its budget and the share of that budget's choices that they make there.
as.data.frame.rp_random <- function(x, row.names = NULL, optional = FALSE, what = c("types", "patches"), ...) {
  if (chosen(what, c("types", "patches"), "what") == "patches") return(patches_of(x))
  share <- if (is.null(x$parts)) exact(character()) else x$parts$share
  frame_of(c(list(patches = vapply(x$parts$patches, paste, "", collapse = " ")), beside("share", share)))
}

patches_of <- function(x) {
  if (is.null(x$parts)) return(frame_of(c(list(patch = integer(), budget = integer()), beside("share", exact(character())))))
  all <- unlist(x$parts$patches)
  budget <- unlist(lapply(x$parts$patches, seq_along))
  shares <- rep(bare(x$parts$share), lengths(x$parts$patches))
  patch <- sort(unique(all))
  total <- vapply(patch, function(it) sum_of(shares[all == it]), "")
  frame_of(c(list(patch = patch, budget = budget[match(patch, all)]), beside("share", exact(total))))
}

# Returns the sum of fractions above 0.
sum_of <- function(texts) {
  parts <- lapply(texts, fraction_parts)
  num <- "0"
  den <- "1"
  for (it in parts) {
    num <- digits_of(plus(product(limbs(num), limbs(it$den)), product(limbs(it$num), limbs(den))))
    den <- digits_of(product(limbs(den), limbs(it$den)))
    whole <- strsplit(fraction(num, den), "/", fixed = TRUE)[[1]]
    num <- whole[1]
    den <- if (length(whole) > 1) whole[2] else "1"
  }
  fraction(num, den)
}

print.rp_random <- function(x, ...) {
  if (is.na(x$rational)) {
    cat("random withheld:", x$reason, "\n")
  } else {
    cat(if (x$rational) "random mixture" else paste("random violated share", bare(x$share)), if (x$wide) taken_by_wide, "\n", sep = "")
    print(as.data.frame(x)[c("patches", "share_exact")], row.names = FALSE)
  }
  invisible(x)
}

summary.rp_random <- function(object, ...) {
  title <- if (is.na(object$rational)) paste("random withheld:", object$reason) else if (object$rational) "random mixture" else {
    paste("random violated: at most", bare(object$share), "of the choices are those of rational types")
  }
  summary_of(as.data.frame(object), title)
}

# ---- patches

rp_patches <- function(budgets, choices, per = NULL, decimals = digits, numbers = "shortest", exe = NULL, wide = TRUE, digits = NULL) {
  own <- choices_of(budgets, choices, per, forms_of(decimals, numbers))
  words <- c("patches", "budgets.csv", "choices.csv", units_of(own$per))
  text <- ask_choices(words, choice_files(own), engine_of(exe), list(own$budgets, own$choices), wide)$text
  reading(text, patches_from(own, report_of(text)))
}

rp_choice_patches <- rp_patches

# The lines read `patch 1 budget 1 units 3 sides on below`, with a word for each budget.
patches_from <- function(own, report) {
  head <- numbers_of(report$lines[1], "^budgets ([0-9]+) patches ([0-9]+) total ([0-9]+)$")
  lines <- report$lines[-1]
  if (!is.null(own$per)) {
    stopifnot(identical(lines[1], paste("apportioned per", own$per)))
    lines <- lines[-1]
  }
  said <- vapply(lines, numbers_of, character(4), form = "^patch ([0-9]+) budget ([0-9]+) units ([0-9]+) sides((?: (?:above|on|below))+)$", USE.NAMES = FALSE)
  sides <- do.call(rbind, strsplit(trimws(said[4, ]), " ", fixed = TRUE))
  labels <- own$budgets$labels
  stopifnot(ncol(said) == as.integer(head[2]), identical(said[1, ], as.character(seq_len(ncol(said)))), ncol(sides) == as.integer(head[1]))
  stopifnot(ncol(sides) == length(labels))
  colnames(sides) <- as.character(labels)
  structure(class = "rp_patches", list(
    patch = as.integer(said[1, ]), budget = as.integer(said[2, ]), units = said[3, ], share = exact(vapply(said[3, ], fraction, "", den = head[3], USE.NAMES = FALSE)),
    sides = sides, total = head[3], report = report$lines, choices = own
  ))
}

as.data.frame.rp_patches <- function(x, row.names = NULL, optional = FALSE, ...) {
  sides <- apply(x$sides, 1, paste, collapse = " ")
  frame_of(c(list(patch = x$patch, budget = x$budget, units = x$units), beside("share", x$share), list(sides = sides)))
}

print.rp_patches <- function(x, ...) {
  cat("budgets", ncol(x$sides), "patches", length(x$patch), "total", x$total, "\n")
  print(as.data.frame(x)[c("patch", "budget", "share_exact", "sides")], row.names = FALSE)
  invisible(x)
}
