# Choices of many people from menus.

rp_menus <- function(data, per = NULL, exe = NULL) {
  own <- menus_of(data)
  text <- ask(c("menus", "menus.csv", units_of(per_word(per))), list(menus.csv = csv_lines(own)), engine_of(exe), list(own))
  reading(text, menus_from(own, report_of(text)))
}

rp_menu_choices <- rp_menus

menus_from <- function(own, report) {
  size <- numbers_of(report$lines[1], "^alternatives ([0-9]+) menus ([0-9]+) cells ([0-9]+) orders ([0-9]+) total ([0-9]+)$")
  verdict <- second_word(report, "menus")
  stopifnot(verdict %in% c("mixture", "violated", "withheld"))
  found <- list(
    consistent = switch(verdict, mixture = TRUE, violated = FALSE, withheld = NA), share = exact(NA), reason = NULL, parts = NULL, weights = NULL,
    least_sum = NULL, orders = as.integer(size[4]), total = size[5], report = report$lines, menus = own
  )
  sums <- report$lines[startsWith(report$lines, "sums ")]
  if (length(sums)) {
    said <- numbers_of(sums, "^sums least (-?[0-9]+) at ([a-f]) in ([a-f]+)$")
    found$least_sum <- list(value = exact(fraction(said[1], size[5])), letter = said[2], menu = said[3])
  }
  if (verdict == "withheld") {
    found$reason <- withheld_at(numbers_of(line_of(report, "menus"), "^withheld ([0-9]+)$"))
    return(structure(found, class = "rp_menus"))
  }
  if (verdict == "mixture") {
    den <- numbers_of(line_of(report, "menus"), "^mixture over ([0-9]+)$")
    found$share <- exact("1")
  } else {
    found$share <- one_exact(numbers_of(line_of(report, "menus"), "^violated share ([0-9/]+)$"))
    weights <- numbers_of(line_of(report, "weights"), "^(.*) over ([0-9]+)$")
    den <- weights[2]
    found$weights <- exact(vapply(strsplit(weights[1], " ", fixed = TRUE)[[1]], fraction, "", den = den, USE.NAMES = FALSE))
  }
  found$parts <- menu_parts(report, digits_of(product(limbs(den), limbs(size[5]))))
  structure(found, class = "rp_menus")
}

# Returns the orders with the shares of the choices that they make, their weights being over `den`.
menu_parts <- function(report, den) {
  said <- lapply(report$lines[startsWith(report$lines, "part ")], numbers_of, form = "^part ([a-f](?: [a-f])*) weight ([0-9]+)$")
  weights <- vapply(said, `[`, "", 2)
  list(order = vapply(said, `[`, "", 1), share = exact(vapply(weights, fraction, "", den = den, USE.NAMES = FALSE)))
}

print.rp_menus <- function(x, ...) {
  if (is.na(x$consistent)) {
    cat("menus withheld:", x$reason, "\n")
  } else {
    cat(if (x$consistent) "menus mixture" else paste("menus violated share", bare(x$share)), "\n")
    print(frame_of(x$parts), row.names = FALSE)
  }
  if (!is.null(x$least_sum)) cat("least sum", bare(x$least_sum$value), "at", x$least_sum$letter, "in", x$least_sum$menu, "\n")
  invisible(x)
}

as.data.frame.rp_menus <- function(x, row.names = NULL, optional = FALSE, ...) {
  if (is.null(x$parts)) return(frame_of(c(list(order = character()), beside("share", exact(character())))))
  frame_of(c(list(order = x$parts$order), beside("share", x$parts$share)))
}

summary.rp_menus <- function(object, ...) {
  title <- if (is.na(object$consistent)) paste("menus withheld:", object$reason) else if (object$consistent) "menus mixture" else {
    paste("menus violated: at most", bare(object$share), "of the choices are those of people with an order each")
  }
  summary_of(as.data.frame(object), title)
}
