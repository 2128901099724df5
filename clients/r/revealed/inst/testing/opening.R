# What the tests of this package begin with: an error that a call must end with, and the end of a test where no program is.
caught <- function(call, class) {
  wrong <- tryCatch({
    call
    NULL
  }, rp_error = identity)
  stopifnot(inherits(wrong, class))
  invisible(wrong)
}
need_program <- function() {
  if (is.null(rp_program(must = FALSE))) {
    cat("there is no program, so nothing is tried\n")
    quit("no", 0)
  }
}
