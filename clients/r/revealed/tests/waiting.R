# A call that takes long can be interrupted: what works is ended, and that is said. By stand-ins that work until they are ended.
library(revealed)
source(system.file("testing", "opening.R", package = "revealed"))
if (revealed:::on_windows() || !dir.exists("/proc/self")) {
  cat("calls are not interrupted on this system\n")
  quit("no")
}
room <- tempfile("ein Ordner ")
dir.create(room)
place <- function(name) file.path(room, name)
writeLines(c("#!/bin/sh", "echo 'rp: TooManyTypes' >&2", "exit 4"), place("rp"))
writeLines(c("#!/bin/sh", "echo $$ >>\"$WORKS\"", "exec sleep 120"), place("rp-wide"))
Sys.chmod(place(c("rp", "rp-wide")), "755")
writeLines(c(
  "#include <stdint.h>", "#include <stdio.h>", "#include <stdlib.h>", "#include <string.h>", "#include <unistd.h>",
  "#define GIVEN const char *a, size_t b, const char *c, size_t d, const uint64_t *e, size_t f, const char *g, size_t h, char *out, size_t room, \\",
  "  char *told, size_t told_room, uint64_t *length, uint64_t *told_length",
  "int32_t rp_answer(GIVEN) { strcpy(told, \"rp: TooManyTypes\\n\"); *length = 0; *told_length = strlen(told); return 4; }",
  # A table of one price and one quantity, by which the package looks whether there is a command `fit`, is answered at once.
  "int32_t rp_answer_wide(GIVEN) { *length = *told_length = 0; if (h == 12) return 0; FILE *it = fopen(getenv(\"WORKS\"), \"a\");",
  "  fprintf(it, \"%d\\n\", (int)getpid()); fclose(it); sleep(120); return 0; }"
), place("own.c"))
opening <- c(
  "library(revealed)", "cat(Sys.getpid(), file = Sys.getenv(\"CALLS\"))",
  "budgets <- data.frame(p_a = 1:2, p_b = 2:1, w = 4)", "choices <- data.frame(budget = c(1, 1, 2, 2), q_a = c(2, 0, 1, 2), q_b = c(1, 2, 2, 0), n = 1)",
  "long <- data.frame(id = rep(1:9, each = 2), p_a = 1:2, p_b = 2:1, q_a = 1:2, q_b = 2:1)"
)
# Calls, and how many processes each of them has at work at once.
calls <- list(
  list("rp_random(budgets, choices)", 1), list("rp_fit(long[1:2, -1])", 2), list("rp_fit(long, by = \"id\", workers = 3, progress = FALSE)", 3)
)
# Returns the numbers of a file once so many are there.
numbers_in <- function(name, count = 1) {
  for (at in 1:600) if (file.exists(place(name)) && length(readLines(place(name), warn = FALSE)) >= count) break else Sys.sleep(0.1)
  as.integer(readLines(place(name), warn = FALSE))
}
# A process that has ended and was not waited for does not run.
is_alive <- function(number) {
  stat <- tryCatch(readLines(file.path("/proc", number, "stat"), warn = FALSE)[1], error = function(wrong) NA, warning = function(wrong) NA)
  !is.na(stat) && !grepl("[)] Z ", stat)
}
ended <- function(call, ...) {
  unlink(place(c("works", "calls", "said", "over")))
  writeLines(c(opening, call[[1]]), place("call.R"))
  own <- c(..., paste0("WORKS=", shQuote(place("works"))), paste0("CALLS=", shQuote(place("calls"))))
  clear <- "unset RP_EXEC RP_WIDE RP_LIBRARY;"
  line <- paste(clear, paste(own, collapse = " "), shQuote(file.path(R.home("bin"), "Rscript")), shQuote(place("call.R")), ">", shQuote(place("said")), "2>&1; echo $? >", shQuote(place("over")))
  system(paste0("( ", line, " )"), wait = FALSE)
  works <- numbers_in("works", call[[2]])
  stopifnot(length(works) == call[[2]], vapply(works, is_alive, TRUE))
  tools::pskill(numbers_in("calls"), tools::SIGINT)
  stopifnot(numbers_in("over") != 0, !vapply(works, is_alive, TRUE), length(numbers_in("works")) == call[[2]])
  said <- readLines(place("said"), warn = FALSE)
  stopifnot(sum(grepl("^rp-wide was ended after [0-9]+ s, and there is no result$", said)) == 1)
}
for (call in calls) ended(call, paste0("RP_EXEC=", shQuote(place("rp"))))
old <- setwd(room)
built <- system2(file.path(R.home("bin"), "R"), c("CMD", "SHLIB", "-o", "librp.so", "own.c"), stdout = FALSE, stderr = FALSE)
setwd(old)
if (built == 0) {
  for (call in calls) ended(call, paste0("RP_LIBRARY=", shQuote(place("librp.so"))))
}
