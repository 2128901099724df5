# The library in place of the program: how it is found, and the same answers, from memory. It is what RP_TEST_LIBRARY names;
# without it the second is left out.
library(revealed)
source(system.file("testing", "opening.R", package = "revealed"))
one <- matrix(1)
old <- Sys.getenv(c("RP_EXEC", "RP_LIBRARY", "HOME", "PATH"), names = TRUE)
back <- function() {
  Sys.unsetenv(c("RP_EXEC", "RP_LIBRARY"))
  do.call(Sys.setenv, as.list(old[nzchar(old)]))
}
folder <- file.path(tempdir(), "libraries")
dir.create(folder)

# ---- what is a library, and what is none
is_library <- revealed:::is_library
stopifnot(is_library("librp.so"), is_library("a/librp.so.0"), is_library("/b/librp.so.0.11.0"), is_library("librp.dylib"))
stopifnot(is_library("rp.dll"))
stopifnot(!is_library("rp"), !is_library("so"), !is_library("rp.exe"), !is_library("a.so/rp"))
no <- file.path(folder, "no library.so")
writeLines("no library", no)
for (exe in list(no, file.path(R.home("modules"), "internet.so"))) caught(rp_test(one, one, exe = exe), "rp_no_program")
caught(rp_test(one, one, exe = file.path(folder, "librp.so")), "rp_no_program")
Sys.setenv(RP_LIBRARY = no)
stopifnot(grepl("is no library of rp", conditionMessage(caught(rp_test(one, one), "rp_no_program"))))
Sys.setenv(RP_LIBRARY = "/bin/sh")
stopifnot(grepl("RP_LIBRARY", conditionMessage(caught(rp_test(one, one), "rp_no_program"))))
stopifnot(identical(rp_program("/bin/sh"), "/bin/sh"))

# ---- its version: that of the package, or a warning
warned <- function(version) tryCatch({ revealed:::warn_of_version("/somewhere/librp.so", version); "" }, rp_warning = conditionMessage)
own <- as.character(packageVersion("revealed"))
stopifnot(grepl("/somewhere/librp.so is of version 0.0.1", warned("0.0.1")), warned(own) == "", warned(NULL) == "")
stopifnot(identical(rp_version("/bin/sh"), c(package = own, library = NA_character_)))
tested <- Sys.getenv("RP_TEST_LIBRARY")
if (nzchar(tested)) stopifnot(rp_version(tested)[["library"]] %in% c(NA, own))

# ---- where it is looked for: in the release or beside the folder of programs that has the program
Sys.unsetenv(c("RP_LIBRARY", "RP_EXEC"))
copy <- function(from, ...) {
  to <- file.path(folder, ...)
  dir.create(dirname(to), recursive = TRUE, showWarnings = FALSE)
  file.copy(from, to, copy.mode = TRUE)
  to
}
home <- file.path(folder, "home")
release <- copy("/bin/true", "home", "rp-0.11.0-x86_64-linux", "rp")
Sys.setenv(HOME = home, PATH = dirname(release))
# Where the library is inside the package, it comes before everything that is found and not named.
or_own <- function(program) c(revealed:::library_inside(), program)[1]
stopifnot(identical(rp_program(), or_own(release)))
inside <- copy(no, "home", "rp-0.11.0-x86_64-linux", "lib", "librp.so")
stopifnot(identical(rp_program(), or_own(inside)), identical(rp_program("rp"), release))
Sys.setenv(RP_EXEC = release)
stopifnot(identical(rp_program(), release))
Sys.unsetenv("RP_EXEC")
own <- copy("/bin/true", "home", ".local", "bin", "rp")
Sys.setenv(PATH = dirname(own))
stopifnot(identical(rp_program(), or_own(own)))
beside <- copy(no, "home", ".local", "lib", "librp.so.0")
stopifnot(identical(rp_program(), or_own(beside)))
Sys.setenv(PATH = file.path(folder, "nothing"))
unlink(own)
unlink(dirname(release), recursive = TRUE)
if (!any(file.exists(revealed:::usual_places()))) stopifnot(identical(rp_program(), or_own(beside)))
unlink(beside)
elsewhere <- rp_program(must = FALSE)
if (is.null(elsewhere)) {
  said <- conditionMessage(caught(rp_test(one, one), "rp_no_program"))
  stopifnot(grepl("RP_LIBRARY and RP_EXEC are not set", said), grepl("no librp.so in .*'/usr/lib'", said))
}
back()

# ---- the same answers
library <- Sys.getenv("RP_TEST_LIBRARY")
if (!nzchar(library) || !nzchar(Sys.getenv("RP_EXEC"))) {
  cat("there is no library, so its answers are left out\n")
  quit("no", 0)
}
program <- Sys.getenv("RP_EXEC")
bare <- function(it) if (inherits(it, "rp_error")) structure(list(class(it), conditionMessage(it), it$status), class = "told") else it
both <- function(call) {
  found <- lapply(c(library, program), function(exe) bare(tryCatch(call(exe), rp_error = identity)))
  stopifnot(identical(found[[1]], found[[2]]))
  found[[1]]
}
P <- rbind(c(1, 2), c(2, 1))
Q <- rbind(c(2, 1), c(1, 2))
budgets <- data.frame(p_a = 1:2, p_b = 2:1, w = 4)
choices <- data.frame(budget = c(1, 1, 2, 2), q_a = c(2, 0, 1, 2), q_b = c(1, 2, 2, 0), n = c(1, 3, 2, 2))
# Products on the way pass 2^127 - 1, so rp withholds the homothetic verdict.
long_p <- rbind(c(4194304, 1), c(1, 3145727), c(1, 4194304))
long_q <- rbind(c(2097151, 4194304), c(1747627, 2796203), c(4194304, 2097151))
firm <- data.frame(y = 1:2, p = 5:4, w_a = 1:2, w_b = 2:1, x_a = c(2, 2), x_b = 1:2)
for (call in list(
  function(exe) rp_test(P, P, exe = exe), function(exe) rp_test(P, P, levels = c(799, 1000), exe = exe), function(exe) rp_pairs(P, P, exe = exe),
  function(exe) rp_pump(P, P, exe = exe), function(exe) rp_power(P, P, seed = 7, draws = 100, exe = exe), function(exe) rp_trial(7, 30, 3, exe = exe),
  function(exe) rp_demand(P, Q, new = c(1, 1), m = 3, exe = exe), function(exe) rp_welfare(P, Q, new = c(1, 1), exe = exe),
  function(exe) rp_utility(P, Q, bundles = c(1, 1), exe = exe), function(exe) rp_random(budgets, choices, exe = exe),
  function(exe) rp_random(budgets, choices[c(1, 3), ], per = 5, exe = exe), function(exe) rp_patches(budgets, choices, exe = exe),
  function(exe) rp_test(long_p, long_q, exe = exe, wide = FALSE),
  function(exe) rp_menus(data.frame(menu = "ab", choice = c("a", "b"), n = 1:2), exe = exe),
  function(exe) rp_cost(firm, data.frame(w_a = 1, w_b = 1, y = 3), exe = exe), function(exe) rp_check(rp_test(P, P), rp_test(P, P), exe = exe),
  function(exe) rp_check(list(P, Q), sub("4/5", "9/10", rp_test(P, P)$certificate), exe = exe)
)) stopifnot(!inherits(both(call), "told"))
# the wider call
stopifnot(!is.null(revealed:::library_call(library, "wide")), rp_test(long_p, long_q, exe = library)$wide == "homothetic")
if (!is.null(revealed:::wide_engine(list(program = program)))) both(function(exe) rp_test(long_p, long_q, exe = exe))
for (it in list(
  list(function(exe) rp_test(rbind(0:1), rbind(1:2), exe = exe), "ZeroPrice"), list(function(exe) rp_demand(P, Q, new = c(1, 0), m = 3, exe = exe), "ZeroPrice"),
  list(function(exe) rp_random(budgets, choices[1:2, ], exe = exe), "NoChoices"), list(function(exe) rp_check(list(P, P), "{", exe = exe), "NotJson")
)) {
  said <- both(it[[1]])
  stopifnot(inherits(said, "told"), said[[1]][1] == "rp_refused", grepl(it[[2]], said[[2]]))
}

# by the variable, and where the program is one that gives no answer
Sys.setenv(RP_LIBRARY = library, RP_EXEC = "/bin/true")
stopifnot(identical(rp_program(), library), !rp_test(P, P)$garp)
Sys.unsetenv("RP_LIBRARY")
Sys.setenv(RP_EXEC = program)

# an answer that does not fit at first: some 270,000 bytes
call <- revealed:::library_call(library)
set.seed(1)
records <- paste(sample(1:999, 512, TRUE), sample(1:999, 512, TRUE), sep = ",")
table <- c("p_a,p_b,q_a,q_b", paste(records, rev(records), sep = ","))
new <- c("p_a,p_b", sprintf("%d,%d", 1:16, 16:1))
for (files in list(list(table.csv = table), list(table.csv = c("p_a,q_a", rep("1,1", 512)), new.csv = c("p_a", as.character(1:16))))) {
  words <- if (length(files) == 1) c("certify", "table.csv") else c("welfare", "table.csv", "new.csv", "--json")
  found <- revealed:::by_library(words, list(files), call)[[1]]
  stopifnot(identical(found, revealed:::by_program(words, list(files), program)[[1]]), found$status == 0)
}
stopifnot(nchar(found$out) > 65536)
# more files than the words name, and a file that is not there
stopifnot(revealed:::by_library(c("analyse", "a"), list(list(a = "1", b = "2")), call)[[1]]$status == 8)
stopifnot(revealed:::by_library(c("analyse", "a"), list(list()), call)[[1]]$status == 3)
stopifnot(revealed:::by_library(c("analyse", "a"), list(list(a = raw())), call)[[1]]$status == 4)

# a panel, by one process and by two
long <- data.frame(id = c(1, 1, 2, 2, 3), p_a = c(1, 2, 1, 2, 0), p_b = c(2, 1, 2, 1, 1), q_a = c(1, 2, 2, 1, 1), q_b = c(2, 1, 1, 2, 1))
for (ask in if (!is.null(revealed:::library_call(library, "panel"))) c("test", "pump", "power")) {
  for (workers in 1:2) both(function(exe) as.data.frame(rp_panel(long, "id", ask, seed = 1, draws = 20, workers = workers, exe = exe)))
}
