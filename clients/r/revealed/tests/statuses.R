# How the program is found, and what is made of each status, by programs of our own.
library(revealed)
source(system.file("testing", "opening.R", package = "revealed"))
folder <- file.path(tempdir(), "a folder of our own")
dir.create(folder)
fake <- function(status, said = "", out = "", name = "rp") {
  path <- file.path(folder, name)
  writeLines(c("#!/bin/sh", sprintf("printf '%%s\\n' '%s' >&2", said), sprintf("printf '%%s' '%s'", out), status), path)
  Sys.chmod(path, "755")
  path
}
one <- matrix(1)
for (it in list(
  list(2, "usage: rp pairs TABLE"), list(3, "rp: table.csv: read failed"), list(5, "rp: write failed"),
  list(6, "rp: out of memory"), list(7, ""), list(70, "rp: the command rt is not on the path"), list(1, "")
)) {
  wrong <- caught(rp_test(one, one, exe = fake(paste("exit", it[[1]]), it[[2]])), "rp_failed")
  stopifnot(wrong$status == it[[1]], wrong$said == it[[2]])
}
stopifnot(caught(rp_test(one, one, exe = fake("kill -9 $$")), "rp_failed")$status == 137)
wrong <- caught(rp_test(one, one, exe = fake("exit 4", "rp: table.csv: TooLong")), "rp_refused")
stopifnot(wrong$fault == "TooLong", is.na(wrong$record))
budgets <- data.frame(obs = c("low", "high"), p_a = 1, w = 1)
choices <- data.frame(budget = c("low", "high"), q_a = 1, n = 1)
wrong <- caught(rp_random(budgets, choices, exe = fake("exit 4", "rp: NeedUnit budget 2")), "rp_refused")
stopifnot(wrong$fault == "NeedUnit", wrong$budget == 2, wrong$label == "high")
failing <- caught(rp_panel(data.frame(id = 1, p_a = 1, q_a = 1), "id", exe = fake("exit 6", "rp-panel: out of memory", name = "rp-panel")), "rp_failed")
stopifnot(failing$status == 6, failing$said == "rp-panel: out of memory")

certificate <- paste0(
  "{\"items\":[{\"item\":\"garp\",\"ranks\":[1]},{\"item\":\"afriat\",\"lambda\":[\"1\"],\"utility\":[\"0\"]},{\"above\":[],\"at_ranks\":[1],\"below\":[1],",
  "\"item\":\"efficiency\",\"level\":\"1\"},{\"item\":\"homothetic\",\"values\":[\"1\"]},{\"item\":\"quasilinear\",\"values\":[\"0\"]}],\"kind\":\"table\",\"version\":1}"
)
good <- fake("exit 0", "note: answered by the same source", certificate, "rp good")
stopifnot(rp_test(one, one, exe = good)$garp)

# a program that ends with 0 and says what is no answer of rp
other <- c(
  "", "hello", "{}", "[", "{\"items\":[],\"kind\":\"table\",\"version\":1}", sub("ranks", "rank", certificate), sub("\\[1\\]", "[1,1]", certificate),
  sub("\"level\":\"1\"", "\"level\":\"x\"", certificate), "pair", "pair x", "pump x", "power 1 draws 9 violations 1", "garp holds", "trial 1"
)
plain <- data.frame(p_a = 1, q_a = 1)
for (said in other) {
  exe <- fake("exit 0", out = said, name = "rp other")
  for (call in list(
    function() rp_test(one, one, exe = exe), function() rp_pairs(one, one, exe = exe), function() rp_pump(one, one, exe = exe),
    function() rp_power(one, one, seed = 1, draws = 1, exe = exe), function() rp_trial(2, 1, 1, exe = exe), function() rp_check(plain, "{}", exe = exe),
    function() rp_demand(plain, new = 1, m = 1, exe = exe), function() rp_welfare(plain, new = 1, exe = exe), function() rp_utility(plain, bundles = 1, exe = exe),
    function() rp_random(budgets, choices, exe = exe), function() rp_menus(data.frame(menu = "a", choice = "a", n = 1), exe = exe),
    function() rp_cost(data.frame(y = 1, w_a = 1, x_a = 1), data.frame(y = 1, w_a = 1), exe = exe)
  )) {
    wrong <- caught(call(), "rp_failed")
    stopifnot(wrong$status == 0, grepl("no answer of rp", conditionMessage(wrong)))
  }
}
stopifnot(grepl("no answer", conditionMessage(caught(rp_panel(cbind(id = 1, plain), "id", exe = fake("exit 0", out = "hello", name = "rp-panel")), "rp_failed"))))

# by argument, then by the variable, then by the path
bad <- fake("exit 6")
old <- Sys.getenv(c("RP_EXEC", "PATH"), names = TRUE)
Sys.setenv(RP_EXEC = good, PATH = paste(folder, old[["PATH"]], sep = ":"))
stopifnot(rp_test(one, one)$garp, identical(rp_program(bad), bad), identical(rp_program("rp"), bad))
caught(rp_test(one, one, exe = bad), "rp_failed")
caught(rp_test(one, one, exe = file.path(folder, "not there")), "rp_no_program")
caught(rp_test(one, one, exe = folder), "rp_no_program")
Sys.setenv(RP_EXEC = file.path(folder, "not there"))
caught(rp_test(one, one), "rp_no_program")
Sys.unsetenv("RP_EXEC")
# Where the library is inside the package, it comes before everything that is found and not named.
or_own <- function(program) c(revealed:::library_inside(), program)[1]
stopifnot(identical(rp_program(), or_own(bad)))
Sys.setenv(PATH = file.path(folder, "nothing"))
# in the usual places, a later version before an earlier one
home <- Sys.getenv("HOME")
Sys.setenv(HOME = file.path(folder, "home"))
elsewhere <- rp_program(must = FALSE)
if (is.null(elsewhere)) {
  said <- conditionMessage(caught(rp_test(one, one), "rp_no_program"))
  stopifnot(grepl("RP_LIBRARY and RP_EXEC are not set", said), grepl("home/.local/bin/rp", said), grepl("nothing", said))
}
for (version in c("0.9.0", "0.11.0", "0.10.0")) {
  own <- file.path(folder, "home", paste0("rp-", version, "-x86_64-linux"))
  dir.create(own, recursive = TRUE)
  file.copy(good, file.path(own, "rp"))
}
if (is.null(elsewhere)) stopifnot(identical(rp_program(), file.path(folder, "home", "rp-0.11.0-x86_64-linux", "rp")), rp_test(one, one)$garp)
dir.create(file.path(folder, "home", ".local", "bin"), recursive = TRUE)
file.copy(good, file.path(folder, "home", ".local", "bin", "rp"))
stopifnot(identical(rp_program(), or_own(file.path(folder, "home", ".local", "bin", "rp"))))
Sys.setenv(HOME = home)
Sys.setenv(PATH = old[["PATH"]])
if (nzchar(old[["RP_EXEC"]])) Sys.setenv(RP_EXEC = old[["RP_EXEC"]])
