# Texts that a shell, a CSV file, JSON or LaTeX could take for more than a text, in every argument of every call: each is
# an answer or an error of this package, and none of them runs.
library(revealed)
source(system.file("testing", "opening.R", package = "revealed"))
need_program()
room <- file.path(tempdir(), "texts")
dir.create(room)
old <- setwd(room)
crafted <- c(
  "4; touch X; true", "$(touch X)", "`touch X`", "'; touch X; '", "\"; touch X; \"", "| touch X", "& touch X &", "\ntouch X\n", "a\rb", "a,b\"c",
  "-h", "--per", "{", "${IFS}", "../table.csv", "", " ", "%s%n", "\\"
)
# Those that go into columns and their names as well.
in_columns <- c("$(touch X)", "'; touch X; '", "\ntouch X\n", "a\rb", "a,b\"c", "")
P <- rbind(c(1, 2), c(2, 1))
frame <- data.frame(obs = c("a", "b"), p_x = 1:2, p_y = 2:1, q_x = 1:2, q_y = 2:1)
long <- cbind(id = c("u", "u"), frame)
budgets <- data.frame(p_x = 1:2, p_y = 2:1, w = 4)
choices <- data.frame(budget = c(1, 2), q_x = c(2, 1), q_y = c(1, 2), n = 1)
firm <- data.frame(y = 1:2, p = 5:4, w_a = 1:2, x_a = c(2, 2))
menus <- data.frame(menu = "ab", choice = c("a", "b"), n = 1)
held <- rp_certify(P, P)
people <- rp_panel(long, "id", workers = 1)
calls <- list(
  rp_test = list(p = frame, digits = 2, levels = 1000), rp_certify = list(p = P, q = P), rp_pairs = list(p = frame, levels = 999),
  rp_demand = list(p = frame, new = c(1, 1), m = 2), rp_welfare = list(p = frame, new = c(x = 1, y = 1)),
  rp_utility = list(p = frame, bundles = c(1, 1), levels = 1000), rp_pump = list(p = P, q = P, digits = 0),
  rp_power = list(p = frame, seed = 1, draws = 2), rp_trial = list(seed = 1, rows = 2, goods = 2),
  rp_random = list(budgets = budgets, choices = choices, per = 4), rp_menus = list(data = menus, per = 4),
  rp_cost = list(technology = firm, new = data.frame(w_a = 1, y = 1)), rp_check = list(data = frame, certificate = held),
  rp_checkrandom = list(budgets = budgets, choices = choices, certificate = rp_random(budgets, choices, per = 4)$certificate, per = 4),
  rp_panel = list(data = long, id = "id", ask = "test", workers = 1, progress = FALSE),
  rp_random_panel = list(panel = people, times = 1, seed = 1, workers = 1), rp_panel_table = list(panel = people, what = "summary", format = "text", digits = 3)
)
tried <- 0
# Tries a call, which has to end in an answer or in an error of this package.
try_call <- function(name, arguments, what) {
  tried <<- tried + 1
  found <- tryCatch(suppressWarnings(do.call(name, arguments)), error = identity)
  if (inherits(found, "error") && !inherits(found, "rp_error")) stop(name, " with ", what, ": ", conditionMessage(found))
  if (file.exists("X")) stop(name, " with ", what, " ran a command")
}
for (name in names(calls)) {
  own <- calls[[name]]
  stopifnot(!inherits(tryCatch(do.call(name, own), rp_error = identity), "error"))
  for (text in crafted) {
    for (argument in union(names(own), if (name != "rp_panel_table") "exe")) {
      given <- own
      given[[argument]] <- text
      try_call(name, given, paste(argument, "=", text))
      if (!is.data.frame(own[[argument]]) || !text %in% in_columns) next
      for (column in names(own[[argument]])) {
        given <- own
        given[[argument]][[column]] <- c(text, rep("1", nrow(own[[argument]])))[seq_len(nrow(own[[argument]]))]
        try_call(name, given, paste(argument, column, "=", text))
        given <- own
        names(given[[argument]])[match(column, names(own[[argument]]))] <- paste0(substring(column, 1, 2), text)
        try_call(name, given, paste(argument, "names", text))
      }
    }
  }
}

# texts as the program itself, by the argument and by the variable; where a library answers there is no program to copy
variable <- Sys.getenv("RP_EXEC", NA)
program <- rp_program()
for (text in if (revealed:::is_library(program)) character() else setdiff(crafted, c("", " ", "../table.csv"))) {
  folder <- file.path(room, gsub("/", "_", text))
  dir.create(folder, showWarnings = FALSE)
  own <- file.path(folder, paste0("rp ", gsub("/", "_", text)))
  file.copy(program, own)
  stopifnot(!rp_test(P, P, exe = own)$garp)
  Sys.setenv(RP_EXEC = own)
  stopifnot(!rp_test(P, P)$garp)
  Sys.setenv(RP_EXEC = text)
  stopifnot(inherits(tryCatch(rp_test(P, P), error = identity), "rp_no_program"))
  if (is.na(variable)) Sys.unsetenv("RP_EXEC") else Sys.setenv(RP_EXEC = variable)
  stopifnot(!file.exists("X"), !file.exists(file.path(folder, "X")))
}
setwd(old)
cat(tried, "calls with crafted texts\n")
