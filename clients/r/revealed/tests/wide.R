# What the program withholds or refuses and its wider edition gives: by stand-ins that write what they are told, and by the programs
# that are here.
library(revealed)
source(system.file("testing", "opening.R", package = "revealed"))
texts <- as.character

# Products on the way pass 2^127 - 1: rp withholds the homothetic verdict after 2 steps from 3 to 1.
p <- rbind(c(4194304, 1), c(1, 3145727), c(1, 4194304))
q <- rbind(c(2097151, 4194304), c(1747627, 2796203), c(4194304, 2097151))
years <- data.frame(obs = 2024:2025, p_bread = 1:2, p_wine = 2:1, q_bread = 2:1, q_wine = 1:2)

# The values of the worked example stand for what rp-wide writes.
certificate <- function(homothetic) paste0(
  "{\"items\":[{\"item\":\"garp\",\"ranks\":[1,1,1]},{\"item\":\"afriat\",\"withheld\":2},{\"above\":[],\"at_ranks\":[1,1,1],\"below\":[1,1,1],",
  "\"item\":\"efficiency\",\"level\":\"1\"},{\"item\":\"homothetic\",", homothetic, "},{\"item\":\"quasilinear\",\"values\":[\"0\",\"0\",\"0\"]}],",
  "\"kind\":\"table\",\"version\":1}\n"
)
own <- certificate("\"withheld\":[2,3,1]")
wide <- certificate("\"values\":[\"1\",\"7330081712811/8796093022208\",\"21990241643181/35184372088832\"]")
bound <- function(value, x, y) sprintf("{\"den\":\"1\",\"value\":\"%s\",\"x\":[\"%s\"],\"y\":[[1,\"%s\"]]}", value, x, y)
held <- "{\"withheld\":\"4\"}"
demand <- function(low, high) paste0(
  "{\"items\":[{\"item\":\"garp\",\"ranks\":[1,1]},{\"below\":[1],\"expenditure\":\"6\",\"goods\":[{\"lower\":", low, ",\"upper\":", bound("2", 1, 1), "},{\"lower\":",
  bound("1", 1, 1), ",\"upper\":", high, "}],\"inner\":{\"den\":\"1\",\"num\":[\"1\",\"2\"]},\"item\":\"demand\",\"prices\":[\"2\",\"2\"],\"strict\":[]}],",
  "\"kind\":\"table\",\"version\":1}\n"
)
welfare <- function(low) paste0(
  "{\"items\":[{\"item\":\"garp\",\"ranks\":[1,1]},{\"at\":1,\"item\":\"welfare\",\"lower\":", bound("4", 1, 1), ",\"observation\":1,\"prices\":[\"2\",\"2\"],",
  "\"upper\":\"6\"},{\"at\":2,\"item\":\"welfare\",\"lower\":", low, ",\"observation\":2,\"prices\":[\"2\",\"2\"],\"upper\":\"6\"}],\"kind\":\"table\",\"version\":1}\n"
)
cost <- function(lower) paste0("technology records 2 inputs 2 places 0 0\ncost holds\nprofit holds\nbounds prices 1 1 output 3 lower ", lower)
trial <- function(word) paste0("trial 7 rows 3 goods 2\ngarp holds\nefficiency 1 attained yes\nhomothetic ", word, "\nquasilinear violated\n")

# Budgets in pairs, and the choices from them, those of the first pair made so many times. On each pair the choices (2, 1) and (0, 2)
# of the one budget, (1, 2) and (2, 0) of the other are patches: the first of each lies above the other budget, the second below it,
# and no type has both that lie below. All that a later pair buys costs more on an earlier one than its income, and nothing of an
# earlier pair costs as much as the income of a later one, so a type is rational where it is on each pair. Types of one mass on each
# pair can be put together; so the greatest share is the least of those of the pairs: 3/4 where 1, 3, 2 and 2 of 4 choose, and 1 where
# 3, 1, 3 and 1 do.
pairs_of_budgets <- function(count, first = c(1, 3, 2, 2)) {
  at <- rep(seq_len(count) - 1, each = 2)
  pair <- rep(seq_len(count) - 1, each = 4)
  list(
    budgets = data.frame(p_x = rep(1:2, count), p_y = rep(2:1, count), w = 4 * 3^at),
    choices = data.frame(budget = 2 * pair + c(1, 1, 2, 2), q_x = c(2, 0, 1, 2), q_y = c(1, 2, 2, 0), n = c(first, rep(c(3, 1, 3, 1), count - 1)))
  )
}

# Writes programs that print a text for each command, in a folder; the second where there are texts for it. With a refusal the first
# tells that alone, and ends with status 4.
stand_ins <- function(own, wide = NULL, ends = 0, refusal = NULL) {
  folder <- file.path(tempfile("stand-ins "), "b in")
  dir.create(folder, recursive = TRUE)
  for (name in c("rp", if (!is.null(wide)) "rp-wide")) {
    says <- if (name == "rp") own else wide
    for (command in names(says)) cat(says[[command]], file = file.path(folder, paste0(name, ".", command)))
    path <- file.path(folder, name)
    ending <- c("cat \"$0.$1\"", paste("exit", if (name == "rp") 0 else ends))
    if (name == "rp" && !is.null(refusal)) ending <- c(paste0("echo '", refusal, "' >&2"), "exit 4")
    writeLines(c("#!/bin/sh", "echo \"$1\" >>\"$0.asked\"", ending), path)
    Sys.chmod(path, "755")
  }
  file.path(folder, "rp")
}
if (.Platform$OS.type != "windows") {
  kept <- Sys.getenv("RP_WIDE")
  Sys.unsetenv("RP_WIDE")
  exe <- stand_ins(
    list(certify = own, demand = demand(held, held), welfare = welfare(held), cost = cost("withheld 7 upper none\n"), trial = trial("withheld")),
    list(
      certify = wide, demand = demand(bound("1", 1, 1), held), welfare = welfare(bound("4", 1, 1)),
      cost = cost("10/3 upper none\nlower x 8 2 y 1:1 2:1 over 3\n"), trial = trial("holds")
    )
  )
  v <- rp_test(p, q, exe = exe)
  stopifnot(v$homothetic, identical(v$wide, "homothetic"), !"homothetic" %in% names(v$reasons), identical(v$certificate, wide))
  stopifnot(any(grepl("^homothetic holds \\(by rp-wide; rp itself withholds it\\)$", capture.output(print(v)))), as.data.frame(v)$wide == "homothetic")
  v <- rp_test(p, q, exe = exe, wide = FALSE)
  stopifnot(is.na(v$homothetic), !length(v$wide), identical(v$certificate, own), grepl("leave wide = FALSE out", v$reasons[["homothetic"]]))
  caught(rp_test(p, q, exe = exe, wide = NA), "rp_bad_data")
  d <- rp_demand(years, new = c(2, 2), m = 6, exe = exe)
  stopifnot(identical(d$bounds$wide, c("lower", "")), identical(texts(d$bounds$lower), c("1", "1")), is.na(texts(d$bounds$upper)[2]))
  stopifnot(grepl("found no evidence either", d$bounds$reason[2]), any(grepl("by rp-wide, since rp itself", capture.output(print(d)))))
  d <- rp_demand(years, new = c(2, 2), m = 6, exe = exe, wide = FALSE)
  stopifnot(identical(d$bounds$wide, c("", "")), is.na(texts(d$bounds$lower)[1]), grepl("wide = FALSE", d$bounds$reason[1]))
  w <- rp_welfare(years, new = c(2, 2), exe = exe)
  stopifnot(identical(w$bounds$wide, c(FALSE, TRUE)), identical(texts(w$bounds$lower), c("4", "4")), identical(as.data.frame(w)$wide, c(FALSE, TRUE)))
  firm <- data.frame(y = 1:2, p = 5:4, w_a = 1:2, w_b = 2:1, x_a = c(2, 2), x_b = 1:2)
  made <- rp_cost(firm, data.frame(w_a = 1, w_b = 1, y = 3), exe = exe)
  stopifnot(texts(made$bounds$lower) == "10/3", made$bounds$wide)
  made <- rp_cost(firm, data.frame(w_a = 1, w_b = 1, y = 3), exe = exe, wide = FALSE)
  stopifnot(is.na(texts(made$bounds$lower)), !made$bounds$wide, grepl("step 7; rp-wide may give it", made$bounds$reason))
  stopifnot(any(grepl("^homothetic holds .by rp-wide", capture.output(print(rp_trial(7, 3, 2, exe = exe))))))
  stopifnot(rp_trial(7, 3, 2, exe = exe)$homothetic, rp_trial(7, 3, 2, exe = exe)$wide == "homothetic", is.na(rp_trial(7, 3, 2, exe = exe, wide = FALSE)$homothetic))

  # where nothing is withheld it is not asked; where it is not there, or fails, that is told
  exe <- stand_ins(list(certify = wide), list(certify = ""))
  stopifnot(rp_test(p, q, exe = exe)$homothetic, !length(rp_test(p, q, exe = exe)$wide), !file.exists(paste0(exe, "-wide.asked")))
  exe <- stand_ins(list(certify = own))
  stopifnot(is.null(revealed:::wide_engine(list(program = exe))), grepl("neither beside the program", rp_test(p, q, exe = exe)$reasons[["homothetic"]]))
  other <- stand_ins(list(certify = wide))
  Sys.setenv(RP_WIDE = other)
  stopifnot(rp_test(p, q, exe = exe)$homothetic)
  Sys.setenv(RP_WIDE = "/nowhere/rp-wide")
  caught(rp_test(p, q, exe = exe), "rp_no_program")
  Sys.unsetenv("RP_WIDE")
  exe <- stand_ins(list(certify = own), list(certify = ""), ends = 9)
  stopifnot(caught(rp_test(p, q, exe = exe), "rp_failed")$status == 9)

  # choices that are refused
  few <- pairs_of_budgets(1)
  ended <- function(rest) paste0("{\"items\":[{", rest, "}],\"kind\":\"random\",\"version\":1}\n")
  violated <- ended("\"den\":\"1\",\"item\":\"random\",\"parts\":[[[1,4],\"1\"],[[2,3],\"2\"]],\"total\":\"4\",\"weights\":[\"1\",\"0\",\"1\",\"0\"]")
  said <- list(
    random = violated, checkrandom = "accepted items 1 withheld 0\n", patches = "budgets 2 patches 1 total 4\npatch 1 budget 1 units 4 sides on above\n"
  )
  for (fault in c("TooManyTypes", "TooManyCombinations", "TooManyPatches budget 2")) {
    exe <- stand_ins(list(), said, refusal = paste("rp:", fault))
    r <- rp_random(few$budgets, few$choices, exe = exe)
    stopifnot(identical(c(r$rational, r$wide), c(FALSE, TRUE)), texts(r$share) == "3/4")
    stopifnot(capture.output(print(r))[1] == "random violated share 3/4 (by rp-wide; rp itself refuses these choices)")
    checked <- rp_check(r, r, exe = exe)
    stopifnot(checked$accepted, checked$wide, rp_checkrandom(few$budgets, few$choices, r, exe = exe)$wide)
    stopifnot(identical(as.data.frame(rp_patches(few$budgets, few$choices, exe = exe))$sides, "on above"))
    for (call in list(
      function() rp_random(few$budgets, few$choices, exe = exe, wide = FALSE), function() rp_patches(few$budgets, few$choices, exe = exe, wide = FALSE),
      function() rp_check(r, r, exe = exe, wide = FALSE)
    )) {
      wrong <- caught(call(), "rp_refused")
      stopifnot(wrong$fault == sub(" .*", "", fault), grepl("rp-wide", wrong$hint))
    }
    caught(rp_random(few$budgets, few$choices, exe = exe, wide = NA), "rp_bad_data")
  }
  caught(rp_random(few$budgets, few$choices, exe = stand_ins(list(), refusal = "rp: TooManyTypes")), "rp_refused")
  exe <- stand_ins(list(), list(random = ended("\"item\":\"random\",\"total\":\"4\",\"withheld\":\"68719476736\"")), refusal = "rp: TooManyTypes")
  r <- rp_random(few$budgets, few$choices, exe = exe)
  stopifnot(is.na(r$rational), grepl("68719476736 steps", r$reason), nrow(as.data.frame(r)) == 0)
  exe <- stand_ins(list(), said, refusal = "rp: NeedUnit budget 2")
  caught(rp_random(few$budgets, few$choices, exe = exe), "rp_refused")
  exe_held <- stand_ins(list(random = violated), said)
  stopifnot(!rp_random(few$budgets, few$choices, exe = exe_held)$wide, !file.exists(paste0(c(exe, exe_held), "-wide.asked")))
  stopifnot(revealed:::wide_places("/a/crates/rp/out/rp", windows = FALSE)[2] == "/a/crates/rp_wide/out/rp_wide")
  if (nzchar(kept)) Sys.setenv(RP_WIDE = kept)
}

# ---- by what is here
need_program()
if (is.null(revealed:::wide_engine(revealed:::engine_of()))) {
  cat("the wider edition is not here, so its answers are left out\n")
  quit("no", 0)
}
v <- rp_test(p, q)
stopifnot(v$homothetic, identical(v$wide, "homothetic"), rp_check(v, v)$accepted, is.na(rp_test(p, q, wide = FALSE)$homothetic))
stopifnot(identical(texts(v$evidence$homothetic$values), c("1", "7330081712811/8796093022208", "21990241643181/35184372088832")))

# A type takes a look at a patch of each of sixteen budgets, so fifteen steps find none. Where rp lists the types, no search is made.
eight <- pairs_of_budgets(8, c(1, 3, 2, 2))
held <- rp_random(eight$budgets, eight$choices, steps = 15)
stopifnot(is.na(held$rational), held$wide, grepl(" 15 steps", held$reason))
found <- rp_random(eight$budgets, eight$choices, steps = 1e6)
stopifnot(!found$rational, found$wide, texts(found$share) == "3/4")
one <- pairs_of_budgets(1, c(1, 3, 2, 2))
listed <- rp_random(one$budgets, one$choices, steps = 1)
stopifnot(!listed$rational, !listed$wide, texts(listed$share) == "3/4")
for (steps in list(0, 2^35 + 1, 1.5, TRUE)) caught(rp_random(one$budgets, one$choices, steps = steps), "rp_bad_data")
caught(rp_random(one$budgets, one$choices, steps = 7, wide = FALSE), "rp_bad_data")

for (count in c(8, 11, 13)) {
  for (share in c("3/4", "1")) {
    own <- pairs_of_budgets(count, if (share == "1") c(3, 1, 3, 1) else c(1, 3, 2, 2))
    wrong <- caught(rp_random(own$budgets, own$choices, wide = FALSE), "rp_refused")
    stopifnot(wrong$fault == c("TooManyTypes", "TooManyCombinations", "TooManyPatches")[match(count, c(8, 11, 13))])
    r <- rp_random(own$budgets, own$choices)
    stopifnot(identical(c(r$rational, r$wide), c(share == "1", TRUE)), texts(r$share) == share)
    stopifnot(rp_check(r, r)$accepted)
    made <- as.data.frame(r, what = "patches")
    if (share == "1") stopifnot(identical(texts(made$share_exact), rep(c("3/4", "1/4"), 2 * count)))
    sides <- rp_patches(own$budgets, own$choices)$sides
    stopifnot(nrow(sides) == 4 * count, identical(unname(sides[2:3, 1:2]), rbind(c("on", "below"), c("above", "on"))))
  }
}
