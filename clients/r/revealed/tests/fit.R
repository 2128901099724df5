# Goodness of fit: by stand-ins that write what they are told, whose numbers were computed by hand, and by the programs that are here.
library(revealed)
source(system.file("testing", "opening.R", package = "revealed"))
texts <- as.character
near <- function(x, y) all(abs(x - y) < 1e-12)

# Two choices that contradict each other: the bundles cost 5 and 4 at the prices of the first, and 4 and 5 at those of the second.
two <- data.frame(p_a = 1:2, p_b = 2:1, q_a = 1:2, q_b = 2:1)
# Levels of 4/5 and 1 are enough: their mean loss is 1/10, and that of squares 1/50. In 2^40ths, a fifth is 219902325555.2.
of_two <- c(
  "observations 2 goods 2 places 0 0", "violations garp 2 wgarp 2 warp 2 sarp 2 of 2", "violating observations 2 of 2", "efficiency 4/5 attained yes",
  "below 1 1", "above 1 2 1", "at ranks 2 2", "kept 1 of 2", "observations 1", "ranks 0", "groups over 1", "pairs 1 2 weight 1",
  "levels mean 219902325555/2199023255552 to 1/10 exact", "at 4/5 1", "ranks 0 1", "cycles over 1", "cycle 1 2 1 weight 219902325555",
  "levels squares 43980465111/2199023255552 to 1/50 exact", "at 4/5 1", "ranks 0 1", "cycles over 1", "cycle 1 2 1 weight 43980465111",
  "steps 1/10 to 1/10 exact", "removed 1 to 2", "ranks 0 1", "cycles over 1", "cycle 1 2 1 weight 1", "pump 1/5", "cycle 1 2 1", "values 0 0",
  "quasilinear level 4/5", "cycle 1 2 1", "values 0 0", "homothetic level 219902325555/274877906944 to 879609302221/1099511627776", "cycle 1 2 1", "values 1 1"
)
json <- function(kept) paste0("{\"items\":[{\"den\":\"1\",\"groups\":[],\"item\":\"kept\",\"kept\":[", kept, "],\"most\":\"1\",\"ranks\":[0]}],\"kind\":\"fit\",\"version\":1}")
# Four choices, of which two or three are kept. Nothing of the bounds meets, and one level was not found.
four <- data.frame(p_a = c(1, 2, 1, 2), p_b = c(2, 1, 2, 1), q_a = 1:4, q_b = c(2, 1, 2, 1), obs = c("w", "x", "y", "z"))
of_four <- c(
  "observations 4 goods 2 places 0 0", "violations garp 3 wgarp 2 warp 1 sarp 4 of 12", "violating observations 3 of 4", "efficiency 7/8 attained no",
  "below 1 1 1 1", "above 1 2 1", "at cycle 1 2 1", "kept 2 to 3 of 4", "observations 1 4", "ranks 0 0", "groups over 1", "pairs 1 2 weight 1",
  "levels mean 1/32 to 1/16", "at 3/4 1 1 1", "ranks 0 1 2 3", "cycles over 1", "levels squares 1/128 to 1/64", "at 1 1 3/4 1", "ranks 0 1 2 3", "cycles over 1",
  "steps 1/40 to 1/20", "removed 1 to 2", "removed 3 to 1 4", "ranks 0 1 2 3", "cycles over 1", "pump 1/9", "cycle 1 2 1", "values 0 0 0 0",
  "homothetic level 3/4 to 7/8", "cycle 1 2 1", "values 1 1 1 1"
)

# Writes a program that prints a report, a certificate, or what a check says; for one named table it tells an error.
stand_in <- function(report, certificate = json(1), check = "accepted items 9") {
  folder <- file.path(tempfile("stand-ins "), "b in")
  dir.create(folder, recursive = TRUE)
  writeLines("", file.path(folder, "rp"))
  for (it in list(list("report", report), list("certificate", certificate), list("check", check))) writeLines(it[[2]], file.path(folder, it[[1]]))
  writeLines(c(
    "#!/bin/sh", "case \"$1 $3\" in", "'fit ') file=report;;", "'fit --json') file=certificate;;", "'checkfit certificate.json') file=check;;", "*) exit 2;;", "esac",
    "cat \"$(dirname \"$0\")/$file\""
  ), file.path(folder, "rp-wide"))
  Sys.chmod(file.path(folder, c("rp", "rp-wide")), "755")
  file.path(folder, "rp")
}
if (.Platform$OS.type != "windows") {
  kept <- Sys.getenv("RP_WIDE")
  Sys.unsetenv("RP_WIDE")
  exe <- stand_in(of_two)
  f <- rp_fit(two, exe = exe)
  stopifnot(inherits(f, "rp_fit"), !f$garp, f$observations == 2, f$pairs == 2, identical(unname(f$violations), rep(2L, 5)))
  stopifnot(texts(f$efficiency) == "4/5", f$ccei == 0.8, f$attained, f$kept == 1, f$kept_most == 1, identical(f$drop, 2L))
  stopifnot(f$levels_low <= revealed:::exact("1/10"), texts(f$levels_high) == "1/10", identical(texts(f$levels), c("4/5", "1")))
  stopifnot(near(as.double(f$squares_low), 0.02), texts(f$squares_high) == "1/50", texts(f$steps_low) == "1/10", texts(f$steps_high) == "1/10")
  stopifnot(identical(f$removed$observation, 1L), identical(f$removed$over, 2L), texts(f$pump) == "1/5", texts(f$quasilinear_level) == "4/5")
  stopifnot(all(f$exact), identical(names(f$exact), c("kept", "levels", "squares", "steps", "homothetic")), !length(f$reasons))
  stopifnot(identical(f$certificate, paste0(json(1), "\n")), rp_check(f, f, exe = exe)$accepted, rp_check(two, f$certificate, exe = exe)$items == 9)
  # numbers in columns, and the exact ones in another frame
  d <- as.data.frame(f)
  stopifnot(nrow(d) == 1, near(c(d$ccei, d$hm_low, d$hm_high, d$levels_low, d$levels_high, d$steps_high, d$pump), c(0.8, 0.5, 0.5, 0.1, 0.1, 0.1, 0.2)))
  stopifnot(d$garp_share == 1, d$kept == 1, d$dropped == 1, d$violating == 2, d$open == "", d$reasons == "", d$levels_low < 0.1, d$levels_high == 0.1)
  stopifnot(vapply(d[c("ccei", "hm_low", "levels_high", "squares_high", "steps_high", "pump", "quasilinear_level", "homothetic_low")], is.double, TRUE))
  e <- as.data.frame(f, what = "exact")
  stopifnot(identical(names(e), names(d)), inherits(e$hm_low, "rp_exact"), texts(e$hm_low) == "1/2", texts(e$steps_high) == "1/10", texts(e$garp_share) == "1")
  o <- as.data.frame(f, what = "observations")
  stopifnot(identical(o$observation, 1:2), identical(o$kept, c(TRUE, FALSE)), identical(o$level, c(0.8, 1)), identical(texts(o$squares_level_exact), c("4/5", "1")))
  shown <- capture.output(print(f))
  stopifnot(shown[2] == "GARP violated by 2 of 2 pairs, and 2 of 2 observations; pairs of WGARP 2, WARP 2, SARP 2")
  for (line in c("^CCEI +0[.]800 ", "^HM +0[.]500 .* kept 1 of 2; without 2$", "^AVI +0[.]100 ", "^AVI squared +0[.]020 .*without a root$", "^MCI +0[.]100 ", "^MPI +0[.]200 .*maximum$")) {
    stopifnot(sum(grepl(line, shown)) == 1)
  }
  stopifnot(identical(rownames(summary(f)$table), c("CCEI", "HM", "AVI", "AVI squared", "MCI", "MPI", "quasilinear", "homothetic")))

  # bounds that do not meet are both told, and a level that was not found is missing
  exe <- stand_in(of_four, json("1,4"))
  f <- rp_fit(four, exe = exe)
  stopifnot(identical(f$kept, 2L), identical(f$kept_most, 3L), identical(f$drop, c("x", "y")), identical(unname(f$exact), rep(FALSE, 5)), is.na(texts(f$quasilinear_level)))
  stopifnot(names(f$reasons) == "quasilinear_level", identical(f$removed$over, c("x", "w", "z")), identical(f$removed$observation, c("w", "y", "y")))
  d <- as.data.frame(f)
  stopifnot(c(d$hm_low, d$hm_high, d$levels_low, d$levels_high, d$steps_low) == c(0.5, 0.75, 1 / 32, 1 / 16, d$steps_low), d$steps_low <= 1 / 40, is.na(d$quasilinear_level))
  stopifnot(d$open == "kept levels squares steps homothetic", grepl("quasilinear_level: ", d$reasons), d$violating == 3, d$sarp_pairs == 4)
  shown <- capture.output(print(f))
  for (line in c("^HM +0[.]500 to 0[.]750 .* kept 2 to 3 of 4; without x y$", "^AVI +0[.]031 to 0[.]062 ", "^MCI +0[.]025 to 0[.]050 ", "^quasilinear +not available ")) {
    stopifnot(sum(grepl(line, shown)) == 1)
  }
  # of intercepts exchanged, what adds money of different rows is not told
  lines <- with(two, data.frame(i_a = p_b, i_b = p_a, q_a, q_b))
  f <- rp_fit(transform(lines, i_a = i_a * 9, i_b = i_b * 9), exe = stand_in(of_two))
  stopifnot(is.na(texts(f$steps_high)), is.na(texts(f$pump)), is.na(texts(f$quasilinear_level)), texts(f$levels[1]) == "4/5", is.na(f$exact[["steps"]]), nrow(f$removed) == 0)
  stopifnot(names(f$reasons) == "steps, pump, quasilinear_level", grepl("money of its own", f$reasons), any(grepl("^MCI +not available", capture.output(print(f)))))

  # what is no answer, and a program without the command
  for (wrong in list(of_two[-8], of_two[-1], sub("^kept 1", "kept 2", of_two), sub("of 2$", "of 3", of_two), sub("at 4/5 1", "at 4/5", of_two), rev(of_two), "", of_two[1:20])) {
    caught(rp_fit(two, exe = stand_in(wrong)), "rp_failed")
  }
  for (wrong in list(json(2), "{}", "")) caught(rp_fit(two, exe = stand_in(of_two, wrong)), "rp_failed")
  caught(rp_check(two, json(1), exe = stand_in(of_two, check = "accepted items 1 withheld 0 ")), "rp_failed")
  exe <- stand_in(of_two)
  writeLines(c("#!/bin/sh", "echo usage >&2", "exit 2"), file.path(dirname(exe), "rp-wide"))
  stopifnot(grepl("no command fit", conditionMessage(caught(rp_fit(two, exe = exe), "rp_no_program"))))
  unlink(file.path(dirname(exe), "rp-wide"))
  stopifnot(grepl("computed by rp-wide", conditionMessage(caught(rp_fit(two, exe = exe), "rp_no_program"))))
  if (nzchar(kept)) Sys.setenv(RP_WIDE = kept)
}

# ---- by what is here
need_program()
if (inherits(tryCatch(revealed:::fit_engine(), error = identity), "error")) {
  cat("rp-wide with the command fit is not here, so its answers are left out\n")
  quit("no", 0)
}
f <- rp_fit(two)
stopifnot(texts(f$efficiency) == "4/5", f$kept == 1, f$kept_most == 1, near(as.double(f$levels_high), 0.1), near(as.double(f$squares_low), 0.02), texts(f$steps_high) == "1/10")
stopifnot(texts(f$pump) == "1/5", texts(f$quasilinear_level) == "4/5", near(as.double(f$homothetic_low), 0.8), all(f$exact), setequal(texts(f$levels), c("4/5", "1")))
stopifnot(identical(f$violations, c(garp_pairs = 2L, wgarp_pairs = 2L, warp_pairs = 2L, sarp_pairs = 2L, observations = 2L)), identical(texts(rp_fit(two[1:2], two[3:4])$pump), "1/5"))
checked <- rp_check(f, f)
stopifnot(checked$accepted, checked$items == 9, length(checked$says) == 9, any(grepl("kept 1: proved$", checked$says)), any(grepl("pump 1/5: proved$", checked$says)))
# the certificate of these choices is not that of others, and no part of it may be another
stopifnot(!rp_check(transform(two, q_a = 2:1, q_b = 1:2), f)$accepted, !rp_check(two, sub("\"garp\":\"2\"", "\"garp\":\"1\"", f$certificate, fixed = TRUE))$accepted)
# Three choices contradict each other only together: costs 2, 1, 3; 3, 2, 1; 1, 3, 2. A step costs 1 of 6, and one level is 1/2.
three <- data.frame(p_a = c(2, 3, 1), q_a = c(1, 0, 0), p_b = c(1, 2, 3), q_b = c(0, 1, 0), p_c = c(3, 1, 2), q_c = c(0, 0, 1))
f <- rp_fit(three)
stopifnot(identical(unname(f$violations), c(3L, 0L, 0L, 3L, 3L)), f$pairs == 6, f$kept == 2, f$kept_most == 2, length(f$drop) == 1, near(as.double(f$levels_low), 1 / 6))
stopifnot(texts(f$steps_high) == "1/6", nrow(f$removed) == 1, sort(texts(f$levels)) == c("1", "1", "1/2"), texts(f$pump) == "1/2", texts(f$homothetic_low) == "1/2")
# nothing violates; one observation alone
f <- rp_fit(transform(two, q_a = 2:1, q_b = 1:2))
stopifnot(f$garp, f$violations == 0, f$kept == 2, !length(f$drop), texts(f$levels_high) == "0", texts(f$steps_high) == "0", texts(f$quasilinear_level) == "1", nrow(f$removed) == 0)
stopifnot(texts(f$homothetic_high) == "1", any(capture.output(print(f)) == "GARP holds, and so does SARP"), any(grepl("^HM +1[.]000 ", capture.output(print(f)))))
f <- rp_fit(two[1, ])
d <- as.data.frame(f)
stopifnot(f$pairs == 0, is.na(d$garp_share), d$hm_low == 1, d$levels_high == 0, d$open == "", rp_check(f, f)$accepted)
# levels are refused, and a price of 0 in its place
for (call in list(function() rp_fit(cbind(two, e = 900)), function() rp_fit(cbind(s = 1, two, e = 900), by = "s"))) {
  stopifnot(caught(call(), "rp_refused")$fault == "OwnLevels")
}
wrong <- caught(rp_fit(transform(two, p_b = c(2, 0))), "rp_refused")
stopifnot(wrong$fault == "ZeroPrice", wrong$label == 2, wrong$name == "p_b")
caught(rp_fit(two, certificates = "folder"), "rp_bad_data")
caught(rp_fit(two[1:2], two[3:4], by = "s"), "rp_bad_data")

# By an order of the observations: what has to be dropped so that each strict preference goes down in it. The best order gives the index.
orders <- function(x) if (length(x) < 2) list(x) else do.call(c, lapply(x, function(it) lapply(orders(setdiff(x, it)), function(rest) c(it, rest))))
by_orders <- function(cost) {
  count <- nrow(cost)
  own <- diag(cost)
  strict <- cost < own
  each <- vapply(orders(seq_len(count)), function(order) {
    place <- match(seq_len(count), order)
    bad <- strict & outer(place, place, "<")
    lost <- vapply(seq_len(count), function(s) max(0, (own[s] - cost[s, ])[bad[s, ]]) / own[s], 0)
    c(mean(lost), mean(lost^2), sum((own - cost)[bad]) / sum(own))
  }, numeric(3))
  apply(each, 1, min)
}
holds <- function(weak, strict) {
  for (k in seq_len(nrow(weak))) weak <- weak | outer(weak[, k], weak[k, ], "&")
  !any(weak & t(strict))
}
set.seed(92)
for (at in 1:12) {
  p <- matrix(sample(1:5, 10, TRUE), 5)
  q <- matrix(sample(0:4, 10, TRUE), 5)
  q[rowSums(q) == 0, 1] <- 1
  cost <- p %*% t(q)
  weak <- cost <= diag(cost)
  strict <- cost < diag(cost)
  f <- rp_fit(p, q)
  best <- by_orders(cost)
  d <- as.data.frame(f)
  stopifnot(c(d$levels_low, d$squares_low, d$steps_low) <= best + 1e-12, c(d$levels_high, d$squares_high, d$steps_high) >= best - 1e-12)
  if (d$open == "") stopifnot(near(c(d$levels_low, d$squares_low, d$steps_low), best))
  sets <- lapply(1:31, function(it) which(bitwAnd(it, 2^(0:4)) > 0))
  kept <- max(vapply(sets, function(it) if (holds(weak[it, it, drop = FALSE], strict[it, it, drop = FALSE])) length(it) else 0L, 0L))
  stopifnot(f$kept <= kept, f$kept_most >= kept, !f$exact[["kept"]] || f$kept == kept, f$garp == holds(weak, strict), rp_check(f, f)$accepted)
  reach <- weak
  for (k in 1:5) reach <- reach | outer(reach[, k], reach[k, ], "&")
  pairs <- reach & t(strict)
  stopifnot(f$violations[["garp_pairs"]] == sum(pairs), f$violations[["observations"]] == sum(rowSums(pairs) + colSums(pairs) > 0))
}

# ---- panels
long <- data.frame(
  subject = c("a", "a", "b", "b", "b", "c", "d", "d"), p_x = c(1, 2, 1, 2, 1, 0, 1, 1), p_y = c(2, 1, 2, 1, 1, 1, 1, 1), q_x = c(1, 2, 2, 1, 1, 1, 1, 1), q_y = c(2, 1, 1, 2, 1, 1, 1, 1),
  note = "x"
)
found <- rp_fit(long, by = "subject", workers = 2)
stopifnot(is.data.frame(found), identical(found$subject, c("a", "b", "c", "d")), identical(found$kept[c(1, 4)], c(1L, 2L)), identical(found$fault, c("", "", "ZeroPrice", "")))
stopifnot(identical(found$record, c(NA, NA, 6L, NA)), identical(found$column, c(NA, NA, 2L, NA)), is.na(found$ccei[3]), found$ccei[1] == 0.8, near(found$levels_high[1], 0.1))
stopifnot(startsWith(conditionMessage(found$refusals[[3]]), "subject 'c', row 6, column 'p_x', value 0: "), is.null(found$refusals[[1]]), is.null(found$fits[[3]]))
one <- rp_fit(long[1:2, -c(1, 6)])
stopifnot(identical(texts(found$fits[[1]]$levels), texts(one$levels)), identical(found$fits[[1]]$report, one$report), identical(as.data.frame(found[1, -1])$hm_low, 0.5))
stopifnot(inherits(as.data.frame(found, what = "exact")$steps_high, "rp_exact"), texts(as.data.frame(found, what = "exact")$steps_high)[1] == "1/10")
each <- as.data.frame(found, what = "observations")
stopifnot(identical(each$subject, rep(c("a", "b", "d"), c(2, 3, 2))), sum(!each$kept) == sum(found$dropped, na.rm = TRUE), is.numeric(coef(lm(level ~ kept, each))))
shown <- capture.output(print(found))
stopifnot(startsWith(shown[1], "panel of 4 subjects by 'subject', 3 with indices"), any(shown == "1 with an error: ZeroPrice, the first 'c'"), any(grepl("HM [0-9.]+, AVI [0-9.]+, MCI [0-9.]+$", shown)))
stopifnot(identical(rownames(summary(found)$table), c("CCEI", "HM", "AVI", "MCI")), identical(found, rp_fit(long, by = "subject", workers = 1)))
stopifnot(sum(hist(found$levels_high, plot = FALSE)$counts) == 3, identical(class(found[found$garp %in% TRUE, ]), "data.frame"))
every <- caught(rp_fit(transform(long, p_x = 0), by = "subject", workers = 1), "rp_all_refused")
stopifnot(startsWith(conditionMessage(every), "all 4 subjects have one error, the first, 'a': "))
twice <- rp_fit(cbind(long, obs = c(1, 1, 1:3, 1, 1, 2)), by = "subject", workers = 1)
stopifnot(identical(twice$fault, c("Pooled", "", "ZeroPrice", "")), grepl("both called 1", conditionMessage(twice$refusals[[1]])))
unnamed <- rp_fit(transform(long, subject = ifelse(subject == "d", "", subject)), by = "subject", workers = 1)
stopifnot(identical(unnamed$fault, c("", "", "ZeroPrice", "NoId", "NoId")), identical(unnamed$record[4:5], 7:8))
caught(rp_fit(transform(long, kept = subject), by = "kept"), "rp_bad_data")
caught(rp_fit(long, by = "family"), "rp_bad_data")
folder <- file.path(tempfile(), "archive")
rp_fit(long, by = "subject", workers = 2, certificates = folder)
listed <- utils::read.csv(file.path(folder, "units.csv"), colClasses = "character")
stopifnot(identical(listed$subject, c("a", "b", "d")), sort(dir(folder)) == sort(c("units.csv", paste0(listed$file, rep(c(".csv", ".json"), each = 3)))))
for (it in listed$file) stopifnot(rp_check(file.path(folder, paste0(it, ".csv")), file.path(folder, paste0(it, ".json")))$accepted)

# ---- the table and the figure of a paper
if (!inherits(tryCatch(revealed:::panel_engine(), error = identity), "error")) {
  people <- rp_panel(long, "subject", workers = 2)
  lines <- texts(rp_panel_table(people, fit = TRUE))
  # of a, b and d: HM 1/2, 1 and 1 with the mean 5/6
  stopifnot(sum(grepl("^HM [(]share kept[)], mean +0[.]833$", lines)) == 1, sum(grepl("^HM [(]share kept[)], minimum +0[.]500$", lines)) == 1)
  stopifnot(sum(grepl("^AVI [(]mean of 1 - e[)], mean +0[.]033$", lines)) == 1, sum(grepl("^MCI, maximum +0[.]100$", lines)) == 1, !any(grepl("do not meet", lines)))
  stopifnot(!any(grepl("^HM", texts(rp_panel_table(people)))), any(grepl("^HM", texts(rp_panel_table(people, fit = TRUE, format = "latex")))))
  lines <- texts(rp_panel_table(people, what = "units", fit = TRUE))
  stopifnot(grepl(" HM +AVI +MCI ", lines[1]), grepl("^a +violated .* 0[.]500 +0[.]100 +0[.]100 ", lines[3]))
  random <- rp_random_panel(people, times = 2, seed = 1, workers = 2)
  lines <- texts(rp_panel_table(people, random, fit = TRUE))
  stopifnot(sum(grepl("^HM [(]share kept[)], mean +0[.]833 +[01][.][0-9]{3}$", lines)) == 1)
  caught(rp_panel_table(people, fit = NA), "rp_bad_data")
  caught(rp_panel_table(rp_panel(long, "subject", ask = "pump", workers = 1), fit = TRUE), "rp_bad_data")
  caught(rp_panel_table(rp_panel(long, "subject", levels = 900, workers = 1), fit = TRUE), "rp_refused")
  grDevices::pdf(NULL)
  plot(people, random, fit = TRUE)
  plot(people, fit = TRUE, type = "cumulative")
  stopifnot(identical(graphics::par("mfrow"), c(1L, 1L)))
  # bounds that do not meet are both told, of a unit and of all
  inner <- attr(people, "panel")
  inner$fits[[1]] <- revealed:::read_fit(revealed:::table_of(four), paste0(of_four, "\n", collapse = ""))
  lines <- texts(rp_panel_table(people, fit = TRUE))
  # HM from (1/2 + 1 + 1)/3 to (3/4 + 1 + 1)/3
  stopifnot(any(grepl("^HM [(]share kept[)], mean +0[.]833 to 0[.]917$", lines)), any(grepl("^HM [(]share kept[)], bounds do not meet +1 of 3$", lines)))
  stopifnot(any(grepl("^HM [(]share kept[)], standard deviation +not known$", lines)), grepl(" 0[.]500 to 0[.]750 ", texts(rp_panel_table(people, what = "units", fit = TRUE))[3]))
  plot(people, random, fit = TRUE)
  caught(plot(rp_panel(long, "subject", ask = "pump", workers = 1), fit = TRUE), "rp_bad_data")
  grDevices::dev.off()
  lines <- data.frame(s = c(1, 1), i_x = c("87.13", "45.50"), i_y = c("33.61", "62.04"), q_x = c("43.2", "20.1"), q_y = c("16.95", "34.63"))
  of_lines <- texts(rp_panel_table(rp_panel(lines, "s", workers = 1), fit = TRUE))
  stopifnot(any(grepl("^MCI is absent: intercepts exchanged", of_lines)), any(grepl("^AVI", of_lines)), !any(grepl("^MCI,", of_lines)))
}
