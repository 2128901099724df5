# Each command through the program that RP_EXEC names, or that is on the path. Expected values are those of the worked
# examples of the repository's documents, or were computed by hand.
library(revealed)
source(system.file("testing", "opening.R", package = "revealed"))
need_program()
texts <- as.character
P <- rbind(c(1, 2), c(2, 1))
years <- data.frame(obs = 2024:2025, p_bread = c(1.25, 2.5), p_wine = c(2.5, 1.25), q_bread = 2:1, q_wine = 1:2)

# ---- verdicts
v <- rp_test(P, P)
stopifnot(identical(c(v$garp, v$afriat, v$homothetic, v$quasilinear), rep(FALSE, 4)), texts(v$efficiency) == "4/5", v$attained)
stopifnot(length(v$cycle) == 3, is.null(v$ranks), is.null(v$utility), is.null(v$reasons))
v <- rp_test(years)
stopifnot(v$garp, identical(v$ranks, c(`2024` = 1L, `2025` = 1L)), texts(v$utility) == "0", texts(v$lambda) == "1")
stopifnot(texts(v$evidence$homothetic$values) == "1", texts(v$evidence$quasilinear$values) == "0")
three <- rp_test(rbind(c(2, 1, 3), c(3, 2, 1), c(1, 3, 2)), diag(3))
stopifnot(!three$garp, length(three$cycle) == 4, texts(three$efficiency) == "1/2")
frame <- as.data.frame(v)
stopifnot(nrow(frame) == 1, frame$garp, frame$ccei == 1, inherits(frame$efficiency_exact, "rp_exact"), is.double(frame$efficiency))
stopifnot(identical(as.data.frame(v, what = "observations")$observation, 2024:2025))
stopifnot(any(grepl("garp holds", capture.output(print(v)))), any(grepl("2 observations", capture.output(print(summary(v))))))

# names of goods and of rows, whatever letters they have
goods <- c("bread and \"butter\", salted", "vin ros\u00e9", strrep("x", 70))
rows <- c("fr\u00fche Jahre", "late, 2025")
p <- matrix(c(1, 2, 2, 1, 3, 3), 2, dimnames = list(rows, goods))
q <- matrix(c(1, 2, 2, 1, 1, 1), 2, dimnames = list(rows, goods))
stopifnot(identical(rp_test(p, q[, 3:1])$certificate, rp_test(p, q)$certificate), setequal(rp_test(p, q)$cycle, rows))
stopifnot(identical(caught(rp_test(p, replace(q, 3, NA)), "rp_refused")$name, paste0("q_", goods[2])))
caught(rp_test(p, q[2:1, ]), "rp_bad_data")
colnames(q)[1] <- "cheese"
caught(rp_test(p, q), "rp_bad_data")
stopifnot(identical(rp_test(unname(p), q)$certificate, rp_test(p, unname(q))$certificate))

# ---- numbers
same <- list(
  matrix(c(1.5, 2, 2, 1.5), 2), matrix(c("1.5", "2", "+2.0", "15e-1"), 2), data.frame(c(1.5, 2), c(2, 1.5)),
  data.frame(factor(c("1.50", "2")), I(c(2, 1.5)))
)
if (requireNamespace("gmp", quietly = TRUE)) same <- c(same, list(gmp::as.bigq(matrix(c(3, 4, 4, 3), 2), 2)))
certificates <- vapply(same, function(p) rp_test(if (is.data.frame(p)) unname(as.matrix(p)) else p, P)$certificate, "")
stopifnot(length(unique(certificates)) == 1)
wrong <- caught(rp_test(rbind(c(3.18, 1), c(1, 1)), P, numbers = "exact"), "rp_refused")
stopifnot(wrong$fault == "TooManyDecimals", wrong$record == 1, wrong$column == 1)
stopifnot(grepl("decimals = c(6, NA)", conditionMessage(wrong), fixed = TRUE))
stopifnot(identical(rp_test(rbind(c(3.18, 1), c(1, 1)), P)$certificate, rp_test(rbind(c("3.18", 1), c(1, 1)), P)$certificate))
stopifnot(identical(rp_test(rbind(c(3.18, 1), c(1, 1)), P, digits = 2)$certificate, rp_test(rbind(c("3.18", 1), c(1, 1)), P)$certificate))
stopifnot(identical(rp_test(rbind(c(3.18, 1), c(1, 1)), P, digits = c(2, 0))$certificate, rp_test(rbind(c("3.18", 1), c(1, 1)), P)$certificate))
stopifnot(identical(rp_test(P, replace(P, 1, -0.0))$certificate, rp_test(P, replace(P, 1, 0))$certificate))
stopifnot(caught(rp_test(replace(P, 1, -0.0), P), "rp_refused")$fault == "ZeroPrice")
one <- function(text, digits) revealed:::number_texts(text, list(digits = digits))
stopifnot(identical(one(c(0.125, 0.375, 2.5, -0.001, 1e5, 1e-7, 123456.7), 2), c("0.12", "0.38", "2.50", "0.00", "100000.00", "0.00", "123456.70")))
stopifnot(identical(one(c("0.125", "0.375", "9.999", "0.1250000001", "1e5", "1e-7", "ten"), 2), c("0.12", "0.38", "10.00", "0.13", "100000", "0.00", "ten")))
stopifnot(identical(one(c(0.1, 0.5, 1e15, 2^-30, NA, Inf), NULL), c(
  "0.1000000000000000055511151231257827021181583404541015625", "0.5", "1000000000000000",
  "0.000000000931322574615478515625", "", "Inf"
)))
old <- options(OutDec = ",", scipen = -50)
stopifnot(identical(one(c(0.5, 1e5, 12L), NULL), c("0.5", "100000", "12")), rp_test(years)$garp)
options(old)
for (value in list(NA, NaN, -1.5, Inf, "NA", "1,5")) {
  x <- years
  x$q_wine <- c(1, value)
  wrong <- caught(rp_test(x), "rp_refused")
  stopifnot(wrong$fault == "BadNumber", wrong$record == 2, wrong$column == 4, wrong$label == 2025, wrong$name == "q_wine")
}
if (requireNamespace("gmp", quietly = TRUE)) {
  stopifnot(caught(rp_test(gmp::as.bigq(matrix(1, 1, 1), 3), matrix(1)), "rp_refused")$fault == "TooManyDecimals")
  stopifnot(identical(one(gmp::as.bigq(c(1, 1, -7, 10), c(3, 8, 2, 1)), 2), c("0.33", "0.12", "-3.5", "10")))
}

# ---- exact numbers that come back
set.seed(1)
whole <- revealed:::fraction
stopifnot(whole("0", "7") == "0", whole("-12", "8") == "-3/2", whole("21", "7") == "3")
if (requireNamespace("gmp", quietly = TRUE)) {
  for (turn in 1:300) {
    digits <- function(most) paste0(sample(9, 1), paste(sample(0:9, sample(0:most, 1), TRUE), collapse = ""))
    common <- digits(15)
    a <- texts(gmp::as.bigz(digits(25)) * gmp::as.bigz(common))
    b <- texts(gmp::as.bigz(digits(25)) * gmp::as.bigz(common))
    stopifnot(whole(a, b) == texts(gmp::as.bigq(gmp::as.bigz(a), gmp::as.bigz(b))))
    stopifnot(revealed:::digits_of(revealed:::product(revealed:::limbs(a), revealed:::limbs(b))) == texts(gmp::as.bigz(a) * gmp::as.bigz(b)))
    stopifnot(revealed:::over_ten(a, 6) == texts(gmp::as.bigq(a) / 1000000))
  }
  stopifnot(revealed:::exact("10") + revealed:::exact("9") == 19)
}
some <- revealed:::exact(c("10", "9", "-1/3", NA, "9"))
stopifnot(identical(order(some), c(3L, 2L, 5L, 1L, 4L)), identical(texts(sort(some)), c("-1/3", "9", "9", "10")))
stopifnot(some[1] > some[2], some[3] < 0, max(some[1:3]) == 10, texts(min(some[1:3])) == "-1/3", identical(some == 9, c(FALSE, TRUE, FALSE, NA, TRUE)))
stopifnot(revealed:::exact("1/2") == 0.5, revealed:::exact("4/5") != 0.8, mean(revealed:::exact(c("1/2", "1"))) == 0.75)
near <- revealed:::exact(c("9007199254740992/9007199254740993", "1", "9007199254740991/9007199254740992"))
stopifnot(identical(order(near), c(3L, 1L, 2L)))

# doubles beside: the nearest, but only that of 1 is 1, and only that of 0 is 0; of bounds, rounded down or up
nearest <- function(x) revealed:::nearest_double(revealed:::exact(x))
stopifnot(identical(nearest(c("1", "4/5", "0", NA, "-4/5", "1/3")), c(1, 0.8, 0, NA, -0.8, 1 / 3)))
stopifnot(identical(nearest(c("9007199254740992999/9007199254740993000", "1/1000000000000000000000")), c(1 - 2^-53, 1e-21)))
stopifnot(identical(nearest(c("12345678901234567890123/98765432109876543210", "20000000000000000/3")), c(124.99999886093749524, 20000000000000000 / 3)))
below <- revealed:::double_below
above <- revealed:::double_above
stopifnot(identical(below(revealed:::exact(c("1", "1/2", "0", NA))), c(1, 0.5, 0, NA)), below(near[1]) < 1, above(near[1]) == 1)
stopifnot(identical(below(revealed:::exact(c("-1/3", "1/3"))), c(-above(revealed:::exact("1/3")), below(revealed:::exact("1/3")))))
for (turn in 1:200) {
  num <- floor(runif(1, 1, 2^50))
  den <- floor(runif(1, 1, 2^50))
  for (up in c(FALSE, TRUE)) {
    stopifnot(identical(revealed:::short_double(num, den, up), revealed:::long_double(sprintf("%.0f", num), sprintf("%.0f", den), up)))
  }
}
stopifnot(all.equal(as.numeric(revealed:::exact(c("-1/4", "1208925819614629174706176"))), c(-0.25, 2^80)))

# ---- new budgets and prices, in the units of the data
d <- rp_demand(years, new = c(wine = 2, bread = 2), m = 6)
stopifnot(d$garp, texts(d$bounds$lower) == "1", texts(d$bounds$upper) == "2", identical(texts(d$bounds$inner), c("2", "1")))
stopifnot(identical(d$below[[1]], 2024:2025), length(d$strict[[1]]) == 0)
tenth <- years
tenth[4:5] <- list(c("0.2", "0.1"), c("0.1", "0.2"))
d <- rp_demand(tenth, new = data.frame(obs = "next", p_bread = "0.4", p_wine = "0.4", m = "0.12"))
stopifnot(texts(d$bounds$lower) == "1/10", texts(d$bounds$upper) == "1/5", d$bounds$budget == "next", nrow(as.data.frame(d)) == 2)
w <- rp_welfare(years, new = rbind(c(2, 2), c(2, 2)))
stopifnot(texts(w$bounds$lower) == "4", texts(w$bounds$upper) == "6", identical(w$bounds$at, rep(2024:2025, 2)))
w <- rp_welfare(tenth, new = matrix(c("0.2", "0.2"), 1))
stopifnot(texts(w$bounds$lower) == "1/25", texts(w$bounds$upper) == "3/50")
bad <- rp_demand(P, P, new = c(1, 1), m = 2)
stopifnot(!bad$garp, is.na(texts(bad$bounds$lower)), bad$bounds$reason == "the axiom fails", length(bad$cycle) == 3)
bad <- rp_welfare(P, P, new = c(1, 1))
stopifnot(!bad$garp, is.na(texts(bad$bounds$upper)), nrow(bad$bounds) == 2)
wrong <- caught(rp_demand(years, new = c(bread = 2, wine = 2), m = 0), "rp_refused")
stopifnot(wrong$fault == "ZeroBundle", wrong$file == "new")
caught(rp_demand(years, new = c(bread = 2, cheese = 2), m = 1), "rp_bad_data")
caught(rp_demand(years, new = c(bread = 2, wine = 2)), "rp_bad_data")

# ---- choices
budgets <- data.frame(p_bread = 1:2, p_wine = 2:1, w = 4)
choices <- data.frame(budget = c(1, 1, 2, 2), q_bread = c(2, 0, 1, 2), q_wine = c(1, 2, 2, 0), n = c(1, 3, 2, 2))
r <- rp_random(budgets, choices)
stopifnot(identical(r$rational, FALSE), texts(r$share) == "3/4", identical(texts(r$weights), c("1", "0", "1", "0")))
stopifnot(identical(r$parts$patches, list(c(1L, 4L), 2:3)), identical(texts(r$parts$share), c("1/4", "1/2")))
named <- rp_random(cbind(budgets, obs = c("low", "high")), transform(choices, budget = rep(c("low", "high"), each = 2)))
stopifnot(identical(named$certificate, r$certificate))
stopifnot(identical(rp_random(unname(as.matrix(budgets)), unname(as.matrix(choices)))$certificate, r$certificate))
stopifnot(rp_random(budgets, choices[c(1, 3), ], per = 5)$rational, nrow(as.data.frame(r)) == 2)
wrong <- caught(rp_random(budgets, choices[1:2, ]), "rp_refused")
stopifnot(wrong$fault == "NoChoices", wrong$budget == 2, grepl("^choices, budget 2: ", conditionMessage(wrong)))
for (given in list(transform(choices, n = n / 4), setNames(choices, c("budget", "q_bread", "q_wine", "share")))) {
  stopifnot(grepl("'(n|share)'.*If you have shares, multiply them", conditionMessage(caught(rp_random(budgets, given), c("rp_refused", "rp_bad_data")))))
}
stopifnot(grepl("exchanged", conditionMessage(caught(rp_random(choices, budgets), "rp_bad_data"))))
found <- rp_patches(cbind(budgets, obs = c("low", "high")), transform(choices, budget = rep(c("low", "high"), each = 2)))
stopifnot(identical(found$patch, 1:4), identical(found$budget, c(1L, 1L, 2L, 2L)), identical(texts(found$share), c("1/4", "3/4", "1/2", "1/2")))
stopifnot(identical(found$sides[, "low"], c("on", "on", "above", "below")), identical(found$sides[, "high"], c("above", "below", "on", "on")))
stopifnot(identical(as.data.frame(found)$sides, c("on above", "on below", "above on", "below on")), any(grepl("patches 4", capture.output(print(found)))))
stopifnot(identical(rp_choice_patches(budgets, choices, per = 10)$units, c("3", "7", "5", "5")))
caught(rp_patches(budgets, choices[1:2, ]), "rp_refused")
wrong <- caught(rp_random(cbind(budgets, obs = c("low", "high")), transform(choices, budget = "middle")), "rp_refused")
stopifnot(wrong$fault == "UnknownBudget", wrong$record == 1)

# ---- certificates
for (it in list(v, d, w, r)) stopifnot(rp_check(it, it)$accepted)
stopifnot(rp_check(years, v$certificate)$items == 5, rp_check(list(budgets = budgets, choices = choices), r)$accepted)
forged <- sub("\"4/5\"", "\"9/10\"", rp_test(P, P)$certificate, fixed = TRUE)
said <- rp_check(list(P, P), forged)
stopifnot(!said$accepted, said$item == 3, said$reason == "Order", said$place == 1)
# what an accepted certificate proves is told item by item, with the index; and what a rejection means
shown <- capture.output(print(said))
stopifnot(startsWith(shown[1], "rejected item 3 Order"), startsWith(shown[2], "item 3 efficiency 9/10 attained yes: not proved. The ranks or numbers break"))
stopifnot(identical(shown[3], revealed:::rejection_means), grepl("may be true or false", shown[3]))
own <- rp_test(P, P)
stopifnot(identical(rp_check(own, own)$says[c(1, 3, 5)], c("item 1 garp violated: proved", "item 3 efficiency 4/5 attained yes: proved", "item 5 quasilinear violated: proved")))
own <- rp_test(P, P, levels = c(799, 1000))
stopifnot(identical(rp_check(own, own)$says[1], "item 1 garp holds at the levels 0.799, 1: proved"))
stopifnot(identical(rp_check(r, r)$says, "item 1 random violated, maximum share 3/4: proved"))
stopifnot(grepl("^item 2 demand [0-9/]+ to [0-9/]+, .* [(]scaled[)]: proved$", rp_check(d, d)$says[2]), grepl("^item 2 welfare of 1 .* [(]scaled[)]: proved$", rp_check(w, w)$says[2]))
wrong <- caught(rp_check(years, "{"), "rp_refused")
stopifnot(wrong$fault == "NotJson", wrong$file == "certificate")
folder <- file.path(tempdir(), "ein Ordner")
dir.create(folder)
writeLines(c("p_a,q_a", "1,1"), file.path(folder, "a table.csv"))
cat(rp_test(matrix(1), matrix(1))$certificate, file = file.path(folder, "a certificate.json"))
stopifnot(rp_check(file.path(folder, "a table.csv"), file.path(folder, "a certificate.json"))$accepted)
caught(rp_check("not there.csv", forged), "rp_bad_data")

# ---- what is withheld is NA
text <- paste0(
  "{\"items\":[{\"item\":\"garp\",\"ranks\":[1,1]},{\"item\":\"afriat\",\"withheld\":2},{\"above\":[],\"at_ranks\":[1,1],\"below\":[1,1],",
  "\"item\":\"efficiency\",\"level\":\"1\"},{\"item\":\"homothetic\",\"withheld\":[3,1,2]},{\"item\":\"quasilinear\",\"values\":[\"0\",\"-5\"]}],",
  "\"kind\":\"table\",\"version\":1}"
)
held <- revealed:::read_verdict(revealed:::table_of(years), text)
stopifnot(identical(c(held$afriat, held$homothetic), c(NA, NA)), held$garp, grepl("2025", held$reasons[["afriat"]]))
stopifnot(identical(texts(held$evidence$quasilinear$values), c("0", "-1/20")), any(grepl("withheld", capture.output(print(held)))))
capture.output(print(summary(held)))
held <- revealed:::read_random(NULL, "{\"items\":[{\"item\":\"random\",\"total\":\"4\",\"withheld\":7}],\"kind\":\"random\",\"version\":1}")
stopifnot(is.na(held$rational), grepl("step 7", held$reason), any(grepl("withheld", capture.output(print(held)))))

# ---- faults of shape
for (fault in list(
  list(matrix(1, 2, 1), matrix(c(1, 0), 2), "ZeroBundle"), list(matrix(c(1, 1e7), 2), matrix(1, 2, 1), "TooLarge"),
  list(matrix(1, 513, 1), matrix(1, 513, 1), "TooManyRecords"), list(matrix(1, 1, 17), matrix(1, 1, 17), "TooManyGoods"),
  list(matrix(0, 0, 1), matrix(0, 0, 1), "NoRecords")
)) stopifnot(caught(rp_test(fault[[1]], fault[[2]]), "rp_refused")$fault == fault[[3]])
caught(rp_test(P, P[1, , drop = FALSE]), "rp_bad_data")
caught(rp_test(1:2, 1:2), "rp_bad_data")
caught(rp_test(P, P, digits = 7), "rp_bad_data")
wrong <- caught(rp_test(years[-5]), "rp_refused")
stopifnot(wrong$fault == "Unpaired", wrong$name == "p_wine")
stopifnot(caught(rp_test(cbind(years, P_rent = 1)), "rp_refused")$fault == "BadHeader")

# ---- panels
long <- data.frame(
  household = c("b", "a", "b", "a", "c"), obs = c(2024, 2024, 2025, 2025, 2024), p_x = c(1, 1, 2, 2, 1), p_y = c(2, 2, 1, 1, 0),
  q_x = c(1, 2, 2, 1, 1), q_y = c(2, 1, 1, 2, 1)
)
found <- rp_panel(long, "household", workers = 2)
frame <- as.data.frame(found)
stopifnot(identical(frame$household, c("b", "a", "c")), identical(frame$fault, c("", "", "ZeroPrice")), identical(frame$garp, c(FALSE, TRUE, NA)))
stopifnot(grepl("row 2024", conditionMessage(found$refusals[[3]])), frame$record[3] == 5, frame$column[3] == 4)
stopifnot(grepl("3 households, 1", summary(found)$title), summary(found)$table["garp", "violated"] == 1)
stopifnot(identical(frame$efficiency_floor, c(0.8, 1, NA)), identical(texts(frame$efficiency_exact), c("4/5", "1", NA)))
two <- as.data.frame(rp_panel(long, c("household", "obs"), workers = 2))
stopifnot(nrow(two) == 5, identical(two$obs, c(2024, 2024, 2025, 2025, 2024)))
caught(rp_panel(long, "family"), "rp_bad_data")
many <- data.frame(id = rep(1:50, 2), p_x = rep(1:2, each = 50), p_y = rep(2:1, each = 50), q_x = rep(1:2, each = 50), q_y = rep(2:1, each = 50))
many$q_x[many$id %% 2 == 0] <- 5
bar <- tempfile()
to <- file(bar, "w")
sink(to, type = "message")
found <- as.data.frame(rp_panel(many, "id", workers = 2, progress = TRUE))
sink(type = "message")
close(to)
stopifnot(identical(found$id, 1:50), identical(found$garp, rep(c(FALSE, TRUE), 25)))
