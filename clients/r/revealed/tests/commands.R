# Levels of observations, and the commands that have no certificate. Expected values are those of the worked examples of
# the repository's documents, or were computed by hand.
library(revealed)
source(system.file("testing", "opening.R", package = "revealed"))
need_program()
texts <- as.character
P <- rbind(c(1, 2), c(2, 1))
years <- data.frame(obs = 2024:2025, p_bread = c(1.25, 2.5), p_wine = c(2.5, 1.25), q_bread = 2:1, q_wine = 1:2)
leveled <- data.frame(p_bread = c(1, 2), q_bread = c(1, 2), p_wine = c(2, 1), q_wine = c(2, 1), e = c(799, 1000))

# ---- levels: by the column, by the argument, and refused where the command refuses them
for (v in list(rp_test(leveled), rp_test(P, P, levels = c(799, 1000)), rp_test(leveled[-5], levels = c("799", "1000.0")))) {
  stopifnot(v$garp, v$afriat, texts(v$efficiency) == "4/5", !v$homothetic, identical(unname(v$ranks), 1:2))
  # Utilities are -1000 and 0 in a scale 1,000 times that of money here.
  stopifnot(identical(texts(v$utility), c("-1", "0")), identical(texts(v$lambda), c("200", "1")))
  stopifnot(rp_check(v, v)$accepted, any(grepl("levels 799 1000", capture.output(print(v)))))
}
stopifnot(!rp_test(leveled[-5])$garp, !rp_test(leveled[-5], levels = c(800, 1000))$garp, rp_test(leveled[-5], levels = 800)$garp, rp_test(leveled[-5], levels = 799)$garp)
stopifnot(!rp_pairs(leveled)$contradiction, identical(rp_pairs(leveled[-5])$pair, 1:2), !rp_pairs(P, P, levels = c(799, 1000))$contradiction)
u <- rp_utility(leveled, bundles = c(bread = 1, wine = 2))
stopifnot(u$garp, texts(u$values) == "-1")
stopifnot(rp_check(leveled, rp_certify(leveled))$accepted, rp_check(leveled[-5], rp_certify(leveled), levels = c(799, 1000))$accepted)
said <- rp_check(leveled[-5], rp_certify(leveled))
stopifnot(!said$accepted, said$item == 0, said$reason == "Levels")
for (wrong in list(
  caught(rp_demand(leveled, new = c(1, 1), m = 2), "rp_refused"), caught(rp_welfare(leveled, new = c(1, 1)), "rp_refused"),
  caught(rp_pump(leveled), "rp_refused"), caught(rp_power(leveled, seed = 7), "rp_refused"),
  caught(rp_panel(cbind(id = 1, leveled), "id", ask = "pump", workers = 1), "rp_refused")
)) stopifnot(wrong$fault == "OwnLevels", grepl("Leave out the column e", conditionMessage(wrong)))
caught(rp_test(leveled, levels = 1000), "rp_bad_data")
caught(rp_test(P, P, levels = 1:3), "rp_bad_data")
caught(rp_test(data.frame(p_a = 1, p_b = 1, e = 1000), data.frame(q_a = 1, q_b = 1)), "rp_bad_data")
stopifnot(caught(rp_test(P, P, levels = c(0.8005, 1)), "rp_refused")$fault == "BadNumber")
# shares are levels too
for (levels in list(c(0.799, 1), c("0.799", "1"), c(799, 1000))) stopifnot(identical(rp_test(P, P, levels = levels)$certificate, rp_certify(leveled)))
stopifnot(identical(rp_test(P, P, levels = 0.95)$table$levels, c("950", "950")), rp_panel(data.frame(id = 1, leveled[-5]), "id", levels = 0.799, workers = 1)$garp)
# a row for each person, and budgets by any label; the income has one name in all calls
by_label <- data.frame(budget = c("north", "south"), p_a = 1:2, p_b = 2:1, m = 4)
people <- data.frame(budget = c("north", "south", "north", "north"), q_a = c(2, 1, 2, 0), q_b = c(1, 2, 1, 2))
counted <- data.frame(budget = c(1, 2, 1), q_a = c(2, 1, 0), q_b = c(1, 2, 2), n = c(2, 1, 1))
plainly <- data.frame(p_a = 1:2, p_b = 2:1, w = 4)
stopifnot(identical(rp_random(by_label, people)$certificate, rp_random(plainly, counted)$certificate))
wrong <- caught(rp_random(by_label, transform(people, budget = c("north", "south", "north", "west"))), "rp_refused")
stopifnot(wrong$fault == "UnknownBudget", wrong$label == 4)
caught(rp_random(transform(plainly, m = 4), counted), "rp_bad_data")
stopifnot(caught(rp_test(P, P, levels = c(1001, 1000)), "rp_refused")$fault == "BadLevel")
stopifnot(caught(rp_test(P, P, levels = c(NA, 1000)), "rp_refused")$name == "e")
stopifnot(inherits(tryCatch(rp_test(P, P, levels = 1), rp_warning = identity), "rp_warning"))
stopifnot(caught(rp_test(cbind(leveled[-5], E = 1)), "rp_refused")$fault == "BadHeader")
half <- rp_panel(data.frame(id = c("a", "a", "b", "b"), rbind(leveled, transform(leveled, e = 1000))), "id", workers = 1)
stopifnot(identical(as.data.frame(half)$garp, c(TRUE, FALSE)))
stopifnot(identical(as.data.frame(rp_panel(data.frame(id = 1, leveled[-5]), "id", levels = 799, workers = 1))$garp, TRUE))

# ---- what is left out is told
stopifnot(any(grepl("left out: 'income'", capture.output(print(rp_test(cbind(years, income = 1:2)))))))

# ---- budget lines by their intercepts
lines <- data.frame(obs = 1:2, i_x = c("87.13", "45.50"), i_y = c("33.61", "62.04"), q_x = c("43.2", "20.1"), q_y = c("16.95", "34.63"))
by_hand <- with(lines, data.frame(obs, p_x = i_y, p_y = i_x, q_x, q_y))
for (v in list(rp_test(lines), rp_test(rp_test(lines)$table, levels = 1000))) {
  stopifnot(v$garp, is.na(v$quasilinear), grepl("money of its own", v$reasons[["quasilinear"]]), !any(grepl("withheld", capture.output(print(v), print(summary(v))))))
}
stopifnot(identical(texts(rp_test(lines)$utility), texts(rp_test(by_hand)$utility)), !is.na(rp_test(by_hand)$quasilinear))
stopifnot(grepl("money of its own", conditionMessage(caught(rp_pump(lines), "rp_bad_data"))))
two <- cbind(s = 1, lines)
stopifnot(grepl("money of its own", conditionMessage(caught(rp_panel(two, "s", ask = "pump"), "rp_bad_data"))))
of_lines <- rp_panel(two, "s", workers = 1)
# what choices spent of the offered budgets, by hand: from x + y <= 10, 7/10 and 9/10, which halves of a unit make no whole, and make one
offered <- function(x, y, i_x = 10, i_y = 10) data.frame(i_x = i_x, i_y = i_y, q_x = x, q_y = y)
found <- rp_test(offered(c(5, 3, 5), c(5, 4, 4)))$table$offered
stopifnot(found$rows == 3, identical(found$below, 2L), found$least == 0.7, found$at == 2)
shown <- capture.output(print(rp_test(offered(c(5, 3, 5), c(5, 4, 4)))))
stopifnot(sum(shown == "offered budgets: 1 of 3 choices spent less than was offered by more than rounding; minimum share 0.7000, row 2") == 1)
stopifnot(identical(rp_test(offered(c("5.0", "3.0", "5.0"), c("5.0", "4.0", "4.0")))$table$offered$below, 2:3))
wrong <- caught(rp_test(offered(c(5, 9), c(5, 9))), "rp_overspent")
stopifnot(wrong$label == 2, wrong$share == 1.8, wrong$count == 1, grepl("row 2 (i_x 10, i_y 10, q_x 9, q_y 9): the choice costs 1.8000", conditionMessage(wrong), fixed = TRUE))
stopifnot(!length(rp_test(offered(5, 6))$table$offered$below), inherits(caught(rp_test(offered("5.0", "6.0")), "rp_overspent"), "rp_error"))
wrong <- caught(rp_panel(cbind(s = c("u", "u", "v"), offered(c(5, 9, 9), c(5, 9, 8))), "s", workers = 1), "rp_overspent")
stopifnot(grepl("2 of u", conditionMessage(wrong)), grepl("1 other choice does too", conditionMessage(wrong)))
stopifnot(caught(rp_test(offered(5, 5, i_y = 0)), "rp_refused")$fault == "ZeroPrice", any(grepl("^offered budgets: all ", capture.output(print(of_lines)))))
stopifnot(!"quasilinear" %in% rownames(summary(of_lines)$table), !any(grepl("Quasilinear", texts(rp_panel_table(of_lines, rp_random_panel(of_lines, 2, 1))))))
drawn <- rp_random_panel(of_lines, 1, 1)$data
stopifnot(setdiff(names(drawn), c(names(lines), "draw", "obs")) == character(), drawn$i_x / drawn$i_x[1] == as.numeric(lines$i_x) / as.numeric(lines$i_x[1]))
caught(rp_test(lines[-2]), "rp_refused")
stopifnot(caught(rp_test(transform(lines, i_y = c(0, 1))), "rp_refused")$name == "i_y")

# ---- money pump
m <- rp_money_pump(P, P)
stopifnot(texts(m$ratio) == "1/5", m$pump <= 0.2, m$pump > 0.2 - 1e-15, length(m$cycle) == 3, identical(texts(m$values), c("0", "0")), !m$garp)
stopifnot(rp_pump(years)$pump == 0, rp_pump(years)$garp, identical(as.data.frame(m)$pump, m$pump), identical(rp_pump, rp_money_pump))

# ---- power
w <- rp_power(P, P, seed = 7, draws = 1000)
stopifnot(w$violations == 69, w$power == 0.069, as.data.frame(w)$draws == 1000, w$seed == "7", identical(rp_test_power, rp_power))
stopifnot(rp_power(P, P, seed = "18446744073709551615", draws = 1)$draws == 1)
caught(rp_power(P, P), "rp_bad_data")
caught(rp_power(P, P, seed = "18446744073709551616"), "rp_bad_data")
caught(rp_power(P, P, seed = 7, draws = 1001), "rp_bad_data")

# ---- trials
t <- rp_trial(7, 256, 16)
stopifnot(!t$garp, texts(t$efficiency) == "631/867", !t$attained, !t$homothetic, !t$quasilinear, as.data.frame(t)$rows == 256)
caught(rp_trial(7, 257, 16), "rp_bad_data")
caught(rp_trial(-1, 2, 2), "rp_bad_data")

# ---- pairs
stopifnot(identical(rp_pairs(P, P)$pair, 1:2), !rp_first_contradiction(years)$contradiction, is.na(as.data.frame(rp_pairs(years))$first))

# ---- utility: of the bundle of the first year, and of three of each good, which cost 6.25 more there
u <- rp_utility(years, bundles = data.frame(q_wine = c(1, 3), q_bread = c(2, 3)))
stopifnot(identical(texts(u$values), c("0", "25/4")), identical(as.data.frame(u)$utility, c(0, 6.25)), identical(texts(u$lambda), c("1", "1")))
u <- rp_afriat_utility(P, P, bundles = c(1, 1))
stopifnot(!u$garp, is.na(texts(u$values)), u$reason == "the axiom fails", length(u$cycle) == 3)
stopifnot(caught(rp_utility(years, bundles = c(bread = "1.5", wine = 1)), "rp_refused")$fault == "TooFine")
caught(rp_utility(years, bundles = c(bread = 1, cheese = 1)), "rp_bad_data")
caught(rp_utility(years), "rp_bad_data")

# ---- firms
firm <- data.frame(y = 1:2, p = 5:4, w_labour = 1:2, w_coal = 2:1, x_labour = c(2, 2), x_coal = 1:2)
asked <- data.frame(w_coal = c(1, 1), w_labour = c(1, 1), y = c(1, 3))
found <- rp_cost(firm, asked)
stopifnot(found$cost, identical(found$profit, FALSE), identical(found$profit_pair, 1:2), is.null(found$cost_pair))
stopifnot(identical(texts(found$bounds$lower), c("2", "10/3")), identical(texts(found$bounds$upper), c("3", NA)), identical(found$bounds$at, c(1L, NA)))
frame <- as.data.frame(found)
stopifnot(frame$lower[2] <= 10 / 3, frame$lower[2] > 3.33, frame$upper[1] == 3, is.na(frame$upper[2]))
tenth <- transform(firm, w_labour = c("0.1", "0.2"), w_coal = c("0.2", "0.1"), p = c("0.5", "0.4"))
stopifnot(texts(rp_cost_minimisation(tenth, asked)$bounds$lower) == c("2", "10/3"))
stopifnot(texts(rp_cost(firm, transform(asked, w_coal = "0.1", w_labour = "0.1"))$bounds$lower) == c("1/5", "1/3"))
stopifnot(is.null(rp_cost(firm[-2], asked)$profit))
wrong <- caught(rp_cost(firm[-1], asked), "rp_bad_data")
stopifnot(grepl("the output y", conditionMessage(wrong)), grepl("found: 'p'", conditionMessage(wrong)))
caught(rp_cost(firm, asked[-1]), "rp_bad_data")
stopifnot(caught(rp_cost(transform(firm, w_coal = c(0, 1)), asked), "rp_refused")$name == "w_coal")
wasteful <- data.frame(y = c(1, 1), w_a = c(1, 1), x_a = c(1, 2))
found <- rp_cost(wasteful, data.frame(w_a = 1, y = 1))
stopifnot(!found$cost, identical(found$cost_pair, c(2L, 1L)), is.na(texts(found$bounds$lower)), found$bounds$reason == "cost is not minimised")

# ---- menus
menus <- data.frame(menu = c("abc", "abc", "ab"), choice = c("a", "b", "b"), n = c(1, 1, 2))
found <- rp_menus(menus)
stopifnot(identical(found$consistent, FALSE), texts(found$share) == "1/2", identical(texts(found$weights), c("0", "1", "0")))
stopifnot(found$parts$order == "b a c", texts(found$parts$share) == "1/2", as.data.frame(found)$share == 0.5, is.null(found$least_sum))
whole <- rp_menu_choices(data.frame(menu = "ab", choice = c("a", "b"), n = c(1, 3)))
stopifnot(whole$consistent, texts(whole$share) == "1", setequal(texts(whole$parts$share), c("1/4", "3/4")), texts(whole$least_sum$value) == "1/4")
stopifnot(identical(texts(rp_menus(menus, per = 4)$share), "1/2"))
for (it in list(list("ba", "BadMenu"), list("a b", "BadMenu"), list(NA, "BadMenu"), list("\"a\nb\"", "BadMenu"))) {
  stopifnot(caught(rp_menus(transform(menus, menu = c(it[[1]], "abc", "ab"))), "rp_refused")$fault == it[[2]])
}
wrong <- caught(rp_menus(transform(menus, choice = c("a", "b", "c"))), "rp_refused")
stopifnot(wrong$fault == "BadChoice", wrong$record == 3, wrong$file == "menus")
caught(rp_menus(menus[-2]), "rp_bad_data")
caught(rp_menus(transform(menus, menu = 1:3)), "rp_bad_data")

# ---- rounding: each kind by its seven digits
message_of <- function(call) conditionMessage(caught(call, "rp_refused"))
inverse <- data.frame(p_x = 1 / c(87.13, 45.5), p_y = 1 / c(33.61, 62.04), q_x = c(43.2, 20.1), q_y = c(16.95, 34.63))
said <- message_of(rp_test(inverse))
stopifnot(grepl("decimals = c(6, NA)", said, fixed = TRUE), grepl("as do 3 other numbers", said), grepl("columns i_NAME", said))
stopifnot(inherits(rp_test(inverse, decimals = c(6, NA)), "rp_test"), inherits(rp_test(inverse, digits = c(6, 5)), "rp_test"))
said <- message_of(rp_test(transform(inverse, q_x = c(1234.567891, 1)), decimals = 6))
stopifnot(grepl("TooLarge", said), grepl("9999999", said), grepl("decimals = c(6, 3)", said, fixed = TRUE), grepl("Another unit", said))
stopifnot(grepl("Take a larger unit", message_of(rp_test(transform(inverse, q_x = c(12345678, 1)), decimals = c(6, 0)))))
stopifnot(grepl("decimals = c(6, 4)", message_of(rp_test(transform(inverse, q_x = c(99.999999, 1)))), fixed = TRUE))
said <- message_of(rp_demand(years, new = c(bread = 1 / 3, wine = 2), m = 2))
stopifnot(grepl("decimals = c(6, NA)", said, fixed = TRUE))
stopifnot(inherits(rp_demand(years, new = c(bread = 1 / 3, wine = 2), m = 2, decimals = c(6, NA)), "rp_demand"))
said <- message_of(rp_utility(years, bundles = c(bread = 1 / 3, wine = 2)))
stopifnot(grepl("decimals = c(NA, 6)", said, fixed = TRUE))
panel <- rbind(cbind(id = "a", inverse), cbind(id = "b", transform(inverse, q_x = c(1234.5, 1))))
stopifnot(grepl("decimals = c(6, NA)", conditionMessage(caught(rp_panel(panel, "id", workers = 1), "rp_refused")), fixed = TRUE))
stopifnot(all(as.data.frame(rp_panel(panel, "id", decimals = c(6, NA), workers = 1))$fault == ""))

# ---- a panel that is taken for one household, and names that are none
long <- data.frame(household = c("a", "a", "b", "b"), obs = c(1, 2, 1, 2), p_x = 1, q_x = 1)
wrong <- caught(rp_test(long), "rp_bad_data")
stopifnot(grepl("rp_panel(data, by = 'household')", conditionMessage(wrong), fixed = TRUE), grepl("2 values for 4 rows", conditionMessage(wrong)))
caught(rp_test(long[-2]), "rp_bad_data")
stopifnot(inherits(rp_test(transform(long[-2], household = 7)), "rp_test"))
wrong <- caught(rp_test(long[-1]), "rp_bad_data")
stopifnot(grepl("rp_panel(data, by", conditionMessage(wrong), fixed = TRUE), grepl("rows 1 and 3", conditionMessage(wrong)))
caught(rp_test(rbind(a = 1, a = 2), rbind(a = 1, a = 2)), "rp_bad_data")
caught(rp_test(transform(long, obs = c(NA, NA, 1, 2))), "rp_bad_data")
twice <- rp_panel(transform(long, household = c("a", "a", "b", "b"), obs = c(1, 2, 1, 1)), "household", workers = 1)
stopifnot(identical(as.data.frame(twice)$garp, c(TRUE, NA)), identical(as.data.frame(twice)$fault, c("", "Pooled")))
stopifnot(grepl("tell the units apart", conditionMessage(twice$refusals[[2]])))
caught(rp_panel(transform(long, fault = household), "fault"), "rp_bad_data")
# frames of other packages, whose brackets are not those of R's own
strange <- structure(long, class = c("strange", "data.frame"))
`[.strange` <- function(...) stop("the brackets of another package")
stopifnot(identical(as.data.frame(rp_panel(strange, "household", workers = 1)), as.data.frame(rp_panel(long, "household", workers = 1))))
other <- data.frame(p1 = 1, p2 = 2, x1 = 1, x2 = 1)
said <- conditionMessage(caught(rp_test(other), "rp_bad_data"))
stopifnot(grepl("p_NAME", said), grepl("q_NAME", said), grepl("i_NAME", said), grepl("found: 'p1', 'p2', 'x1', 'x2'", said))
said <- conditionMessage(caught(rp_test(data.frame(p_a = 1, x_a = 1)), "rp_refused"))
stopifnot(grepl("there is no column 'q_a'", said), grepl("found: 'p_a', 'x_a'", said))
said <- conditionMessage(caught(rp_panel(long, "family"), "rp_bad_data"))
stopifnot(grepl("found: 'household'", said))
said <- conditionMessage(caught(rp_random(data.frame(p_a = 1), data.frame(q_a = 1)), "rp_bad_data"))
stopifnot(grepl("no column 'm'", said), grepl("found: 'p_a'", said))
said <- conditionMessage(caught(rp_demand(years, new = data.frame(p_bread = 1), m = 1), "rp_bad_data"))
stopifnot(grepl("goods are 'bread', 'wine'", said))

# ---- frames that behave as frames
d <- as.data.frame(rp_demand(years, new = c(bread = 2, wine = 2), m = 6))
stopifnot(identical(names(d), c("budget", "good", "lower", "lower_exact", "upper", "upper_exact", "inner", "inner_exact", "wide", "reason")))
stopifnot(is.numeric(d$lower), mean(d$upper) == 2, identical(order(d$lower), 1:2), inherits(d$lower_exact, "rp_exact"))
set.seed(3)
many <- data.frame(id = rep(1:30, each = 5))
for (name in c("p_x", "p_y")) many[[name]] <- sample(1:9, 150, TRUE)
for (name in c("q_x", "q_y")) many[[name]] <- sample(1:9, 150, TRUE)
people <- rp_panel(many, "id", workers = 2)
frame <- as.data.frame(people)
frame$age <- 20 + frame$id
stopifnot(is.logical(frame$garp), is.double(frame$efficiency_floor), identical(frame$efficiency_floor == 1, texts(frame$efficiency_exact) == "1"))
# a panel is a data frame, and an index is a number for every function of R
stopifnot(is.data.frame(people), identical(people$garp, frame$garp), identical(people[["ccei"]], frame$ccei), identical(people[people$garp, ], frame[frame$garp, names(people)]))
stopifnot(identical(class(people[1:2, ]), "data.frame"), nrow(head(people, 3)) == 3, identical(names(people)[1:6], c("id", "observations", "goods", "garp", "ccei", "efficiency")))
for (index in c("ccei", "efficiency")) {
  x <- frame[[index]]
  half <- x[1:15]
  stopifnot(identical(class(x), "numeric"), is.finite(coef(lm(x ~ frame$age))), is.finite(t.test(x)$p.value), nlevels(cut(x, 3)) == 3)
  stopifnot(sum(hist(x, plot = FALSE)$counts) == 30, is.finite(cor(x, frame$age)), is.numeric(round(x, 2)), identical(x == 1, frame$efficiency_exact == 1))
  stopifnot(is.finite(coef(lm(stats::reformulate("age", index), frame))), is.finite(t.test(half, x)$p.value))
}
stopifnot(is.double(as.data.frame(rp_test(P, P))$ccei), identical(as.data.frame(rp_test(P, P))$efficiency, 0.8), identical(round(rp_test(P, P)$efficiency, 1), 0.8))
shown <- capture.output(print(people))
stopifnot(length(shown) <= 12, startsWith(shown[1], "panel of 30 units by 'id', 30 with verdicts"), any(grepl("24 more rows", shown)))
stopifnot(all(diff(frame$efficiency_floor[order(frame$efficiency_exact)]) >= 0), is.finite(coef(lm(efficiency_floor ~ age, frame))), mean(frame$garp) < 1)
stopifnot(sum(hist(frame$efficiency_floor, plot = FALSE)$counts) == 30, nrow(rbind(frame, frame)) == 60, nrow(merge(frame, frame["id"])) == 30)
path <- tempfile()
write.csv(frame, path, row.names = FALSE)
stopifnot(identical(read.csv(path, colClasses = c(efficiency_exact = "character"))$efficiency_exact, texts(frame$efficiency_exact)))
capture.output(summary(frame), str(frame), print(frame))

# ---- panels of the money pump and of power
pumps <- as.data.frame(rp_panel(many, "id", ask = "pump", workers = 2))
stopifnot(identical(pumps$garp, frame$garp), identical(as.double(pumps$pump) == 0, frame$garp), all(pumps$pump_floor < 1))
one <- as.data.frame(rp_panel(many[many$id <= 3, ], "id", ask = "power", seed = 5, draws = 100, workers = 2))
stopifnot(as.double(one$power[2]) == rp_power(many[many$id == 2, -1], seed = 5, draws = 100)$power)
caught(rp_panel(many, "id", ask = "power"), "rp_bad_data")

# ---- doubles: what read.csv makes of 23.86 is taken, and what needs more is refused
read <- read.csv(text = "p_a,p_b,q_a,q_b\n23.86,1250,1.1,1\n0.1,2,3,0.000025")
short <- rp_test(read)
stopifnot(identical(unlist(short$table$texts), c("23.86", "0.1", "1250", "2", "1.1", "3", "1", "0.000025")))
shown <- capture.output(print(short))
stopifnot(sum(shown == "numbers: shortest decimals of doubles") == 1, rp_check(read, short)$accepted)
stopifnot(!any(grepl("numbers:", capture.output(print(rp_test(cbind(0.5, 1L), cbind(1, 2)))))))
stopifnot(!any(grepl("numbers:", capture.output(print(rp_test(cbind("0.1", "1"), cbind(1, 2)))))))
# a decimal of six places that R reads as another double than the nearest is taken as either of the two
for (x in c(7454596 / 1e6, as.numeric("7.454596"))) stopifnot(identical(revealed:::number_texts(x, list(shortest = TRUE)), "7.454596"))
stopifnot(identical(revealed:::is_beyond(c(23.86, 0.5, 0.015625, 0.0078125, 1e-6, 1e-7, 12345.67, 12345.678, 0.1 + 0.2, 1 / 3, 1e9, NA)), c(
  FALSE, FALSE, FALSE, TRUE, FALSE, TRUE, FALSE, TRUE, TRUE, TRUE, FALSE, FALSE
)))
stopifnot(identical(revealed:::number_texts(c(2.675, NA, -0.0, 1e22), list(digits = 2, shortest = TRUE)), c("2.68", "", "0", "10000000000000000000000")))
# at most four lines: value, column and row, and what to do; strictly, 3.18 is refused too
for (call in list(
  quote(rp_test(cbind(1 / 3, 1), cbind(1, 2))), quote(rp_test(cbind(0.1 + 0.2, 1), cbind(1, 1))),
  quote(rp_test(cbind(3.18, 1250), cbind(1, 1), numbers = "exact")), quote(rp_test(cbind(3.18, 1250, 1), cbind(1 / 3, 1, 1), numbers = "exact"))
)) {
  said <- conditionMessage(caught(eval(call), "rp_refused"))
  stopifnot(lengths(strsplit(said, "\n")) <= 4, startsWith(said, "row 1, column 'p_1', value "), endsWith(said, "[TooManyDecimals record 1 column 1]"))
  stopifnot(grepl("decimals = c(", said, fixed = TRUE))
}
stopifnot(grepl("numbers = 'shortest', the default", conditionMessage(caught(rp_test(cbind(3.18, 1), cbind(1, 1), numbers = "exact"), "rp_refused"))))
for (numbers in list("short", 6, NULL, c("exact", "shortest"))) {
  stopifnot(grepl("gives it back", conditionMessage(caught(rp_test(P, P, numbers = numbers), "rp_bad_data"))))
}
# doubles that need more refuse the whole panel at once
floats <- data.frame(home = c("u", "u", "v"), p_a = c(3.18, 2.5, 1.1), p_b = c(1, 1, 12500.5), q_a = 1, q_b = 2:4)
found <- rp_panel(floats, "home", workers = 1)
stopifnot(as.data.frame(found)$fault == "", sum(capture.output(print(found)) == "numbers: shortest decimals of doubles") == 1)
every <- caught(rp_panel(transform(floats, q_a = c(1, 1 / 3, 0.1 + 0.2)), "home", workers = 1), "rp_refused")
stopifnot(every$fault == "TooManyDecimals", every$record == 2, every$column == 4, every$name == "q_a", grepl("as does 1 other number", conditionMessage(every)))
every <- caught(rp_panel(floats, "home", workers = 1, numbers = "exact"), "rp_refused")
stopifnot(every$record == 1, every$column == 2, grepl("decimals = c(2, NA)", conditionMessage(every), fixed = TRUE), grepl("numbers = 'shortest'", conditionMessage(every), fixed = TRUE))
crowd <- data.frame(home = rep(1:5000, each = 20), p_a = 1 / (7 + seq_len(1e5) %% 83), p_b = 1, q_a = 1, q_b = 1 / (7 + seq_len(1e5) %% 79))
stopifnot(system.time(caught(rp_panel(crowd, "home"), "rp_refused"))[["elapsed"]] < 20)
# a panel that is refused for one cause stops with it, and says what fits all
as_texts <- transform(floats, p_a = c("3.1800001", "2.5", "1.0000001"))
every <- caught(rp_panel(as_texts, "home", workers = 1), "rp_all_refused")
stopifnot(inherits(every, "rp_refused"), every$fault == "TooManyDecimals", every$count == 2)
stopifnot(startsWith(conditionMessage(every), "all 2 households have one error, the first, 'u': row 1, column 'p_a', value '3.1800001': "))
two <- as.data.frame(rp_panel(transform(as_texts, p_a = c("3.1800001", 2.5, 0)), "home", workers = 1))
stopifnot(identical(two$fault, c("TooManyDecimals", "ZeroPrice")), identical(two$record, c(1L, 3L)), two$column == 2)
if (requireNamespace("gmp", quietly = TRUE)) {
  long <- gmp::as.bigz(10)^5000
  for (x in list(long, gmp::as.bigq(1) / long)) {
    wrong <- caught(rp_test(data.frame(p_a = I(x), q_a = 1)), "rp_refused")
    stopifnot(wrong$fault %in% c("TooLarge", "TooManyDecimals"), wrong$record == 1, wrong$name == "p_a")
  }
  caught(rp_power(P, P, seed = long), "rp_bad_data")
}

# ---- random behaviour on the same budgets
random <- rp_random_panel(people, times = 2, seed = 11, workers = 2)
stopifnot(nrow(random$texts) == 60, identical(random$data, rp_random_panel(people, times = 2, seed = 11, workers = 2)$data))
spent <- function(d) with(d, as.numeric(p_x) * as.numeric(q_x) + as.numeric(p_y) * as.numeric(q_y))
first <- random$data[random$data$draw == 1, ]
# in a unit of each household's own, a power of ten
share <- spent(first) / spent(many)
unit <- 10^ceiling(log10(share) - 1e-9)
stopifnot(share <= unit, share > unit * (1 - 1e-3), tapply(unit, many$id, function(it) length(unique(it))) == 1, first$p_x == many$p_x)
stopifnot(nrow(rp_random_panel(people, times = 1)$texts) == 30)
for (seed in list(-1, 4294967296, "x", NULL)) caught(rp_random_panel(people, times = 1, seed = seed), "rp_bad_data")

# ---- pictures and tables
grDevices::pdf(NULL)
plot(rp_test(P, P))
plot(rp_test(years), labels = FALSE, legend = FALSE)
plot(people)
plot(people, random)
plot(people, random, type = "cumulative", names = c("subjects", "drawn"))
plot(rp_panel(many, "id", ask = "pump", workers = 2))
caught(plot(rp_test(matrix(1), matrix(1))), "rp_bad_data")
caught(plot(people, P), "rp_bad_data")
grDevices::dev.off()
lines <- texts(rp_panel_table(people, random))
stopifnot(any(grepl("^GARP holds +[0-9]+ of 30 \\([0-9.]+%\\) +[0-9]+ of 60 \\([0-9.]+%\\)$", lines)), any(grepl("^N +30 +60$", lines)), any(grepl("^CCEI, standard deviation +0[.][0-9]{3} +0[.][0-9]{3}$", lines)))
stopifnot(grepl("^ +Units +Random$", lines[1]), any(grepl("^Observations of each +5 +5$", lines)), !any(grepl("absent", lines)))
lines <- texts(rp_panel_table(people, thresholds = c(0.8, 1)))
stopifnot(sum(grepl("^CCEI of at least (0.80|1) ", lines)) == 2, !any(grepl("0.95", lines)))
caught(rp_panel_table(people, thresholds = 2), "rp_bad_data")
lines <- texts(rp_panel_table(of_lines))
stopifnot(any(grepl("^quasilinear and money pump are absent: intercepts exchanged", lines)), any(grepl("absent", texts(rp_panel_table(of_lines, format = "latex")))))
stopifnot(grepl("Subjects", texts(rp_panel_table(rp_panel(transform(many, subject = id, id = NULL), "subject", workers = 1)))[1]))
lines <- texts(rp_panel_table(people, random, format = "latex"))
stopifnot(lines[1] == "\\begin{tabular}{lrr}", lines[length(lines)] == "\\end{tabular}", any(grepl("^GARP holds & [0-9]+ of 30 \\([0-9.]+\\\\%\\) & ", lines)))
# what is withheld counts, as what may hold or not; what has no answer does not
told <- revealed:::share_told
stopifnot(told(rep(c(TRUE, NA, FALSE), c(8, 9, 33))) == "between 8 and 17 of 50 (16.0% to 34.0%), 9 withheld", told(c(TRUE, FALSE)) == "1 of 2 (50.0%)")
refused <- rp_panel(data.frame(id = c(1, 1, 2), p_a = c(1, 2, 0), p_b = c(2, 1, 1), q_a = 1:3, q_b = c(2, 1, 1)), "id", workers = 1)
stopifnot(any(grepl("^Quasilinear holds +0 of 1 \\(0.0%\\)$", texts(rp_panel_table(refused)))), sum(summary(refused)$table["garp", ]) == 1)
odd <- many[many$id <= 2, ]
odd$id <- ifelse(odd$id == 1, "50% of A&B_{1}$", "\\end~^#")
lines <- texts(rp_panel_table(rp_panel(odd, "id", workers = 1), what = "households", format = "latex"))
stopifnot(grepl("50\\% of A\\&B\\_\\{1\\}\\$", lines[5], fixed = TRUE), grepl("\\textbackslash{}end\\textasciitilde{}\\textasciicircum{}\\#", lines[6], fixed = TRUE))
shown <- revealed:::shown_index
stopifnot(shown(revealed:::exact(c("1", "9999/10000", "0", "1/10000", "4/5"))) == c("1.000", "0.999", "0.000", "<0.001", "0.800"))
