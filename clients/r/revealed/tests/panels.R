# What a panel does with ids, faults and answers, by the program or the library of panels where one is found.
library(revealed)
source(system.file("testing", "opening.R", package = "revealed"))
if (inherits(tryCatch(revealed:::panel_engine(), error = identity), "error")) {
  cat("there is no rp-panel: its panels are not tried\n")
  quit("no")
}
# Each two rows contradict each other; the first of them alone do not.
frame <- function(ids) {
  two <- rep(1:2, length.out = length(ids))
  data.frame(household = ids, p_a = two, p_b = 3L - two, q_a = two, q_b = 3L - two, stringsAsFactors = FALSE)
}
panel <- function(ids, ...) rp_panel(frame(ids), "household", workers = 1, ...)

# blanks round an id are cut, and rows without an id are refused, each for itself
found <- as.data.frame(panel(c("A", "A ", "\tA", " A\t")))
stopifnot(identical(found$household, "A"), found$observations == 4, identical(found$garp, FALSE))
found <- as.data.frame(panel(c("A", "A", "", "", " \t", NA)))
stopifnot(identical(found$garp, c(FALSE, rep(NA, 4))), identical(found$fault, c("", rep("NoId", 4))), identical(found$record, c(NA, 3:6)))
found <- as.data.frame(rp_panel(data.frame(t = c("a,b", "a", "a", ""), y = c("c", "b,c", NA, "z"), p_a = 1, q_a = 1:4), c("t", "y"), workers = 1))
stopifnot(identical(found$fault, c("", "", "NoId", "NoId")), identical(found$t, c("a,b", "a", "a", "")))

# ends of lines, commas and quotes in an id
ids <- c("x\ry", "x\ry", "a \"b\", c", "a \"b\", c", "e\nf", "e\r\nf", "=1+1", "\u00e9", strrep("x", 256), strrep("x", 257))
found <- panel(ids)
stopifnot(identical(unname(found$texts[, "household"]), enc2utf8(c(unique(ids)[1:7], ""))), identical(as.data.frame(found)$observations, c(2L, 2L, 1L, 1L, 1L, 1L, 1L, NA)))
stopifnot(as.data.frame(found)$fault[8] == "LongId")

# places of faults are those of the frame; many rows
long <- cbind(note = "x", frame(rep(c("A", "B"), each = 2)))
long$q_a <- c("1", "2", "1", "2,5")
found <- as.data.frame(rp_panel(long, "household", workers = 1))
stopifnot(identical(found$fault, c("", "BadNumber")), identical(found$record, c(NA, 4L)), identical(found$column, c(NA, 5L)))
long <- data.frame(household = rep(c("A", "B"), c(513, 512)), p_a = 1, q_a = 1)
found <- as.data.frame(rp_panel(long, "household", workers = 1))
stopifnot(identical(found$fault, c("TooManyRecords", "")), identical(found$observations, c(NA, 512L)))
many <- do.call(rbind, lapply(1:250, function(at) transform(frame(c("A", "A", "B")), household = paste(household, at))))
some <- lapply(1:2, function(workers) rp_panel(many, "household", workers = workers)$texts)
stopifnot(identical(some[[1]], some[[2]]), nrow(some[[1]]) == 500)

# a panel is shown short, with its faults by cause; a household of too many rows is not told to name more columns
mixed <- frame(rep(paste0("h", 1:9), each = 2))
mixed$q_a <- c(1, 2, "x", 2, "y", 2, rep(1:2, 6))
found <- rp_panel(mixed, "household", workers = 1)
shown <- capture.output(print(found))
stopifnot(length(shown) <= 13, any(shown == "2 with an error: BadNumber, the first 'h2'"), grepl("row 3, column 'q_a', value 'x'", conditionMessage(found$refusals[[2]])))
said <- conditionMessage(rp_panel(long, "household", workers = 1)$refusals[[1]])
stopifnot(grepl("^household 'A': One unit has at most 512 observations", said), !grepl("columns", said))
# an error names its unit, and a row without an id has none
stopifnot(startsWith(conditionMessage(found$refusals[[2]]), "household 'h2', row 3, column 'q_a', value 'x': "), found$refusals[[2]]$unit == "household 'h2'", is.null(found$refusals[[1]]))
twice <- data.frame(town = c("a", "a", "b"), year = 1, obs = 1, p_a = 1, q_a = 1)
said <- lapply(rp_panel(rbind(twice, transform(twice[3, ], town = "")), c("town", "year"), workers = 1)$refusals, function(it) if (!is.null(it)) conditionMessage(it))
stopifnot(startsWith(said[[1]], "town 'a', year '1': rows 1 and 2 are both called 1"), is.null(said[[2]]), startsWith(said[[3]], "row "))
# of budget lines by their intercepts no quasilinear verdict is told anywhere
lines <- data.frame(s = c(1, 1), i_x = c("87.13", "45.50"), i_y = c("33.61", "62.04"), q_x = c("43.2", "20.1"), q_y = c("16.95", "34.63"))
found <- rp_panel(lines, "s", workers = 1)
stopifnot(is.na(found$quasilinear), found$texts[, "quasilinear"] == "", !any(grepl("violated|holds", grep("quasilinear", capture.output(print(found)), value = TRUE))))
# what was spent of offered budgets, by hand: from x + y <= 10, (3, 4) spends 7/10, which halves of a unit do not explain, and (5, 4) 9/10,
# which they do; not so beside numbers with a decimal place, since 5.05/9.95 + 4.05/9.95 is below 1
lines <- data.frame(s = c("u", "u", "v"), i_x = 10, i_y = 10, q_x = c(5, 3, 5), q_y = c(5, 4, 4))
found <- as.data.frame(rp_panel(lines, "s", workers = 1))
stopifnot(identical(found$offered_least, c(0.7, 0.9)), identical(found$below_line, 1:0), identical(found$over_line, c(0L, 0L)))
finer <- rbind(lines, data.frame(s = "w", i_x = 9.9, i_y = 10, q_x = 9.9, q_y = 0.1))
stopifnot(identical(as.data.frame(rp_panel(finer, "s", workers = 1))$below_line[1:2], c(1L, 1L)))
many <- rbind(data.frame(s = paste0("s", 1:400), i_x = 9.9, i_y = 10, q_x = 5, q_y = 4), finer[4, ])
stopifnot(identical(as.data.frame(rp_panel(many, "s", workers = 1))$below_line, c(rep(1L, 400), 0L)))
bad <- transform(lines, s = c("places", "places", "v"), i_x = c(10, 10, 0))
found <- as.data.frame(rp_panel(bad, "s", workers = 1))
stopifnot(identical(found$below_line, c(1L, NA)), identical(found$fault, c("", "ZeroPrice")), identical(found$record, c(NA, 3L)))
stopifnot(!"offered_least" %in% names(panel(c("A", "B"))))

# the same word in each language: by, units, decimals; and subjects are no households
people <- data.frame(subject = c("a", "a", "b", "b", "c"), p_x = c(1, 2, 1, 2, 0), p_y = c(2, 1, 2, 1, 1), q_x = c(1, 2, 2, 1, 1), q_y = c(2, 1, 1, 2, 1))
found <- rp_panel(people, by = "subject", workers = 1)
stopifnot(identical(found$garp, c(FALSE, TRUE, NA)), identical(found$garp, rp_panel(people, id = "subject", workers = 1)$garp))
said <- c(capture.output(print(found)), capture.output(print(summary(found))), as.character(rp_panel_table(found)))
stopifnot(grepl("^panel of 3 subjects by 'subject'", said[1]), !any(grepl("household", said)), any(grepl("Subjects", said)))
stopifnot(any(grepl("^panel of 3 players", capture.output(print(rp_panel(people, "subject", units = "players", workers = 1))))))
every <- caught(rp_panel(transform(people, p_x = 0), "subject", workers = 1), "rp_all_refused")
stopifnot(startsWith(conditionMessage(every), "all 3 subjects have one error, the first, 'a': row 1, column 'p_x', value 0: This price is 0"))
caught(rp_panel(people, "subject", units = 3, workers = 1), "rp_bad_data")
table <- as.character(rp_panel_table(found, thresholds = c("0.8", "0.81")))
stopifnot(any(grepl("^CCEI of at least 0.80 +2 of 2", table)), any(grepl("^CCEI of at least 0.81 +1 of 2", table)), any(grepl("^CCEI, median +0.900", table)))
# an index of exactly 1 is in a bin of its own, whose tick has a label of its own: the scale ends with the bins, at 1
stopifnot(revealed:::shares_in(c(1, 0.999999, 0.9, 1), c(0.9, 0.95, 1), TRUE) == c(0.25, 0.25, 0.5))
drawn <- function(name) Filter(function(it) identical(it[[1]]$name, name), lapply(recordPlot()[[1]], `[[`, 2))
pdf(NULL)
dev.control("enable")
plot(found)
scale <- drawn("C_axis")[[1]]
spike <- drawn("C_axis")[[2]]
words <- drawn("C_mtext")[[1]]
stopifnot(all.equal(scale[[3]], seq(0.7, 1, 0.05)), identical(scale[[4]][c(1, 7)], c("0.70", "1")), identical(spike[[4]], FALSE), all.equal(spike[[3]], 1.05))
stopifnot(words[[2]] == "exactly 1", all.equal(words[[6]], 1.05))
invisible(dev.off())

# the bounds of each unit at new prices are those of its own table
new <- data.frame(x = 1:2, y = c(1, 1))
found <- rp_panel_demand(people, by = "subject", new = new, m = c(3, 4), workers = 1)
own <- rp_demand(people[3:4, -1], new = new, m = c(3, 4))$bounds
mine <- as.data.frame(found)[found$subject == "b", ]
stopifnot(as.character(mine$lower_exact) == as.character(own$lower), as.character(mine$upper_exact) == as.character(own$upper), identical(mine$good, own$good))
# on the budget x + y = 3 the demand at prices (1, 2) and (2, 1) leaves x from 1 to 2
stopifnot(mine$lower[1] == 1, mine$upper[1] == 2, identical(as.data.frame(found)$garp, c(FALSE, rep(TRUE, 4), NA)))
stopifnot(identical(as.data.frame(found)$fault, c(rep("", 5), "ZeroPrice")), grepl("row 5, column 'p_x'", as.data.frame(found)$reason[6]))
shown <- capture.output(print(found))
stopifnot(shown[1:3] == c("panel of 3 subjects by 'subject', bounds on demand for 1", "garp violated 1: no bounds", "1 with an error: ZeroPrice"))
found <- as.data.frame(rp_panel_welfare(cbind(people, obs = c(1, 2, 7, 8, 1)), "subject", new = c(1, 1), workers = 1))
stopifnot(identical(found$observation, c(NA, 7, 8, NA)) || identical(found$observation, c(NA, 7L, 8L, NA)), found$lower[2:3] == 2, found$upper[2:3] == 3)
for (wrong in list(c(1, 0), c(1.1234567, 1))) {
  said <- caught(rp_panel_demand(people, "subject", new = wrong, m = 3, workers = 1), "rp_refused")
  stopifnot(said$file == "new")
}
caught(rp_panel_demand(people, "subject", m = 3, workers = 1), "rp_bad_data")
caught(rp_panel_welfare(transform(people, p_x = 0), "subject", new = c(1, 1), workers = 1), "rp_all_refused")

# certificates are kept when asked for, of units with verdicts, and each is accepted on the table beside it
folder <- file.path(tempfile(), "archive")
kept <- rp_panel(people, by = "subject", workers = 1, certificates = folder)
listed <- utils::read.csv(file.path(folder, "units.csv"), colClasses = "character")
stopifnot(identical(listed$subject, as.character(kept$subject[!nzchar(kept$fault)])), nrow(listed) > 1, nrow(listed) < nrow(kept))
stopifnot(sort(dir(folder)) == sort(c("units.csv", paste0(listed$file, ".csv"), paste0(listed$file, ".json"))))
for (it in listed$file) stopifnot(rp_check(file.path(folder, paste0(it, ".csv")), file.path(folder, paste0(it, ".json")))$accepted)
stopifnot(!rp_check(file.path(folder, "unit_1.csv"), file.path(folder, "unit_2.json"))$accepted)
caught(rp_panel(people, by = "subject", certificates = 7), "rp_bad_data")

# what is no table of these units is no answer
if (.Platform$OS.type == "unix") {
  fake <- function(lines) {
    path <- file.path(tempdir(), "rp-panel")
    writeLines(c("#!/bin/sh", "cat <<'END'", lines, "END"), path)
    Sys.chmod(path)
    path
  }
  head <- paste(revealed:::panel_columns, collapse = ",")
  good <- c("A,1,2,holds,1,1.000000,yes,holds,holds,,,,,,", "B,,,,,,,,,,,,ZeroPrice,2,2")
  stopifnot(identical(as.data.frame(panel(c("A", "B"), exe = fake(c(head, good))))$fault, c("", "ZeroPrice")))
  for (lines in list(
    character(), head, c(head, good[1]), c(head, rev(good)), c(head, good, good[2]), good, c(head, good[1], "B,,,,,,,,,,,,,,"),
    c(head, good[1], "B,1,2,maybe,1,1.000000,yes,holds,holds,,,,,,")
  )) caught(panel(c("A", "B"), exe = fake(lines)), "rp_failed")
  caught(panel("A", exe = "/bin/true"), "rp_failed")
}
