# What is keyed by the catalogue: a sentence for each fault and each reason, a call for each command, and its limits.
library(revealed)
own <- asNamespace("revealed")
stopifnot(!anyDuplicated(own$fault_names()))
for (fault in c(own$fault_names(), "NoId", "LongId")) stopifnot(grepl("^[A-Z].*[.]$", own$plain_hint(fault)), !grepl("--", own$plain_hint(fault)))
for (reason in unlist(own$catalogue()$reasons)) stopifnot(grepl("^[A-Z].*[.]$", own$sentence(reason, "reason")))
own_words <- Filter(function(it) it$code == "ZeroPrice", own$catalogue()$hints)[[1]]
stopifnot(startsWith(own$plain_hint("ZeroPrice"), own_words$wrong), grepl("per = 10000", own$plain_hint("NeedUnit")))
# What units are called, by the name of the column that tells them apart.
called <- vapply(c("subject", "Subject_ID", "hhid", "town", "firm no"), own$units_by, "")
stopifnot(called == c("subjects", "subjects", "households", "units", "firms"), own$units_by(c("town", "hh")) == "households")
# Indices: the nearest number, of two the even one, and only 1 reads 1.
stopifnot(own$shown_index(own$exact(c("1825/2000", "1827/2000", "999999/1000000", "1", "1/1000000", "0")), 3) == c("0.912", "0.914", "0.999", "1.000", "<0.001", "0.000"))
commands <- vapply(own$catalogue()$commands, function(it) it$name, "")
stopifnot(length(commands) == 15, vapply(paste0("rp_", commands), exists, TRUE, where = "package:revealed"))
stopifnot(own$limit("table.records") == 512L, own$most_places() == 6L, own$digits_taken() == 7L)
stopifnot(identical(own$range_of("power", "N"), c("1", "1000")), identical(own$range_of("random", "--per"), c("1", "1000000000")))
stopifnot(identical(own$range_of("power", "SEED"), c("0", "18446744073709551615")))
