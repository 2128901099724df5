# Theorems that rp-second writes, where it is; and what is said where it is not.
library(revealed)
source(system.file("testing", "opening.R", package = "revealed"))
need_program()
P <- rbind(c(1, 2), c(2, 1))
v <- rp_test(P, P)

# ---- without the program
old <- Sys.getenv("RP_SECOND")
Sys.setenv(RP_SECOND = "/nowhere/rp-second")
wrong <- caught(rp_theorem(v), "rp_no_program")
stopifnot(grepl("coq, ocaml-findlib and libzarith-ocaml-dev", conditionMessage(wrong), fixed = TRUE))
Sys.setenv(RP_SECOND = old)

# ---- with it
if (nzchar(old)) {
  to <- tempfile(fileext = ".v")
  text <- rp_theorem(v, file = to)
  stopifnot(identical(readLines(to), text), "Theorem garp_violated : ~ garp observed (by_own observed)." %in% text)
  stopifnot("Theorem efficiency_is : efficiency_index observed (4 # 5)." %in% text)
  stopifnot(identical(rp_theorem(list(P, P)), text))
  wrong <- caught(rp_theorem(list(P, rbind(c(2, 1), c(1, 2))), v), "rp_bad_data")
  stopifnot(grepl("rejected item 1", conditionMessage(wrong)))
  paired <- rp_theorem(list(P, P), pairs = TRUE)
  stopifnot("Theorem garp_pairs_are : pairs_in observed (garp_pair observed) 2." %in% paired)
  pumped <- rp_theorem(rp_money_pump(P, P))
  stopifnot("Theorem money_pump_is : pump_index observed (1 # 5)." %in% pumped)
  stopifnot(identical(rp_theorem(list(P, P), pump = TRUE), pumped))
  caught(rp_theorem(v, per = 5), "rp_bad_data")
  menus <- data.frame(menu = c("abc", "abc", "ab"), choice = c("a", "b", "b"), n = c(1, 1, 2))
  ranked <- rp_theorem(rp_menus(menus))
  stopifnot("Theorem greatest_share_is : forall K, greatest_share_of_rankings K observed (1 # 2)." %in% ranked)
  in_fifths <- rp_theorem(rp_menus(menus, per = 5))
  stopifnot(
    "Theorem choices_rounded : rounded_choices 5 observed rounded." %in% in_fifths,
    "Theorem greatest_share_is : forall K, greatest_share_of_rankings K rounded (2 # 5)." %in% in_fifths
  )
  budgets <- rbind(c(1, 2, 4), c(2, 1, 4))
  colnames(budgets) <- c("p_a", "p_b", "w")
  choices <- data.frame(budget = c(1, 1, 2, 2), q_a = c(2, 0, 1, 2), q_b = c(1, 2, 2, 0), n = c(1, 3, 2, 2))
  rounded <- rp_theorem(rp_random(as.data.frame(budgets), choices, per = 5))
  stopifnot("Theorem shares_rounded : rounded_shares 5 shares rounded." %in% rounded)
}
