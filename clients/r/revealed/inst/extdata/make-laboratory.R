# Makes laboratory.csv: the raw data of a made-up experiment, as a laboratory's program writes it. 30 subjects choose in 25
# rounds from budget lines of two goods; a line is kept by its two intercepts, between 40 and 100. The first 18 subjects
# maximize a utility of constant elasticity, and their choices are moved a little in share; 8 move more; 4 choose anywhere.
set.seed(20261129, "Mersenne-Twister", "Inversion", "Rejection")
rows <- list()
for (subject in 1:30) {
  weight <- runif(1, 0.3, 0.7)
  elasticity <- runif(1, 0.4, 2.5)
  noise <- if (subject <= 18) 0.01 else if (subject <= 26) 0.10 else NA
  a <- round(runif(25, 40, 100), 2)
  b <- round(runif(25, 40, 100), 2)
  # The share of what is spent on x, at prices 1/a and 1/b.
  ratio <- (weight / (1 - weight))^elasticity * (b / a)^(1 - elasticity)
  share <- if (is.na(noise)) runif(25) else pmin(1, pmax(0, ratio / (1 + ratio) + rnorm(25, 0, noise)))
  rows[[subject]] <- data.frame(
    subject = sprintf("s%02d", subject), round = 1:25, x_intercept = sprintf("%.2f", a), y_intercept = sprintf("%.2f", b),
    x = sprintf("%.3f", share * a), y = sprintf("%.3f", (1 - share) * b)
  )
}
write.csv(do.call(rbind, rows), "laboratory.csv", row.names = FALSE, quote = FALSE)
