\name{rp_power}
\alias{rp_power}
\alias{rp_test_power}
\alias{print.rp_power}
\alias{as.data.frame.rp_power}
\title{Power: How Often Random Behaviour Violates GARP}
\description{
Draws random behaviour on the budgets of a table, and counts how many draws violate GARP (after Bronars 1987).
}
\usage{
rp_power(p, q = NULL, seed, draws = 1000, decimals = digits, numbers = "shortest",
  exe = NULL, digits = NULL)
rp_test_power(p, q = NULL, seed, draws = 1000, decimals = digits, numbers = "shortest",
  exe = NULL, digits = NULL)
}
\arguments{
\item{p, q, decimals, numbers, exe, digits}{as for \code{\link{rp_test}}.}
\item{seed}{an integer from 0 to 2^64 - 1. Give an integer above 2^53 as a text.}
\item{draws}{how many behaviours are drawn, 1 to 1000.}
}
\details{
The count is for one seed; it is not a probability. The draws crowd around equal shares, and violate GARP less often than uniform
draws. Papers draw uniformly on the budget line: use \code{\link{rp_random_panel}} beside published numbers.

\code{rp_test_power} is the same call.
}
\value{
An \code{rp_power}: \code{violations}, \code{draws}, \code{power}, the share of draws that violate GARP, and \code{seed}.
}
\section{Methods and formulas}{
The share of a good is a random integer from 0 to 99, divided by the sum over goods. The quantity is the integer part of what this
share of the expenditure buys. The generator is PCG XSH RR 64/32 (O'Neill 2014).
}
\references{
Bronars, S. G. (1987). The Power of Nonparametric Tests of Preference Maximization. \emph{Econometrica} 55, 693--698.

O'Neill, M. E. (2014). PCG: A Family of Simple Fast Space-Efficient Statistically Good Algorithms for Random Number Generation.
Harvey Mudd College, technical report HMC-CS-2014-0905.
}
\seealso{\code{\link{rp_random_panel}} for uniform draws, \code{\link{rp_test}}}
\examples{
if (!is.null(rp_program(must = FALSE))) {
  p <- rbind(c(1, 2), c(2, 1))
  print(rp_power(p, q = p, seed = 7))
}
}
