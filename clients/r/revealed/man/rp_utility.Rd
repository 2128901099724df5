\name{rp_utility}
\alias{rp_utility}
\alias{rp_afriat_utility}
\alias{print.rp_utility}
\alias{as.data.frame.rp_utility}
\title{Utility of Other Bundles by Afriat Numbers}
\description{
Computes the utility of bundles by Afriat's utility function, from the Afriat numbers of the table.
}
\usage{
rp_utility(p, q = NULL, bundles, decimals = digits, levels = NULL,
  numbers = "shortest", exe = NULL, digits = NULL)
rp_afriat_utility(p, q = NULL, bundles, decimals = digits, levels = NULL,
  numbers = "shortest", exe = NULL, digits = NULL)
}
\arguments{
\item{p, q, decimals, levels, numbers, exe, digits}{as for \code{\link{rp_test}}. Bundles are rounded as quantities are.}
\item{bundles}{a matrix or data frame with a column for each good, or one row of numbers; at most 16 rows. Goods are matched by name
where there are names.}
}
\details{
\code{rp_afriat_utility} is the same call.
}
\value{
An \code{rp_utility}, a list with these elements:
\item{values}{the utilities: exact, in units of money where lambda is 1. All are \code{NA} if GARP is violated or the Afriat numbers are
undetermined, and \code{reason} says which.}
\item{garp}{whether GARP holds.}
\item{utility, lambda}{if GARP holds: the Afriat numbers.}
\item{cycle}{if GARP is violated: a violating cycle.}
}
\section{Methods and formulas}{
The utility of a bundle x is the minimum over observations s of \eqn{U(s) + \lambda(s) (p(s) x - c(s,s))}. Here \eqn{c(s,s)} is the
expenditure of s (Afriat 1967).
}
\references{
Afriat, S. N. (1967). The Construction of Utility Functions from Expenditure Data. \emph{International Economic Review} 8, 67--77.
}
\seealso{\code{\link{rp_test}}, \code{\link{rp_welfare}}}
\examples{
if (!is.null(rp_program(must = FALSE))) {
  years <- data.frame(
    obs = 2024:2025, p_bread = c(1.25, 2.5), p_wine = c(2.5, 1.25), q_bread = 2:1, q_wine = 1:2
  )
  print(rp_utility(years, bundles = c(bread = 3, wine = 3)))
}
}
