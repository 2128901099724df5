\name{rp_demand}
\alias{rp_demand}
\alias{rp_demand_bounds}
\alias{print.rp_demand}
\alias{summary.rp_demand}
\alias{as.data.frame.rp_demand}
\title{Bounds on Demand at New Budgets}
\description{
Computes, for each new budget and each good, the infimum and the supremum over all consistent demands. A demand is consistent if GARP
still holds when the demand is added to the table.
}
\usage{
rp_demand(p, q = NULL, new, m = NULL, decimals = digits, numbers = "shortest",
  exe = NULL, wide = TRUE, digits = NULL)
rp_demand_bounds(p, q = NULL, new, m = NULL, decimals = digits, numbers = "shortest",
  exe = NULL, wide = TRUE, digits = NULL)
}
\arguments{
\item{p, q, decimals, numbers, exe, wide, digits}{as for \code{\link{rp_test}}.}
\item{new}{new prices: a matrix or data frame with a column for each good, or one row of numbers. Goods are matched by name where
there are names.}
\item{m}{the new expenditure: one number, or one for each row. A data frame of new prices may have it in its column \code{m}. It is
rounded as prices are.}
}
\details{
If GARP is violated, no demand is consistent, and all bounds are \code{NA}. \code{rp_demand_bounds} is the same call.
}
\value{
An \code{rp_demand}, a list with these elements:
\item{garp}{whether GARP holds.}
\item{bounds}{a data frame with a row for each budget and good: \code{lower}, \code{upper}, and \code{inner}, the amount in one
consistent demand. An undetermined bound is \code{NA}, and \code{reason} says why. \code{wide} names the bounds of a row that
\code{rp} itself leaves undetermined.}
\item{below, strict}{the observations that each budget is revealed preferred to, and strictly revealed preferred to.}
\item{certificate}{the evidence, for \code{\link{rp_check}}.}

The numbers of \code{bounds} are exact. \code{as.data.frame} has doubles beside them: lower bounds are rounded down, and upper bounds
up.
}
\section{Methods and formulas}{
Each bound is the value of a linear program over the bundles on the new budget (Varian 1982). The dual solution is the evidence.
}
\references{
Varian, H. R. (1982). The Nonparametric Approach to Demand Analysis. \emph{Econometrica} 50, 945--973.
}
\seealso{\code{\link{rp_welfare}}, \code{\link{rp_panel_demand}}}
\examples{
if (!is.null(rp_program(must = FALSE))) {
  years <- data.frame(
    obs = 2024:2025, p_bread = c(1.25, 2.5), p_wine = c(2.5, 1.25), q_bread = 2:1, q_wine = 1:2
  )
  print(rp_demand(years, new = c(bread = 2, wine = 2), m = 6))
}
}
