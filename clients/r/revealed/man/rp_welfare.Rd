\name{rp_welfare}
\alias{rp_welfare}
\alias{rp_welfare_bounds}
\alias{print.rp_welfare}
\alias{summary.rp_welfare}
\alias{as.data.frame.rp_welfare}
\title{Bounds on the Money Metric at New Prices}
\description{
Computes, for each row of new prices and each observation, bounds on the money metric. The money metric is the minimum cost, at the new
prices, of a bundle as good as the observed one.
}
\usage{
rp_welfare(p, q = NULL, new, decimals = digits, numbers = "shortest", exe = NULL,
  wide = TRUE, digits = NULL)
rp_welfare_bounds(p, q = NULL, new, decimals = digits, numbers = "shortest",
  exe = NULL, wide = TRUE, digits = NULL)
}
\arguments{
\item{p, q, decimals, numbers, exe, wide, digits}{as for \code{\link{rp_test}}.}
\item{new}{new prices, as for \code{\link{rp_demand}}.}
}
\details{
If GARP is violated, all bounds are \code{NA}. The bounds hold for every consumer who is consistent with the purchases. It is not
proved that narrower bounds are impossible. \code{rp_welfare_bounds} is the same call.
}
\value{
An \code{rp_welfare}, a list with these elements:
\item{garp}{whether GARP holds.}
\item{bounds}{a data frame with a row for each row of new prices and each observation. It has \code{lower}, \code{upper}, and \code{at},
the observation whose bundle costs the upper bound. An undetermined lower bound is \code{NA}, and \code{reason} says why. \code{wide} says
whether \code{rp} itself leaves it undetermined.}
}
\section{Methods and formulas}{
The upper bound is the minimum cost, at the new prices, of the observation's own bundle and of all bundles revealed preferred to it. The lower bound is the value of a linear program (Varian 1982).
}
\references{
Varian, H. R. (1982). The Nonparametric Approach to Demand Analysis. \emph{Econometrica} 50, 945--973.
}
\seealso{\code{\link{rp_demand}}, \code{\link{rp_panel_demand}}}
\examples{
if (!is.null(rp_program(must = FALSE))) {
  years <- data.frame(
    obs = 2024:2025, p_bread = c(1.25, 2.5), p_wine = c(2.5, 1.25), q_bread = 2:1, q_wine = 1:2
  )
  print(rp_welfare(years, new = c(bread = 2, wine = 2)))
}
}
