\name{rp_panel_demand}
\alias{rp_panel_demand}
\alias{rp_panel_welfare}
\alias{print.rp_panel_bounds}
\alias{as.data.frame.rp_panel_bounds}
\alias{[.rp_panel_bounds}
\title{Bounds at New Prices for a Panel}
\description{
Computes, for each unit of a long data frame, bounds on demand at new budgets, or bounds on the money metric at new prices. All
processors are used.
}
\usage{
rp_panel_demand(data, by, new, m = NULL, decimals = NULL, workers = NULL,
  numbers = "shortest", progress = interactive(), exe = NULL, wide = TRUE,
  units = NULL)
rp_panel_welfare(data, by, new, decimals = NULL, workers = NULL,
  numbers = "shortest", progress = interactive(), exe = NULL, wide = TRUE,
  units = NULL)
}
\arguments{
\item{data, by, decimals, workers, numbers, progress, exe, wide, units}{as for \code{\link{rp_panel}}.}
\item{new, m}{new prices, and for demand the new expenditure, as for \code{\link{rp_demand}}. They are the same for each unit.}
}
\details{
The program \code{rp-panel} or the library computes the bounds. A unit that violates GARP, or has an error, has one row. An error in
the new prices stops the call, and so does an error that all units have.
}
\value{
An \code{rp_panel_bounds}: a data frame with a row for each bound. Its columns are:
\item{by}{the column or columns of ids.}
\item{budget, good}{for demand: the numbers of the new budget and of the good.}
\item{prices, observation}{for welfare: the number of the new prices, and the observation.}
\item{garp}{whether the unit satisfies GARP.}
\item{lower, upper}{the bounds, rounded down and up.}
\item{lower_exact, upper_exact}{the exact bounds.}
\item{reason}{why a bound is missing.}
\item{fault}{the error of the unit.}
}
\section{Methods and formulas}{
The bounds are those of \code{\link{rp_demand}} and \code{\link{rp_welfare}}, unit by unit.
}
\references{
Varian, H. R. (1982). The Nonparametric Approach to Demand Analysis. \emph{Econometrica} 50, 945--973.
}
\seealso{\code{\link{rp_panel}}, \code{\link{rp_demand}}, \code{\link{rp_welfare}}}
\examples{
if (!is.null(rp_program(must = FALSE))) {
  long <- data.frame(
    subject = c("a", "a", "b", "b"), p_x = c(1, 2, 1, 2), p_y = c(2, 1, 2, 1),
    q_x = c(1, 2, 2, 1), q_y = c(2, 1, 1, 2)
  )
  rp_panel_demand(long, by = "subject", new = c(x = 1, y = 1), m = 3, workers = 2)
  as.data.frame(rp_panel_welfare(long, by = "subject", new = c(1, 1), workers = 2))
}
}
