\name{rp_cost}
\alias{rp_cost}
\alias{rp_cost_minimisation}
\alias{print.rp_cost}
\alias{summary.rp_cost}
\alias{as.data.frame.rp_cost}
\title{Cost Minimization and Profit Maximization of a Firm}
\description{
Tests whether a firm minimizes cost (WACM). If the output has a price, tests whether the firm maximizes profit (WAPM). Bounds what an
output costs at new input prices.
}
\usage{
rp_cost(technology, new, decimals = digits, numbers = "shortest", exe = NULL,
  wide = TRUE, digits = NULL)
rp_cost_minimisation(technology, new, decimals = digits, numbers = "shortest",
  exe = NULL, wide = TRUE, digits = NULL)
}
\arguments{
\item{technology}{a data frame with \code{w_NAME}, the price, and \code{x_NAME}, the amount used, for each input. The column \code{y}
has the output, and \code{p}, if there is one, the price of the output.}
\item{new}{a data frame with \code{w_NAME} for each input and \code{y}, the output to be costed; at most 16 rows.}
\item{decimals, numbers, digits}{as for \code{\link{rp_test}}: for prices, and for inputs and outputs.}
\item{exe, wide}{as for \code{\link{rp_test}}.}
}
\details{
\code{rp_cost_minimisation} is the same call.
}
\value{
An \code{rp_cost}, a list with these elements:
\item{cost, profit}{whether WACM and WAPM hold. \code{profit} is there if the output has a price.}
\item{cost_pair, profit_pair}{the first two observations that violate the axiom.}
\item{bounds}{a row for each row of \code{new}: the output, \code{lower}, \code{upper}, and \code{at}, the observation whose inputs
cost the upper bound. A bound that does not exist or is undetermined is \code{NA}, and \code{reason} says why. \code{wide} says
whether \code{rp} itself leaves the lower bound undetermined.}
}
\section{Methods and formulas}{
WACM: at no observation's prices would the inputs of an observation with as much output, or more, have cost less than its own inputs.
WAPM: at no observation's prices would the inputs and output of another observation have made more profit (Varian 1984). The lower
bound is the value of a linear program.
}
\references{
Varian, H. R. (1984). The Nonparametric Approach to Production Analysis. \emph{Econometrica} 52, 579--597.
}
\seealso{\code{\link{rp_test}} for consumers}
\examples{
if (!is.null(rp_program(must = FALSE))) {
  firm <- data.frame(
    y = 1:2, p = 5:4, w_labour = 1:2, w_coal = 2:1, x_labour = c(2, 2), x_coal = 1:2
  )
  print(rp_cost(firm, data.frame(w_labour = 1, w_coal = 1, y = 1)))
}
}
