\name{rp_pairs}
\alias{rp_pairs}
\alias{rp_first_contradiction}
\alias{print.rp_pairs}
\alias{as.data.frame.rp_pairs}
\title{Two Observations That Violate GARP}
\description{
Finds the first two observations of which each is revealed preferred to the other, at least once strictly. It is a quick look without
further evidence.
}
\usage{
rp_pairs(p, q = NULL, decimals = digits, levels = NULL, numbers = "shortest",
  exe = NULL, digits = NULL)
rp_first_contradiction(p, q = NULL, decimals = digits, levels = NULL,
  numbers = "shortest", exe = NULL, digits = NULL)
}
\arguments{
\item{p, q, decimals, levels, numbers, exe, digits}{as for \code{\link{rp_test}}.}
}
\details{
If no two observations contradict each other, GARP may still be violated by a longer cycle: use \code{\link{rp_test}}.
\code{rp_first_contradiction} is the same call.
}
\value{
An \code{rp_pairs}: \code{contradiction}, \code{TRUE} or \code{FALSE}, and \code{pair}, the labels of the two observations.
}
\section{Methods and formulas}{
Let \eqn{c(s,t)} be the cost of bundle t at the prices of s. The pair satisfies \eqn{c(S,T) \le c(S,S)} and
\eqn{c(T,S) < c(T,T)} (Varian 1982).
}
\references{
Varian, H. R. (1982). The Nonparametric Approach to Demand Analysis. \emph{Econometrica} 50, 945--973.
}
\seealso{\code{\link{rp_test}}}
\examples{
if (!is.null(rp_program(must = FALSE))) {
  p <- rbind(c(1, 2), c(2, 1))
  print(rp_pairs(p, q = p))
}
}
