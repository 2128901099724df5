\name{rp_test}
\alias{rp_test}
\alias{rp_analyse}
\alias{rp_certify}
\alias{print.rp_test}
\alias{summary.rp_test}
\alias{as.data.frame.rp_test}
\title{GARP, CCEI and Other Tests of a Table}
\description{
Tests whether prices and chosen quantities of one unit satisfy GARP and Afriat's inequalities. Computes the critical cost
efficiency index (CCEI). Tests whether the utility could be homothetic (HARP) or quasilinear (cyclical monotonicity).
}
\usage{
rp_test(p, q = NULL, decimals = digits, levels = NULL, numbers = "shortest",
  exe = NULL, wide = TRUE, digits = NULL)
rp_analyse(p, q = NULL, decimals = digits, levels = NULL, numbers = "shortest",
  exe = NULL, wide = TRUE, digits = NULL)
rp_certify(p, q = NULL, decimals = digits, levels = NULL, numbers = "shortest",
  exe = NULL, wide = TRUE, digits = NULL)

\method{as.data.frame}{rp_test}(x, row.names = NULL, optional = FALSE,
  what = c("verdicts", "observations"), ...)
}
\arguments{
\item{p}{prices: a matrix or data frame with a row for each observation and a column for each good. Without \code{q}, a data
frame with columns \code{p_NAME} and \code{q_NAME} for each good. It may have the columns \code{e} and \code{obs}. Other
columns are left out, and the printed result names them. See Details for budget lines by intercepts and for labels.}
\item{q}{quantities in the same shape. If both have column names, goods are matched by name, without \code{p_} and
\code{q_} in front. Otherwise goods are matched by their position.}
\item{decimals, digits}{the number of decimal places to round to, half to even. One number counts for prices and quantities.
If you give two, the second counts for quantities, and \code{NA} leaves a kind unrounded. Without \code{decimals} nothing is
rounded. \code{digits} is an older name of \code{decimals}.}
\item{numbers}{which number a double is. \code{"shortest"} is the shortest decimal that gives the double back, such as 23.86.
\code{"exact"} is the binary fraction itself, such as 23.859999999999999431566. A double that needs more than 6 decimal places
or 7 digits is rejected.}
\item{levels}{the efficiency level of each observation: the share of its expenditure that counts (Varian 1990). Give a share
such as 0.95, or integer thousandths from 1 to 1000: one number, or one for each observation. A data frame may have levels in
its column \code{e}.}
\item{exe}{the program or its library. By default \code{\link{rp_program}} finds one.}
\item{wide}{whether to use \code{rp-wide} for results that \code{rp} leaves undetermined. A library has both. For a program, the
variable \code{RP_WIDE} names \code{rp-wide}, or it is the file beside \code{rp}. With \code{FALSE}, only \code{rp} is used.}
\item{x}{a result of \code{rp_test}.}
\item{what}{a row of verdicts, or a row for each observation.}
\item{row.names, optional, ...}{not used.}
}
\details{
\code{rp_test} and \code{rp_analyse} are two names of one call. \code{rp_certify} returns the certificate alone.

\strong{Labels.} A column \code{obs} has the labels of the rows. Without it, the row names are the labels. A repeated label is
an error. A column such as \code{subject} or \code{id} with repeated values is an error too: the table is most likely a
panel. Use \code{\link{rp_panel}}.

\strong{Intercepts.} Budget lines of two goods may have their intercepts in columns \code{i_NAME}, in place of \code{p_NAME}.
The intercepts are exchanged for prices, which is exact. Each row then has its own unit of money, so \code{quasilinear} is
\code{NA}, with the reason.

\strong{Doubles.} The printed result says if doubles were read as decimals that are other numbers.
See \link{revealed-package}.
}
\value{
An \code{rp_test}, a list with these elements:
\item{garp, afriat, homothetic, quasilinear}{\code{TRUE} or \code{FALSE}; \code{NA} if the verdict is undetermined, with the
reason in \code{reasons}.}
\item{efficiency, ccei}{the CCEI as an exact text, and as the nearest double. \code{ccei} is 1 only if the CCEI is 1.}
\item{attained}{whether GARP holds at the CCEI itself.}
\item{ranks, utility, lambda}{if GARP holds: the rank of each observation and its Afriat numbers, by the labels of the rows.}
\item{cycle}{if GARP is violated: the labels of a violating cycle.}
\item{wide}{the verdicts that \code{rp} leaves undetermined and \code{rp-wide} found.}
\item{evidence, certificate}{the rest of the evidence, and all evidence as JSON for \code{\link{rp_check}}.}
\item{table}{the data that were tested.}

With efficiency levels, \code{garp} and \code{afriat} use them. The other verdicts do not depend on them.

Utilities and quasilinear values are in units of price times quantity. Ranks are integers. All other numbers are exact texts
(see \code{\link{rp_exact}}).
}
\section{Methods and formulas}{
Let \eqn{c(s,t)} be the cost of bundle t at the prices of observation s. Observation s is directly revealed preferred to t if
\eqn{c(s,t) \le c(s,s)}, and strictly if \eqn{c(s,t) < c(s,s)}. GARP holds if no cycle of direct revealed preferences has a
strict one (Varian 1982). With a level \eqn{e(s)}, \eqn{c(s,s)} is replaced by \eqn{e(s) c(s,s)}.

Afriat numbers satisfy \eqn{U(t) \le U(s) + \lambda(s) (c(s,t) - c(s,s))} for all s and t (Afriat 1967).

The CCEI is the supremum of the levels, the same for all observations, at which GARP holds (Afriat 1973).

HARP holds if the product of the ratios \eqn{c(t,s) / c(t,t)} along every cycle is at least 1 (Varian 1983). Cyclical monotonicity
holds if the sum of \eqn{c(t,s) - c(t,t)} along every cycle is at least 0 (Brown and Calsamiglia 2007).
}
\references{
Afriat, S. N. (1967). The Construction of Utility Functions from Expenditure Data. \emph{International Economic Review} 8, 67--77.

Afriat, S. N. (1973). On a System of Inequalities in Demand Analysis: An Extension of the Classical Method. \emph{International Economic Review} 14, 460--472.

Brown, D. J. and Calsamiglia, C. (2007). The Nonparametric Approach to Applied Welfare Analysis. \emph{Economic Theory} 31, 183--188.

Varian, H. R. (1982). The Nonparametric Approach to Demand Analysis. \emph{Econometrica} 50, 945--973.

Varian, H. R. (1983). Non-parametric Tests of Consumer Behaviour. \emph{Review of Economic Studies} 50, 99--110.

Varian, H. R. (1990). Goodness-of-Fit in Optimizing Models. \emph{Journal of Econometrics} 46, 125--140.
}
\seealso{\code{\link{rp_panel}} for many units, \code{\link{rp_check}}, \code{\link{plot.rp_test}}}
\examples{
if (!is.null(rp_program(must = FALSE))) {
  p <- rbind(c(1, 2), c(2, 1))
  print(rp_test(p, q = p))
  years <- data.frame(
    obs = 2024:2025, p_bread = c(1.25, 2.5), p_wine = c(2.5, 1.25), q_bread = 2:1, q_wine = 1:2
  )
  print(as.data.frame(rp_test(years), what = "observations"))
}
}
