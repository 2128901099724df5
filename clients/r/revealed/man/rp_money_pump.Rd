\name{rp_money_pump}
\alias{rp_money_pump}
\alias{rp_pump}
\alias{print.rp_pump}
\alias{as.data.frame.rp_pump}
\title{Maximum Money Pump Index}
\description{
Computes the maximum money pump index: the maximum share of expenditure that a trader could extract along a cycle of revealed
preferences. It is 0 if GARP holds.
}
\usage{
rp_money_pump(p, q = NULL, decimals = digits, numbers = "shortest", exe = NULL,
  digits = NULL)
rp_pump(p, q = NULL, decimals = digits, numbers = "shortest", exe = NULL, digits = NULL)
}
\arguments{
\item{p, q, decimals, numbers, exe, digits}{as for \code{\link{rp_test}}. All prices must be in one unit of money. A data frame of
intercepts, \code{i_NAME} in place of \code{p_NAME}, is therefore rejected.}
}
\details{
Echenique, Lee and Shum report the mean over short cycles. This call returns the maximum over all cycles, so do not compare the two
numbers. \code{rp_pump} is the same call.
}
\value{
An \code{rp_pump}, a list with these elements:
\item{ratio, pump}{the index, exactly, and as the nearest double. \code{pump} is 0 only if the index is 0.}
\item{garp}{whether the index is 0.}
\item{cycle}{a cycle that has the index.}
\item{values}{numbers that show that no cycle has more, in units of money.}
}
\section{Methods and formulas}{
Let \eqn{c(s,t)} be the cost of bundle t at the prices of s. The index of a cycle is the sum of \eqn{c(s,s) - c(s,t)}, divided by the
sum of \eqn{c(s,s)} (Echenique, Lee and Shum 2011).
}
\references{
Echenique, F., Lee, S. and Shum, M. (2011). The Money Pump as a Measure of Revealed Preference Violations. \emph{Journal of Political
Economy} 119, 1201--1223.
}
\seealso{\code{\link{rp_test}} for the CCEI, \code{\link{rp_panel}} with \code{ask = "pump"}}
\examples{
if (!is.null(rp_program(must = FALSE))) {
  p <- rbind(c(1, 2), c(2, 1))
  print(rp_money_pump(p, q = p))
}
}
