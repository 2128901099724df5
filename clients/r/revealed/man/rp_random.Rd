\name{rp_random}
\alias{rp_random}
\alias{rp_random_utility}
\alias{print.rp_random}
\alias{summary.rp_random}
\alias{as.data.frame.rp_random}
\title{Random Utility: Choices of a Population from Budgets}
\description{
Tests whether a population of utility maximizers could have made the choices of many people from a few budgets. If not, computes the
maximum share of the choices that such a population could have made.
}
\usage{
rp_random(budgets, choices, per = NULL, decimals = digits, numbers = "shortest",
  exe = NULL, wide = TRUE, digits = NULL, steps = NULL)
rp_random_utility(budgets, choices, per = NULL, decimals = digits,
  numbers = "shortest", exe = NULL, wide = TRUE, digits = NULL, steps = NULL)

\method{as.data.frame}{rp_random}(x, row.names = NULL, optional = FALSE,
  what = c("types", "patches"), ...)
}
\arguments{
\item{budgets}{a data frame with \code{p_NAME} for each good and \code{m}, the income (or \code{w}); or a matrix of prices that ends
with the income.}
\item{choices}{a data frame with \code{budget}, \code{q_NAME} for each good, and \code{n}, how many times this was chosen. Without
\code{n} each row is the choice of one person. Or a matrix that begins with the budget and ends with \code{n}. A budget is its number
from 1, or its value in the column \code{budget} or \code{obs} of the budgets.}
\item{per}{the number of units that the shares of each budget are rounded to. By default nothing is rounded.}
\item{decimals, numbers, exe, digits}{as for \code{\link{rp_test}}. The income is rounded as prices are.}
\item{wide}{whether \code{rp-wide} is used for choices with more patches or types than \code{rp} lists.}
\item{steps}{a limit for the searches of \code{rp-wide}, in steps. A result that is not found by then is undetermined.}
\item{x}{a result of \code{rp_random}.}
\item{what}{a row for each type, or a row for each patch of these types. A patch has its budget, and the share of the budget's choices
that the types make there.}
\item{row.names, optional, ...}{not used.}
}
\details{
The shares are taken as exact. \code{FALSE} is not a statistical rejection: sampling error is not modelled. For a statistical test,
use the method of Kitamura and Stoye (2018).

Patches are counted from 1, budget by budget. Within a budget the first choice of each patch decides the order.
\code{\link{rp_patches}} shows on which side of every budget each patch lies. \code{rp_random_utility} is the same call.

The search of \code{rp-wide} can take more than an hour, unless \code{steps} sets a limit. On a terminal and in RStudio, R says how long it has worked. Ctrl-C or Esc
ends its process without a result. On Windows the call cannot be interrupted.
}
\value{
An \code{rp_random}, a list with these elements:
\item{rational}{\code{TRUE} or \code{FALSE}; \code{NA} if the verdict is undetermined, and \code{reason} says why.}
\item{share}{the maximum share of the choices that a population of utility maximizers could have made.}
\item{parts}{the types that make this share, each with its patches and its share.}
\item{weights}{if \code{rational} is \code{FALSE}: weights of the patches by which each rational type weighs 1 or more.}
\item{wide}{whether \code{rp} itself rejects these choices.}
}
\section{Methods and formulas}{
A rational type has one patch of each budget, without a violation of GARP. Random utility rationalizes the choices if
weights of such types add up to the observed shares (McFadden and Richter 1990; Kitamura and Stoye 2018).
}
\references{
Kitamura, Y. and Stoye, J. (2018). Nonparametric Analysis of Random Utility Models. \emph{Econometrica} 86, 1883--1909.

McFadden, D. and Richter, M. K. (1990). Stochastic Rationality and Revealed Stochastic Preference. In J. Chipman, D. McFadden and
M. K. Richter (editors), \emph{Preferences, Uncertainty, and Optimality}. Westview Press.
}
\seealso{\code{\link{rp_patches}}, \code{\link{rp_menus}} for choices from menus, \code{\link{rp_checkrandom}}}
\examples{
if (!is.null(rp_program(must = FALSE))) {
  budgets <- data.frame(p_bread = 1:2, p_wine = 2:1, w = 4)
  choices <- data.frame(
    budget = c(1, 1, 2, 2), q_bread = c(2, 0, 1, 2), q_wine = c(1, 2, 2, 0), n = c(1, 3, 2, 2)
  )
  print(rp_random(budgets, choices))
}
}
