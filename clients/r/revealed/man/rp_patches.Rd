\name{rp_patches}
\alias{rp_patches}
\alias{rp_choice_patches}
\alias{print.rp_patches}
\alias{as.data.frame.rp_patches}
\title{Patches of Choices from Budgets}
\description{
Assigns the choices from a few budgets to patches. A patch of a budget has all choices that lie on the same side of every other
budget.
}
\usage{
rp_patches(budgets, choices, per = NULL, decimals = digits, numbers = "shortest",
  exe = NULL, wide = TRUE, digits = NULL)
rp_choice_patches(budgets, choices, per = NULL, decimals = digits,
  numbers = "shortest", exe = NULL, wide = TRUE, digits = NULL)
}
\arguments{
\item{budgets, choices, per, decimals, numbers, exe, wide, digits}{as for \code{\link{rp_random}}.}
}
\details{
\code{\link{rp_random}} uses these patches for its types. \code{rp_choice_patches} is the same call.
}
\value{
An \code{rp_patches}, a list with these elements:
\item{patch}{the numbers of the patches, from 1.}
\item{budget}{the number of the budget of each patch.}
\item{units, total}{how many of the budget's units were chosen in the patch, and how many there are, as texts.}
\item{share}{the exact share of the budget's choices in the patch.}
\item{sides}{a matrix with a column for each budget. A choice in the patch costs more than the income there (\code{above}), exactly
the income (\code{on}), or less (\code{below}).}

\code{as.data.frame} has a row for each patch, with its sides as one text.
}
\section{Methods and formulas}{
Patches are those of Kitamura and Stoye (2018), for the observed choices.
}
\references{
Kitamura, Y. and Stoye, J. (2018). Nonparametric Analysis of Random Utility Models. \emph{Econometrica} 86, 1883--1909.
}
\seealso{\code{\link{rp_random}}}
\examples{
if (!is.null(rp_program(must = FALSE))) {
  budgets <- data.frame(p_bread = 1:2, p_wine = 2:1, w = 4)
  choices <- data.frame(
    budget = c(1, 1, 2, 2), q_bread = c(2, 0, 1, 2), q_wine = c(1, 2, 2, 0), n = c(1, 3, 2, 2)
  )
  print(rp_patches(budgets, choices))
}
}
