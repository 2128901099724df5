\name{rp_check}
\alias{rp_check}
\alias{rp_checkrandom}
\alias{print.rp_checked}
\title{Check of a Certificate}
\description{
Checks whether a certificate, whoever made it, proves its verdicts on a table or on choices.
}
\usage{
rp_check(data, certificate, per = NULL, levels = NULL, exe = NULL, wide = TRUE)
rp_checkrandom(budgets, choices, certificate, per = NULL, exe = NULL, wide = TRUE)
}
\arguments{
\item{data}{a result of \code{\link{rp_test}}, \code{\link{rp_fit}}, \code{\link{rp_demand}}, \code{\link{rp_welfare}} or
\code{\link{rp_random}}. Or a
data frame as for \code{rp_test}, a list of prices and quantities, or \code{list(budgets =, choices =)}. Or the name of a CSV
file, or two names, of budgets and of choices.}
\item{budgets, choices}{as for \code{\link{rp_random}}.}
\item{certificate}{a result, its JSON as a text, or the name of its file.}
\item{per}{for choices, the number of units that their shares were rounded to.}
\item{levels}{efficiency levels, as for \code{\link{rp_test}}. A file has them in its column \code{e}.}
\item{exe}{the program, as for \code{\link{rp_test}}.}
\item{wide}{whether \code{rp-wide} checks choices that have too many patches or types for \code{rp}, as for
\code{\link{rp_random}}.}
}
\details{
A certificate that is rejected is not an error of R. The result says which item fails.
}
\value{
An \code{rp_checked}, a list with these elements:
\item{accepted}{\code{TRUE} if the certificate proves its verdicts.}
\item{items, withheld}{if accepted: the number of items, and how many of their values are undetermined.}
\item{item, reason, place}{if rejected: the first item that fails, why, and where.}
\item{wide}{whether \code{rp-wide} checked the certificate, because \code{rp} itself rejects the data, or because the certificate is
that of \code{rp_fit}.}
\item{says}{if accepted: a line for each item, with its verdict and index. If rejected: what the first item that fails
claims, what is wrong with it, and what a rejection means. \code{print} shows these lines.}
}
\section{Methods and formulas}{
Each item is checked by its definition. Ranks prove that GARP holds and a cycle proves that it is violated (Varian 1982). Numbers
that satisfy Afriat's inequalities prove that a utility exists (Afriat 1967). The certificates of \code{\link{rp_fit}} prove indices of
goodness of fit, or bounds on them.
}
\references{
Afriat, S. N. (1967). The Construction of Utility Functions from Expenditure Data. \emph{International Economic Review} 8, 67--77.

Varian, H. R. (1982). The Nonparametric Approach to Demand Analysis. \emph{Econometrica} 50, 945--973.
}
\seealso{\code{\link{rp_test}}, \code{\link{rp_theorem}}}
\examples{
if (!is.null(rp_program(must = FALSE))) {
  p <- rbind(c(1, 2), c(2, 1))
  verdict <- rp_test(p, q = p)
  print(rp_check(verdict, verdict$certificate))
  print(rp_check(list(p, rbind(c(2, 1), c(1, 2))), verdict$certificate))
}
}
