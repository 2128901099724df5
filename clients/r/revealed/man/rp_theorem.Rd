\name{rp_theorem}
\alias{rp_theorem}
\title{Verdicts as Theorems for Coq}
\description{
Writes a file of Coq that proves the verdicts on a table, or on choices from budgets. Coq's kernel checks the proofs. You need not
trust this package or the program.
}
\usage{
rp_theorem(data, certificate = NULL, file = NULL, levels = NULL, exe = NULL,
  per = NULL, pairs = FALSE, pump = FALSE)
}
\arguments{
\item{data}{a result of \code{\link{rp_test}}, \code{\link{rp_demand}}, \code{\link{rp_welfare}} or \code{\link{rp_random}}, which has
its own certificate. Or a result of \code{\link{rp_money_pump}}, \code{\link{rp_menus}} or
\code{\link{rp_cost}}. Or a data frame, or a list of prices and quantities, which \code{rp_test} analyses. Or, with a certificate, data
as for \code{\link{rp_check}}; the certificate of a table may be one on goodness of fit.}
\item{certificate}{a result, its JSON as a text, or the name of its file.}
\item{file}{the name of the file to write, such as \code{"Paper.v"}. \code{NULL} writes none.}
\item{levels}{efficiency levels, as for \code{\link{rp_test}}.}
\item{exe}{the program \code{rp-second}. By default the variable \code{RP_SECOND} names it, or it is on the path.}
\item{per}{the number of units that the shares of choices are rounded to, as for \code{\link{rp_random}}. A result of
\code{rp_random} or \code{rp_menus} has its own.}
\item{pairs}{\code{TRUE} proves which observations of a table contradict each other, and how many by each axiom. It needs no
certificate.}
\item{pump}{\code{TRUE} proves the maximum money pump index of a table.}
}
\details{
The release has \code{rp-second} for Linux in \file{rp-second-VERSION.tar.gz}. In the unpacked folder, \code{make theories}
compiles the theories once, by the package \code{coq} of Debian 12. Then \code{coqc -Q theories Second Paper.v} checks the
theorems there. Compare the text of the table in \file{Paper.v} with your data.
}
\value{
The lines of the file, invisibly. A certificate that is rejected is an error, because it has no theorem.
}
\section{Methods and formulas}{
The file states each verdict by its definition, such as GARP (Varian 1982), over fractions.
}
\references{
The Coq Development Team (2022). \emph{The Coq Proof Assistant}, version 8.16.

Varian, H. R. (1982). The Nonparametric Approach to Demand Analysis. \emph{Econometrica} 50, 945--973.
}
\seealso{\code{\link{rp_check}}}
\examples{
if (!is.null(rp_program(must = FALSE)) && nzchar(Sys.which("rp-second"))) {
  p <- rbind(c(1, 2), c(2, 1))
  theorems <- rp_theorem(rp_test(p, q = p))
  grep("^Theorem", theorems, value = TRUE)
}
}
