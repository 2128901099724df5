\name{rp_panel_table}
\alias{rp_panel_table}
\alias{print.rp_lines}
\alias{as.character.rp_lines}
\title{Table of a Panel for a Paper}
\description{
Makes the table that a paper shows of a panel: how many units pass each test, and the distribution of the index. Or makes a row for
each unit. The table is text or LaTeX.
}
\usage{
rp_panel_table(panel, random = NULL, what = c("summary", "units"),
  format = c("text", "latex"), digits = 3, names = NULL,
  tests = c("garp", "homothetic", "quasilinear"), thresholds = NULL, units = NULL,
  fit = FALSE)
}
\arguments{
\item{panel}{a result of \code{\link{rp_panel}}.}
\item{random}{another panel of the same kind, such as a result of \code{\link{rp_random_panel}}, for a second column.}
\item{what}{a summary, or a row for each unit.}
\item{format}{text, or a \code{tabular} of LaTeX that needs no package.}
\item{digits}{the number of decimal places of an index. Rounding is to the nearest number, half to even. Only an index of 1 prints as
1, and only 0 prints as 0.}
\item{names}{the names of the columns. The default is what the units are called, and Random.}
\item{units}{what the units are called, such as \code{"subjects"}. By default \code{rp_panel} decides.}
\item{tests}{which tests the table has. For budget lines by intercepts the quasilinear test is left out, and a line below the table
says why.}
\item{thresholds}{levels from 0 to 1, such as \code{c(0.95, 0.90)}. The table has the share of units whose index is at least each
level. The default is 0.99, 0.95 and 0.90.}
\item{fit}{whether the table has the Houtman-Maks index (HM), Varian's index (AVI) and the minimum cost index (MCI) of
\code{\link{rp_fit}} too. They are computed when they are first needed, which takes longer than the tests, and are kept with the panel.}
}
\details{
With \code{fit = TRUE}, both bounds are printed where the bounds of an index do not meet. The summary then says of how many units this is
so, and has no standard deviation of that index. For budget lines by intercepts MCI is left out, and a line below the table says why.

The Python package rounds by the same rule. Characters that are special in LaTeX are escaped.
}
\value{
The lines of the table. \code{print} shows them, and \code{writeLines} writes them to a file.
}
\section{Methods and formulas}{
The summary has the number of units, and the mean, standard deviation, median and shares of the index. Thresholds of the CCEI are
discussed by Varian (1991). HM is the share of observations kept, AVI the mean of \eqn{1 - e}{1 - e}, and MCI a share of total
expenditure: see \code{\link{rp_fit}}.
}
\references{
Afriat, S. N. (1973). On a System of Inequalities in Demand Analysis: An Extension of the Classical Method. \emph{International Economic Review} 14, 460--472.

Bronars, S. G. (1987). The Power of Nonparametric Tests of Preference Maximization. \emph{Econometrica} 55, 693--698.

Varian, H. R. (1991). Goodness-of-Fit for Revealed Preference Tests. Working paper, University of Michigan.
}
\seealso{\code{\link{rp_panel}}, \code{\link{rp_fit}}, \code{\link{rp_random_panel}}, \code{\link{plot.rp_panel}}}
\examples{
if (!is.null(rp_program(must = FALSE))) {
  long <- data.frame(
    subject = c("a", "a", "b", "b"), p_x = c(1, 2, 1, 2), p_y = c(2, 1, 2, 1),
    q_x = c(2, 1, 1, 2), q_y = c(1, 2, 2, 1)
  )
  people <- rp_panel(long, by = "subject", workers = 2)
  rp_panel_table(people)
  rp_panel_table(people, what = "units", format = "latex")
}
}
