\name{plot.rp_test}
\alias{plot.rp_test}
\alias{plot.rp_panel}
\title{Pictures of a Table and of a Panel}
\description{
For a table of two goods, draws the budget lines, the choices and a cycle that violates GARP. For a panel, draws the distribution of
the index over units, beside the distribution of random behaviour.
}
\usage{
\method{plot}{rp_test}(x, labels = NULL, main = NULL, xlab = NULL, ylab = NULL,
  legend = TRUE, ...)
\method{plot}{rp_panel}(x, random = NULL, type = c("histogram", "cumulative"),
  breaks = seq(0, 1, 0.05), main = NULL, xlab = NULL, ylab = NULL,
  names = NULL, fit = FALSE, ...)
}
\arguments{
\item{x}{a result of \code{\link{rp_test}} on two goods, or of \code{\link{rp_panel}}.}
\item{labels}{whether all choices have labels. By default up to twelve rows have labels; in larger tables the rows of the cycle do.}
\item{main, xlab, ylab}{the title and the names of the axes.}
\item{legend}{whether there is a legend.}
\item{random}{another panel of the same kind, such as a result of \code{\link{rp_random_panel}}.}
\item{type}{\code{"histogram"}: the share of units in each bin of the index. \code{"cumulative"}: how many units are at or below each
value.}
\item{breaks}{the ends of the bins. A bin includes its right end and excludes its left end; the first bin includes both. A CCEI of
exactly 1 is in no bin. It has a bar of its own, with the label \dQuote{exactly 1}.}
\item{names}{the names of the two panels in the legend. The default is what the units are called, and random behaviour.}
\item{fit}{whether the Houtman-Maks index (HM), Varian's index (AVI) and the minimum cost index (MCI) of \code{\link{rp_fit}} have
pictures too, beside that of the CCEI.}
\item{...}{passed to \code{plot.window}.}
}
\details{
For the CCEI, the legend has the share of units with an index of at least 0.90, and of at least 0.95.

With \code{fit = TRUE}, an index of exactly 0 has a bar of its own in the pictures of AVI and MCI. Their bins include the left end. A
unit whose bounds do not meet is drawn at the bound that is further from GARP. The text below the picture says how many units this
concerns. For budget lines by intercepts MCI is left out.
}
\value{
The result \code{x}, invisibly.
}
\section{Methods and formulas}{
Budget lines are drawn through the chosen bundles, by what these cost. The comparison with random behaviour on the same budgets is
that of Choi, Fisman, Gale and Kariv (2007).
}
\references{
Choi, S., Fisman, R., Gale, D. and Kariv, S. (2007). Consistency and Heterogeneity of Individual Behavior under Uncertainty.
\emph{American Economic Review} 97, 1921--1938.
}
\seealso{\code{\link{rp_test}}, \code{\link{rp_panel}}, \code{\link{rp_fit}}, \code{\link{rp_panel_table}}}
\examples{
if (!is.null(rp_program(must = FALSE))) {
  p <- rbind(c(1, 2), c(2, 1))
  plot(rp_test(p, q = p))
}
}
