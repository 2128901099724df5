\name{rp_random_panel}
\alias{rp_random_panel}
\title{Random Behaviour on the Budgets of a Panel}
\description{
Draws random behaviour on the budgets of each unit, and tests it. The distribution of an index can then be shown beside that of the
units.
}
\usage{
rp_random_panel(panel, times = NULL, seed = 1, workers = NULL, progress = FALSE,
  exe = NULL)
}
\arguments{
\item{panel}{a result of \code{\link{rp_panel}} with tests or money pumps.}
\item{times}{how many behaviours are drawn for each unit. By default about one thousand in all, or a few more.}
\item{seed}{an integer from 0 to 4294967295. The Python package and the page draw the same behaviours from a seed.}
\item{workers, progress, exe}{as for \code{\link{rp_panel}}.}
}
\details{
The generator is R's \code{"L'Ecuyer-CMRG"}. The generator of the session does not change. One stream of draws takes all units, and
then all units again. A unit without a verdict has no draws.
}
\value{
An \code{rp_panel} with the column \code{draw} beside those of the units. Its \code{data} has the drawn prices and quantities, as
integers in their own units. The units change neither GARP nor an index.
}
\section{Methods and formulas}{
Each row has a bundle on its budget line, or on its budget plane with more goods. Each point of the line is equally likely
(Bronars 1987).
}
\references{
Bronars, S. G. (1987). The Power of Nonparametric Tests of Preference Maximization. \emph{Econometrica} 55, 693--698.

Choi, S., Fisman, R., Gale, D. and Kariv, S. (2007). Consistency and Heterogeneity of Individual Behavior under Uncertainty.
\emph{American Economic Review} 97, 1921--1938.

L'Ecuyer, P. (1999). Good Parameters and Implementations for Combined Multiple Recursive Random Number Generators. \emph{Operations
Research} 47, 159--164.
}
\seealso{\code{\link{rp_panel}}, \code{\link{plot.rp_panel}}, \code{\link{rp_power}}}
\examples{
if (!is.null(rp_program(must = FALSE))) {
  long <- data.frame(
    id = c("a", "a", "b", "b"), p_x = c(1, 2, 1, 2), p_y = c(2, 1, 2, 1),
    q_x = c(2, 1, 1, 2), q_y = c(1, 2, 2, 1)
  )
  people <- rp_panel(long, "id", workers = 2)
  print(rp_random_panel(people, times = 2, seed = 1, workers = 2))
}
}
