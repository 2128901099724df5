\name{rp_panel}
\alias{rp_panel}
\alias{print.rp_panel}
\alias{summary.rp_panel}
\alias{as.data.frame.rp_panel}
\alias{[.rp_panel}
\alias{$.rp_panel}
\title{Tests of Each Unit of a Panel}
\description{
Tests each unit of a long data frame, such as a subject or a household, and returns a row for each unit. All processors are used.
}
\usage{
rp_panel(data, by = id, ask = c("test", "pump", "power"), decimals = digits,
  levels = NULL, seed = NULL, draws = 1000, workers = NULL, numbers = "shortest",
  progress = interactive(), exe = NULL, wide = TRUE, units = NULL, digits = NULL,
  id = NULL, certificates = NULL)
}
\arguments{
\item{data}{a data frame with columns \code{p_NAME} and \code{q_NAME} for each good. It may have the columns \code{obs} and \code{e}.
The rows of a unit may be anywhere. Budget lines of two goods may have intercepts, in columns \code{i_NAME}: see Details.}
\item{by, id}{the name of the column, or of the columns, that identify the units. \code{id} is an older name of \code{by}.}
\item{ask}{what to compute for each unit: the tests alone, the tests and the maximum money pump index, or the tests and the power.}
\item{decimals, levels, numbers, exe, wide, digits}{as for \code{\link{rp_test}}. An error message says which \code{decimals} fit
all units.}
\item{units}{what the units are called, such as \code{"subjects"}. By default the name of the column decides.}
\item{seed, draws}{as for \code{\link{rp_power}}, the same for each unit.}
\item{workers}{how many processes run at once. The default is the number of processors. It is 2 where R's checks require that,
and 1 on Windows.}
\item{progress}{whether a progress bar is shown, on standard error.}
\item{certificates}{the name of a folder for the replication archive. The call then writes the table and the certificate of each unit
with verdicts, \file{unit_1.csv}, \file{unit_1.json} and so on. The file \file{units.csv} lists the units.}
}
\details{
The program \code{rp-panel} or the library does the tests. The program is the one beside \code{rp}, or the variable
\code{RP_PANEL} names it.

\strong{Errors.} A unit with an error has the error in its row, and the other units are tested. If all units have the same error,
the call stops with this error (\code{rp_all_refused}).

\strong{Ids.} Blanks around an id are ignored. A row without an id belongs to no unit, and has a row of its own at the end.

\strong{Intercepts.} Intercepts are exchanged for prices, which is exact. Each row then has its own unit of money. Therefore
\code{quasilinear} is \code{NA}, and money pumps are not available. A choice that costs more than was offered, by more than rounding,
stops the call for all units (\code{rp_overspent}).

A part of the result, such as \code{x[x$garp, ]}, is a plain data frame. \code{as.data.frame(x)} is the whole result as one.
\code{print} shows a summary, the errors by cause, and the first rows. For the evidence of one unit, call \code{\link{rp_test}} on
its rows.
}
\value{
An \code{rp_panel}: a data frame with a row for each unit, in the order of first appearance. Its columns are:
\item{by}{the column or columns of ids.}
\item{observations, goods}{the size of the unit's table.}
\item{garp, attained, homothetic, quasilinear}{logicals; \code{NA} if undetermined or not available.}
\item{ccei, efficiency}{the CCEI as the nearest double, which is 1 only if the CCEI is 1. Both columns are the same.}
\item{efficiency_exact, efficiency_floor}{the CCEI as a fraction (\code{\link{rp_exact}}), and rounded down to six decimal places.}
\item{pump, pump_exact, pump_floor}{if requested, the maximum money pump index in the same three forms.}
\item{power, power_exact}{if requested, the share of random behaviours that violate GARP.}
\item{fault, record, column}{the error, empty without one, with the row and the column of \code{data}.}
\item{offered_least}{with intercepts only, the minimum share of the offered budget that a choice spent, rounded down to six decimal
places.}
\item{below_line, over_line}{with intercepts only, the number of choices that cost less, and more, than was offered by more than
rounding explains. The decimal places are those of all intercepts and of all quantities of \code{data}.}

Beside its columns the result has \code{x$keys}, a data frame of \code{by}, and \code{x$texts}, a matrix of the fields that the
program writes. The list \code{x$refusals} has, for each unit, \code{NULL} or the error in words, a condition of class
\code{rp_error}. Its message begins with the unit, which is its \code{unit} too.
}
\section{Methods and formulas}{
The tests and the CCEI are those of \code{\link{rp_test}}, unit by unit. The money pump index is that of \code{\link{rp_money_pump}},
and the power that of \code{\link{rp_power}}.
}
\references{
Afriat, S. N. (1973). On a System of Inequalities in Demand Analysis: An Extension of the Classical Method. \emph{International Economic Review} 14, 460--472.

Bronars, S. G. (1987). The Power of Nonparametric Tests of Preference Maximization. \emph{Econometrica} 55, 693--698.

Echenique, F., Lee, S. and Shum, M. (2011). The Money Pump as a Measure of Revealed Preference Violations. \emph{Journal of Political Economy} 119, 1201--1223.

Varian, H. R. (1982). The Nonparametric Approach to Demand Analysis. \emph{Econometrica} 50, 945--973.
}
\seealso{\code{\link{rp_panel_table}} and \code{\link{plot.rp_panel}} for a paper, \code{\link{rp_random_panel}} for random behaviour,
\code{\link{rp_panel_demand}} for bounds}
\examples{
if (!is.null(rp_program(must = FALSE))) {
  long <- data.frame(
    subject = c("north", "north", "south", "south"), p_bread = c(1, 2, 1, 2),
    p_wine = c(2, 1, 2, 1), q_bread = c(2, 1, 1, 2), q_wine = c(1, 2, 2, 1)
  )
  print(rp_panel(long, by = "subject", workers = 2))
}
}
