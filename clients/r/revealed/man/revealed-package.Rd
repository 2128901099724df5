\name{revealed-package}
\alias{revealed-package}
\alias{revealed}
\docType{package}
\title{Revealed Preference Tests with Proved Verdicts}
\description{
Tests whether prices and chosen quantities satisfy the generalized axiom of revealed preference (GARP). Computes the CCEI and other
indices, bounds on demand and welfare, and tests of random utility. The verdicts of the program \code{rp} are proved by machine.
\strong{Nothing of this package is proved}: it is tested.
}
\details{
\tabular{ll}{
Question \tab Call \cr
Could one utility maximizer have made all choices? \tab \code{\link{rp_test}} \cr
The same for each unit of a panel \tab \code{\link{rp_panel}} \cr
The table and the figure of a paper \tab \code{\link{rp_panel_table}}, \code{\link{plot.rp_panel}} \cr
How far are the choices from GARP? \tab \code{\link{rp_fit}} \cr
Would random choices have passed? \tab \code{\link{rp_random_panel}}, \code{\link{rp_power}} \cr
How much money could violations cost? \tab \code{\link{rp_money_pump}} \cr
What could be chosen at new prices? \tab \code{\link{rp_demand}} \cr
What does the living standard cost at new prices? \tab \code{\link{rp_welfare}} \cr
Could a population have made the choices? \tab \code{\link{rp_random}}, \code{\link{rp_menus}} \cr
Does a firm minimize cost? \tab \code{\link{rp_cost}} \cr
Is a published verdict true? \tab \code{\link{rp_check}} \cr
}
The vignette goes from the raw data of an experiment to the table: \code{vignette("experiment", "revealed")}.

Most calls have two names: one in the words of the field, and the name of the program's command. For example,
\code{rp_money_pump} and \code{rp_pump} are one call. Goods and rows may have any names.
}
\section{Numbers}{
\strong{What goes in.} Integers, texts and numbers of \pkg{gmp} are used exactly as they are. A double is a binary fraction: the one
that \code{read.csv} makes of 23.86 is 23.859999999999999431566. By default a double is read as the shortest decimal that gives it
back, such as 23.86. The printed result then says \code{numbers: shortest decimals of doubles}.

A double that needs more than 6 decimal places or 7 digits is rejected, in a panel for all units at once. Use \code{decimals} to round,
half to even: one number of decimal places, or two, for prices and for quantities. The error message says which numbers fit. With
\code{numbers = "exact"} each double is the binary fraction itself. A missing value is rejected.

\strong{What comes back.} Results are exact texts such as \code{4/5} or \code{-884241/1000}, of class \code{\link{rp_exact}}. The data
frames of \code{as.data.frame} have a column of doubles beside each column of exact numbers. The double is the nearest one, but
\code{ccei} is 1 only if the index is 1. Lower bounds are rounded down, and upper bounds up.
}
\section{Budget lines by their intercepts}{
A data frame of two goods may have the intercepts of the budget lines, in columns \code{i_NAME} in place of \code{p_NAME}. The
intercepts are exchanged for prices, so nothing is rounded: the price of a good, times both intercepts, is the intercept of the
other good. Each row then has its own unit of money. Therefore \code{\link{rp_pump}} rejects the table, and \code{quasilinear} is
\code{NA}, with the reason.

The verdicts are about the chosen bundles and what these cost. The printed result also compares this with the offered budget. It counts
the choices that spent less than was offered, by more than rounding of the columns explains, and has the minimum share spent. A choice
that costs more than was offered, by more than rounding, is an error (\code{rp_overspent}), with its row and the amounts.
}
\section{Efficiency levels}{
An efficiency level is the share of an observation's expenditure that counts (Varian 1990). Levels are the argument \code{levels}, or
the column \code{e} of a data frame. A level is a share such as 0.95, or integer thousandths from 1 to 1000. \code{\link{rp_test}},
\code{\link{rp_pairs}}, \code{\link{rp_utility}}, \code{\link{rp_check}} and \code{\link{rp_panel}} use levels. The other calls reject a
table with levels (\code{OwnLevels}), because their results are not defined with levels.
}
\section{Errors}{
Each condition is an \code{rp_error}. Its class says what went wrong:
\describe{
\item{\code{rp_refused}}{the data have an error. The condition has \code{fault}, \code{file}, \code{record}, \code{column},
\code{budget}, \code{menu} and \code{item} (positions in what the program was given, from 1). It has the row's \code{label}, the column's
\code{name}, the \code{value} there and a \code{hint}. Each is \code{NA} if there is none.}
\item{\code{rp_all_refused}}{all units of a panel have one error. It is also an \code{rp_refused}.}
\item{\code{rp_overspent}}{a choice costs more than its offered budget line. The condition has the \code{label} of the first such row,
the \code{share} of the budget that it costs, and the \code{count} of such rows.}
\item{\code{rp_bad_data}}{the data are not a table, and the program was not run.}
\item{\code{rp_failed}}{the program ended with another exit code, \code{status}; \code{said} has its message.}
\item{\code{rp_no_program}}{neither a program nor a library was found.}
}
}
\section{Methods and formulas}{
Each call's page has its methods. The tests are those of Varian (1982) and of the papers on the pages of the calls.
}
\references{
Varian, H. R. (1982). The Nonparametric Approach to Demand Analysis. \emph{Econometrica} 50, 945--973.

Varian, H. R. (1990). Goodness-of-Fit in Optimizing Models. \emph{Journal of Econometrics} 46, 125--140.
}
\seealso{\code{\link{rp_test}}, \code{\link{rp_panel}}, \code{\link{rp_program}}}
\keyword{package}
