\name{rp_fit}
\alias{rp_fit}
\alias{print.rp_fit}
\alias{summary.rp_fit}
\alias{as.data.frame.rp_fit}
\alias{print.rp_panel_fit}
\alias{summary.rp_panel_fit}
\alias{as.data.frame.rp_panel_fit}
\alias{[.rp_panel_fit}
\alias{$.rp_panel_fit}
\title{Goodness of Fit of Tables and Panels}
\description{
Computes how far the choices of a table, or of each unit of a panel, are from GARP. The indices are the CCEI, the Houtman-Maks index
(HM), Varian's index (AVI) and the minimum cost index (MCI). The maximum money pump index (MPI) and the numbers of violations come with
them. Each index is exact, or has a lower and an upper bound. A certificate proves them.
}
\usage{
rp_fit(p, q = NULL, by = NULL, decimals = NULL, numbers = "shortest",
  workers = NULL, progress = interactive(), exe = NULL, units = NULL,
  certificates = NULL)

\method{as.data.frame}{rp_fit}(x, row.names = NULL, optional = FALSE,
  what = c("indices", "exact", "observations"), ...)
\method{as.data.frame}{rp_panel_fit}(x, row.names = NULL, optional = FALSE,
  what = c("indices", "exact", "observations"), ...)
}
\arguments{
\item{p, q}{prices and quantities, as for \code{\link{rp_test}}. With \code{by}, \code{p} is a long data frame, as for
\code{\link{rp_panel}}. A column \code{e} of efficiency levels is rejected (\code{OwnLevels}), because the indices measure how far
choices are from GARP without such levels.}
\item{by}{for a panel, the name of the column, or of the columns, that identify the units.}
\item{decimals, numbers}{as for \code{\link{rp_test}}.}
\item{workers, units}{for a panel, as for \code{\link{rp_panel}}.}
\item{progress}{for a panel, whether a progress bar is shown, on standard error.}
\item{exe}{the program or its library, as for \code{\link{rp_test}}. The indices are computed by \code{rp-wide}. It is in the library, or
beside the program, or the variable \code{RP_WIDE} names it.}
\item{certificates}{for a panel, the name of a folder for the replication archive. The call then writes the table and the certificate of
each unit, as \code{\link{rp_panel}} does. It computes each unit a second time.}
\item{x}{a result of \code{rp_fit}.}
\item{what}{a row of numeric columns for each unit; the same columns as exact fractions; or a row for each observation.}
\item{row.names, optional, ...}{not used.}
}
\details{
\strong{Which choices contradict the others?} \code{x$drop} has the labels of the observations that are not kept. Without them, the
choices satisfy GARP. There can be other sets of the same size.

\strong{Bounds.} HM, AVI and MCI are NP-hard in general. The search stops at a limit of steps, and returns two bounds in any case.
\code{x$exact} says for each index whether its bounds meet. A panel has the column \code{open}, which names the indices whose bounds do
not meet. The bounds of AVI meet if they differ by at most \eqn{2^{-40}}{2^-40}, and so do those of the homothetic level.

\strong{Time.} A subject with 25 rounds takes a few milliseconds. A table with 512 observations can take some seconds or, with many
violations, minutes. Esc or Ctrl-C ends the call and its processes.

\strong{Intercepts.} If the data have intercepts (columns \code{i_NAME}), each row has its own unit of money. MCI, MPI and the
quasilinear level add money of different rows, so they are \code{NA}, with the reason. The other indices do not depend on these units.

\strong{Errors.} A unit of a panel with an error has the error in its row, as in \code{\link{rp_panel}}.

\code{rp_panel_table(panel, fit = TRUE)} and \code{plot(panel, fit = TRUE)} add HM, AVI and MCI to the table and the figure of a paper.
}
\value{
Without \code{by}, an \code{rp_fit}, a list with these elements. Exact numbers are texts of class \code{\link{rp_exact}}.
\item{observations, goods}{the size of the table.}
\item{garp, pairs}{whether GARP holds, and the number n(n - 1) of ordered pairs.}
\item{violations}{the numbers of ordered pairs that violate GARP, its weak form, WARP and SARP: \code{garp_pairs},
\code{wgarp_pairs}, \code{warp_pairs}, \code{sarp_pairs}. The last, \code{observations}, is how many observations are in a pair that
violates GARP.}
\item{efficiency, ccei, attained}{the CCEI, as in \code{\link{rp_test}}.}
\item{kept, kept_most}{the largest set of observations that satisfies GARP has at least \code{kept} and at most \code{kept_most}
observations.}
\item{drop}{the labels of the observations that are not kept.}
\item{levels_low, levels_high}{bounds on the mean of \eqn{1 - e}{1 - e} over Varian's levels.}
\item{squares_low, squares_high}{bounds on the mean of \eqn{(1 - e)^2}{(1 - e)^2}. Some papers report its root.}
\item{levels, squares}{the level of each observation at the upper bound.}
\item{steps_low, steps_high}{bounds on the minimum cost index, as shares of total expenditure.}
\item{removed}{the strict preferences that the upper bound removes: the \code{observation}, and the one it is preferred \code{over}.}
\item{pump}{the maximum money pump index.}
\item{quasilinear_level, homothetic_low, homothetic_high}{the level of cyclical monotonicity, and bounds on the level of homotheticity.
They are \code{NA} if \code{rp-wide} found no evidence.}
\item{exact, reasons}{whether the bounds of each index meet, and why an index is missing.}
\item{report, certificate, table}{the lines of the program, the certificate for \code{\link{rp_check}}, and the data.}

With \code{by}, an \code{rp_panel_fit}: a data frame with a row for each unit. Its columns are the ids, then
\item{observations, goods, garp, attained}{as above.}
\item{garp_pairs, wgarp_pairs, warp_pairs, sarp_pairs, violating}{the numbers of violations; \code{violating} counts observations.}
\item{garp_share, wgarp_share, warp_share, sarp_share}{shares of n(n - 1); \code{NA} if there is one observation.}
\item{ccei, pump, quasilinear_level}{the nearest doubles.}
\item{kept, kept_most, dropped}{numbers of observations; \code{dropped} is how many are not kept.}
\item{hm_low, hm_high}{the Houtman-Maks index as a share of the observations.}
\item{levels_low, levels_high, squares_low, squares_high, steps_low, steps_high, homothetic_low, homothetic_high}{bounds as doubles,
rounded down and up.}
\item{open, reasons}{the indices whose bounds do not meet, and why an index is missing.}
\item{fault, record, column}{the error, with the row and the column of the data, as in \code{\link{rp_panel}}.}

Beside its columns the panel has \code{x$fits}, a list of an \code{rp_fit} without certificate for each unit, and \code{x$refusals}, the
errors in words.

\code{as.data.frame(x)} is numeric, for \code{lm} and \code{hist}. \code{as.data.frame(x, what = "exact")} has the same columns as exact
fractions. \code{as.data.frame(x, what = "observations")} says of each observation whether it is kept, and has its levels.
}
\section{Methods and formulas}{
Let \eqn{c(s,t)} be the cost of bundle t at the prices of observation s. Observation s is preferred to t if \eqn{c(s,t) \le c(s,s)}, and
strictly if \eqn{c(s,t) < c(s,s)}.

\strong{Violations.} An ordered pair s, t violates GARP if s reaches t by preferences and t is strictly preferred to s (Swofford and
Whitney 1987). For its weak form, s is directly preferred to t. WARP and SARP count pairs of different bundles with a preference back.

\strong{HM} is the largest number of observations that satisfy GARP together, as a share (Houtman and Maks 1985).

\strong{AVI} is the infimum of the mean of \eqn{1 - e(s)} over levels e at which GARP holds (Varian 1990). At the levels, s is preferred to
t if \eqn{c(s,t) \le e(s) c(s,s)}. \code{squares} has the mean of \eqn{(1 - e(s))^2}, without a root (Halevy, Persitz and Zrill 2018).

\strong{MCI} is the minimum cost of removing strict preferences until no cycle is left, over total expenditure (Dean and Martin 2016).
Removing s over t costs \eqn{c(s,s) - c(s,t)}.

\strong{MPI} is the maximum over cycles, as in \code{\link{rp_money_pump}}. Papers that report the mean have another number.

The \strong{quasilinear level} is the minimum over cycles of the sum of \eqn{c(s,t)} over the sum of \eqn{c(s,s)}. The \strong{homothetic
level} is the minimum of their geometric mean ratio (Heufer and Hjertstrand 2019). A level of 1 means that the test holds.
}
\references{
Dean, M. and Martin, D. (2016). Measuring Rationality with the Minimum Cost of Revealed Preference Violations. \emph{Review of Economics
and Statistics} 98, 524--534.

Halevy, Y., Persitz, D. and Zrill, L. (2018). Parametric Recoverability of Preferences. \emph{Journal of Political Economy} 126,
1558--1593.

Heufer, J. and Hjertstrand, P. (2019). Homothetic Efficiency: Theory and Applications. \emph{Journal of Business and Economic Statistics}
37, 235--247.

Houtman, M. and Maks, J. A. H. (1985). Determining All Maximal Data Subsets Consistent with Revealed Preference. \emph{Kwantitatieve
Methoden} 19, 89--104.

Swofford, J. L. and Whitney, G. A. (1987). Nonparametric Tests of Utility Maximization and Weak Separability for Consumption, Leisure and
Money. \emph{Review of Economics and Statistics} 69, 458--464.

Varian, H. R. (1990). Goodness-of-Fit in Optimizing Models. \emph{Journal of Econometrics} 46, 125--140.
}
\seealso{\code{\link{rp_check}} for the certificate, \code{\link{rp_panel_table}} and \code{\link{plot.rp_panel}} with \code{fit = TRUE},
\code{\link{rp_money_pump}}}
\examples{
has_fit <- !is.null(rp_program(must = FALSE)) &&
  !inherits(try(rp_fit(matrix(1), matrix(1)), silent = TRUE), "try-error")
if (has_fit) {
  # Each of two choices contradicts the other: one of them would have to go.
  d <- data.frame(p_x = 1:2, p_y = 2:1, q_x = 1:2, q_y = 2:1)
  fit <- rp_fit(d)
  print(fit)
  print(rp_check(fit, fit))
  as.data.frame(fit, what = "observations")
  long <- data.frame(subject = c("a", "a", "b", "b"), rbind(d, d))
  long$q_x[3:4] <- 2:1
  long$q_y[3:4] <- 1:2
  print(rp_fit(long, by = "subject", workers = 2))
}
}
