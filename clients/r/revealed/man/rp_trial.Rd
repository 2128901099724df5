\name{rp_trial}
\alias{rp_trial}
\alias{rp_random_trial}
\alias{print.rp_trial}
\alias{as.data.frame.rp_trial}
\title{Tests of a Table of Pseudorandom Numbers}
\description{
Makes a table by a seed, and tests it. Prices are from 1 to 99, and quantities from 0 to 99. The result has no evidence.
}
\usage{
rp_trial(seed, rows, goods, exe = NULL, wide = TRUE)
rp_random_trial(seed, rows, goods, exe = NULL, wide = TRUE)
}
\arguments{
\item{seed}{an integer from 0 to 2^64 - 1. Give an integer above 2^53 as a text.}
\item{rows, goods}{how many observations, 1 to 256, and how many goods, 1 to 16.}
\item{exe, wide}{as for \code{\link{rp_test}}.}
}
\details{
\code{rp_random_trial} is the same call.
}
\value{
An \code{rp_trial}: \code{garp}, \code{efficiency}, \code{ccei}, \code{attained}, \code{homothetic}, \code{quasilinear} and
\code{wide}, as in \code{\link{rp_test}}.
}
\section{Methods and formulas}{
The generator is PCG XSH RR 64/32 (O'Neill 2014). The tests are those of \code{\link{rp_test}}.
}
\references{
O'Neill, M. E. (2014). PCG: A Family of Simple Fast Space-Efficient Statistically Good Algorithms for Random Number Generation.
Harvey Mudd College, technical report HMC-CS-2014-0905.
}
\seealso{\code{\link{rp_test}}, \code{\link{rp_power}}}
\examples{
if (!is.null(rp_program(must = FALSE))) {
  print(rp_trial(7, 20, 3))
}
}
