\name{rp_exact}
\alias{rp_exact}
\alias{print.rp_exact}
\alias{format.rp_exact}
\alias{as.double.rp_exact}
\alias{as.character.rp_exact}
\alias{as.data.frame.rp_exact}
\alias{summary.rp_exact}
\alias{mean.rp_exact}
\alias{median.rp_exact}
\alias{quantile.rp_exact}
\alias{unique.rp_exact}
\alias{Ops.rp_exact}
\alias{Math.rp_exact}
\alias{Summary.rp_exact}
\alias{sort.rp_exact}
\alias{xtfrm.rp_exact}
\title{Exact Numbers in Results}
\description{
Integers and fractions in lowest terms, stored as texts. They are never doubles.
}
\usage{
\method{as.double}{rp_exact}(x, ...)
\method{as.character}{rp_exact}(x, ...)
\method{sort}{rp_exact}(x, decreasing = FALSE, ...)
}
\arguments{
\item{x}{exact numbers, such as \code{utility} of an \code{\link{rp_test}}.}
\item{decreasing}{whether the maximum comes first.}
\item{...}{not used.}
}
\details{
Comparisons, \code{max}, \code{min}, \code{order} and \code{sort} use the exact numbers. Sums and products are exact too, by the
package \pkg{gmp}. Without \pkg{gmp} they stop with an \code{rp_bad_data}. \code{summary}, \code{mean}, \code{median},
\code{quantile}, and functions such as \code{round} and \code{log}, use doubles.

In data frames the columns of indices are doubles, so every function of R can use them. The exact numbers are in columns whose names
end in \code{_exact}.
}
\value{
\code{as.double} returns doubles near the numbers. \code{as.character} returns their texts, which \code{gmp::as.bigq} reads.
}
\seealso{\code{\link{rp_test}}, \link{revealed-package}}
\examples{
if (!is.null(rp_program(must = FALSE))) {
  p <- rbind(c(1, 2), c(2, 1))
  efficiency <- rp_test(p, q = p)$efficiency
  print(as.numeric(efficiency))
  print(efficiency < 0.9)
}
}
