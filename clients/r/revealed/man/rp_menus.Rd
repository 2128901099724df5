\name{rp_menus}
\alias{rp_menus}
\alias{rp_menu_choices}
\alias{print.rp_menus}
\alias{summary.rp_menus}
\alias{as.data.frame.rp_menus}
\title{Stochastic Choice from Menus}
\description{
Tests whether people with strict preference orders, who take the best alternative of each menu, could have made the choices. If not,
computes the maximum share of the choices that such people could have made.
}
\usage{
rp_menus(data, per = NULL, exe = NULL)
rp_menu_choices(data, per = NULL, exe = NULL)
}
\arguments{
\item{data}{a data frame with columns \code{menu}, \code{choice} and \code{n}. A menu is one to six letters from \code{a} to \code{f}, in
order. The choice is one of its letters, and \code{n} is how many times it was chosen.}
\item{per}{the number of units that the shares of each menu are rounded to. By default nothing is rounded.}
\item{exe}{as for \code{\link{rp_test}}.}
}
\details{
The shares are taken as exact. \code{FALSE} is not a statistical rejection. \code{rp_menu_choices} is the same call.
}
\value{
An \code{rp_menus}, a list with these elements:
\item{consistent}{\code{TRUE} or \code{FALSE}; \code{NA} if the verdict is undetermined, and \code{reason} says why.}
\item{share}{the maximum share of the choices that such people could have made.}
\item{parts}{the orders that make this share, each with its share.}
\item{weights}{if the share is below 1: weights of the cells by which each order weighs 1 or more.}
\item{least_sum}{if something was chosen from every menu: the minimum Block-Marschak sum, as a share.}
}
\section{Methods and formulas}{
A cell is a menu with one of its letters. A distribution of orders rationalizes the shares if it has the observed share at each cell
(Block and Marschak 1960). If such a distribution exists, no Block-Marschak sum is negative (Falmagne 1978).
}
\references{
Block, H. D. and Marschak, J. (1960). Random Orderings and Stochastic Theories of Responses. In I. Olkin and others (editors),
\emph{Contributions to Probability and Statistics}. Stanford University Press.

Falmagne, J.-C. (1978). A Representation Theorem for Finite Random Scale Systems. \emph{Journal of Mathematical Psychology} 18, 52--72.
}
\seealso{\code{\link{rp_random}} for choices from budgets}
\examples{
if (!is.null(rp_program(must = FALSE))) {
  menus <- data.frame(menu = c("abc", "abc", "ab"), choice = c("a", "b", "b"), n = c(1, 1, 2))
  print(rp_menus(menus))
}
}
