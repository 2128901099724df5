\name{rp_program}
\alias{rp_program}
\alias{rp_version}
\title{Find the Program or Its Library}
\description{
Finds the program \code{rp}, or its library \code{librp}, which runs in memory. \code{rp_version} returns the versions that are used.
}
\usage{
rp_program(exe = NULL, must = TRUE)
rp_version(exe = NULL)
}
\arguments{
\item{exe}{the file of the program or of the library (a name such as \file{librp.so}), or its name on the path.}
\item{must}{whether it is an error (\code{rp_no_program}) if there is none.}
}
\details{
The first of these decides:
\enumerate{
\item The argument \code{exe}.
\item The environment variable \code{RP_LIBRARY}, which names a library.
\item The environment variable \code{RP_EXEC}, which names a program.
\item The library inside the package, as in the package of a release.
\item A program on the path.
\item A program in \file{~/.local/bin}, \file{~/bin}, \file{/usr/local/bin}, \file{/usr/bin} or \file{/usr/local/lib/rp}.
\item A program in a folder such as \file{rp-0.17.0-x86_64-linux}. The folder may be in the home folder, its \file{.local} or
\file{Downloads}, in \file{/opt} or in \file{/usr/local}. The last version is taken.
\item A library in \file{~/.local/lib}, \file{/usr/local/lib} or \file{/usr/lib}.
}
If a library comes with a program, it is used in place of the program. The library is in the folder \file{lib} of a release, or in
the \file{lib} beside the program's \file{bin}. If nothing is found, the error lists where it was searched.

\strong{Windows.} The package was not tried on Windows. The program is \file{rp.exe}, with the library \file{rp.dll} beside it. They
are in a folder such as \file{rp-0.17.0-x86_64-windows}, in the user's folder, its \file{Downloads} or \file{Desktop},
\file{C:/Program Files} or \file{C:/}. The program runs without a shell, and one process computes a panel.

\strong{Processes.} \code{\link{rp_panel}} uses the library from copies of R's own process (\code{\link[parallel]{mclapply}}). Where R
has threads, as in some graphical interfaces, use \code{workers = 1}.
}
\value{
\code{rp_program} returns the path of the program or library, or \code{NULL}. \code{rp_version} returns the versions of the package and
of the library. The version is \code{NA} for a program, and for a library of version 0.17.0 or older. If package and library have
different versions, loading the library gives a warning (\code{rp_warning}).
}
\seealso{\link{revealed-package}}
\examples{
rp_program(must = FALSE)
}
