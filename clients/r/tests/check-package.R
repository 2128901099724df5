#!/usr/bin/env Rscript
# Builds and checks the package `revealed` by R's own rules, runs its tests in the C and a UTF-8 locale in folders with
# blanks and letters outside ASCII, runs its vignette, compares a panel of 1,000 households with clients/panel/rp-panel-long,
# and looks at the sessions of clients/r/README.md.
#
# usage: RP_EXEC=PROGRAM [RP_TEST_LIBRARY=LIBRARY] [RP_TEST_PACKAGE=FILE] Rscript check-package.R
#
# With a library its answers are compared with the program's, and the panel is taken by it as well. With the source package of
# a release that is checked, and not one that is built here: the library is inside, and R's check has no program.
# Ends with 0 where all is as it should be: no error and no warning. The time of the panel is told, and not judged. The
# vignette is run in any case; its pages are made where LaTeX is there with what they take.
if (any(commandArgs(TRUE) %in% c("-h", "--help"))) {
  writeLines("usage: RP_EXEC=PROGRAM [RP_TEST_LIBRARY=LIBRARY] [RP_TEST_PACKAGE=FILE] Rscript check-package.R")
  quit(status = 0)
}
options(warn = 1)
file <- sub("^--file=", "", grep("^--file=", commandArgs(), value = TRUE)[1])
file <- gsub("~+~", " ", file, fixed = TRUE)
here <- dirname(normalizePath(file))
top <- dirname(dirname(dirname(here)))
program <- Sys.getenv("RP_EXEC")
if (!nzchar(program)) stop("RP_EXEC has to name the program")
Sys.setenv(RP_EXEC = normalizePath(program))
shared <- Sys.getenv("RP_TEST_LIBRARY")
if (nzchar(shared)) Sys.setenv(RP_TEST_LIBRARY = normalizePath(shared))

room <- tempfile("ein Ordner ")
dir.create(room)
good <- TRUE
R <- file.path(R.home("bin"), "R")
run <- function(what, words, at = room, env = character(), exe = R) {
  log <- file.path(room, "log")
  line <- paste("cd", shQuote(at), "&&", paste(env, collapse = " "), shQuote(exe), paste(words, collapse = " "), ">", shQuote(log), "2>&1 </dev/null")
  status <- system(line)
  said <- readLines(log, warn = FALSE)
  if (status != 0) {
    cat("failed:", what, "\n", tail(said, 40), sep = "\n")
    good <<- FALSE
  }
  invisible(said)
}
expect <- function(is_so, what) {
  if (isTRUE(is_so)) return(invisible())
  cat("not as it should be:", what, "\n")
  good <<- FALSE
}

# ---- R's own check
# Whether LaTeX is here with what R's vignettes take of it.
latex_works <- function() {
  folder <- tempfile("latex")
  dir.create(folder)
  old <- setwd(folder)
  on.exit(setwd(old))
  writeLines(c("\\documentclass{article}", "\\usepackage{Sweave}", "\\begin{document}", "x", "\\end{document}"), "page.tex")
  capture.output(try(suppressWarnings(tools::texi2pdf("page.tex", quiet = TRUE)), silent = TRUE), type = "message")
  file.exists("page.pdf")
}
has_latex <- nzchar(Sys.which("pdflatex")) && latex_works()
released <- Sys.getenv("RP_TEST_PACKAGE")
if (nzchar(released)) invisible(file.copy(released, room)) else run("R CMD build", c("CMD", "build", if (!has_latex) "--no-build-vignettes", shQuote(file.path(dirname(here), "revealed"))))
# R CMD check itself takes no folder with blanks, and asks CRAN for packages; a list of none answers in its place.
plain <- tempfile("revealed")
dir.create(file.path(plain, "web", "web", "packages"), recursive = TRUE)
saveRDS(data.frame(Package = "none", Maintainer = "none"), file.path(plain, "web", "web", "packages", "packages.rds"))
invisible(file.copy(Sys.glob(file.path(room, "revealed_*.tar.gz")), plain))
tarball <- Sys.glob(file.path(plain, "*.tar.gz"))
# The vignette was run when it was built, and is run below.
said <- run(
  "R CMD check", c("CMD", "check", "--as-cran", if (has_latex) "--no-vignettes" else c("--no-manual", "--ignore-vignettes"), basename(tarball)), at = plain,
  env = c(
    paste0("R_CRAN_WEB=file://", plain, "/web"), "_R_CHECK_CRAN_INCOMING_=false", "_R_CHECK_FORCE_SUGGESTS_=false",
    "_R_CHECK_FUTURE_FILE_TIMESTAMPS_=false", "_R_CHECK_SYSTEM_CLOCK_=false", "R_RD4PDF=times,hyper", if (!all(nzchar(Sys.which(c("qpdf", "gs"))))) "_R_CHECK_DOC_SIZES_=false", if (nzchar(released)) "RP_EXEC= RP_LIBRARY= PATH=/usr/bin:/bin"
  )
)
ended <- grep("^Status:", said, value = TRUE)
cat("R CMD check --as-cran", if (!has_latex) "(without the manual and the vignette: there is no LaTeX for them)", ended, "\n")
cat(grep("NOTE$", said, value = TRUE), sep = "\n")
expect(length(ended) == 1 && !grepl("WARNING|ERROR", ended), "R CMD check")

# ---- the tests in other folders and locales
library <- file.path(room, "library")
dir.create(library)
run("R CMD INSTALL", c("CMD", "INSTALL", "-l", shQuote(library), shQuote(tarball)))
if (nzchar(released)) {
  # The library is inside, it is what answers, and nothing else is asked for.
  bytes <- sum(file.size(list.files(file.path(library, "revealed"), recursive = TRUE, full.names = TRUE)))
  cat(sprintf("the source package has %.2f MB, and %.1f MB when it is installed\n", file.size(tarball) / 1e6, bytes / 1e6))
  expect(file.size(tarball) < 5e6, "the source package has less than 5 MB")
  lines <- c(
    "library(revealed)", "stopifnot(identical(rp_program(), revealed:::library_inside()))",
    "v <- rp_test(rbind(1:2, 2:1), rbind(1:2, 2:1))", "stopifnot(identical(v$garp, FALSE), as.character(v$efficiency) == '4/5')"
  )
  writeLines(lines, file.path(room, "inside.R"))
  run("the library inside", c("--vanilla", "-s", "-f", shQuote(file.path(room, "inside.R"))), env = c("RP_EXEC= RP_LIBRARY= HOME=/nowhere PATH=/usr/bin:/bin", paste0("R_LIBS=", shQuote(library))))
}
# A folder of UTF-8 letters, made by the shell, whatever the locale of this session is.
odd <- paste0(room, "/M\\303\\244rz und \\303\\251t\\303\\251")
make <- paste0("d=$(printf '", odd, "') && mkdir \"$d\" && cp ", shQuote(Sys.getenv("RP_EXEC")), " \"$d/rp\"")
# The program of panels stands beside it, as in a release.
stands <- dirname(Sys.getenv("RP_EXEC"))
panel_program <- c(Sys.getenv("RP_PANEL"), file.path(stands, "rp-panel"), file.path(dirname(dirname(stands)), "rp_panel_program", "out", "rp_panel_program"))
panel_program <- panel_program[nzchar(panel_program) & file.exists(panel_program)]
if (length(panel_program)) make <- paste0(make, " && cp ", shQuote(panel_program[1]), " \"$d/rp-panel\"")
if (nzchar(shared)) make <- paste0(make, " && cp ", shQuote(Sys.getenv("RP_TEST_LIBRARY")), " \"$d/librp.so\"")
if (system(make) != 0) good <- FALSE
# R's check ran all of them in a folder of plain letters, in the locale of this session.
tests <- file.path(dirname(here), "revealed", "tests", c("program.R", "commands.R", "statuses.R", "library.R"))
for (locale in c("C", "C.UTF-8")) {
  for (test in tests[if (locale == "C") 1:4 else 1]) {
    words <- c("-c", shQuote(paste0(
      "d=$(printf '", odd, "') && cd \"$d\" && LC_ALL=", locale, " TMPDIR=\"$d\" RP_EXEC=\"$d/rp\" ",
      if (nzchar(shared)) "RP_TEST_LIBRARY=\"$d/librp.so\" ", "R_LIBS=", shQuote(library), " ", shQuote(R), " --vanilla -s -f ", shQuote(test)
    )))
    run(paste(basename(test), "in the locale", locale), words, exe = "/bin/sh")
  }
}

# ---- the vignette, from raw data to a picture and a table
library("revealed", lib.loc = library, character.only = TRUE)
vignette <- file.path(room, "vignette")
dir.create(vignette)
old <- setwd(vignette)
made <- tryCatch(utils::Sweave(file.path(dirname(here), "revealed", "vignettes", "experiment.Rnw"), quiet = TRUE), error = identity)
setwd(old)
if (inherits(made, "error")) cat(conditionMessage(made), "\n")
expect(identical(made, "experiment.tex"), "the vignette")
page <- if (identical(made, "experiment.tex")) readLines(file.path(vignette, made)) else character()
expect(all(file.exists(file.path(vignette, c("picture-one.pdf", "picture-panel.pdf")))), "the vignette's pictures")
expect(any(grepl("^GARP holds & [0-9]+ ", page)) && any(grepl("^GARP holds +[0-9]+ ", page)), "the vignette's tables")

# ---- citation, and the sessions of README.md
cited <- format(utils::citation("revealed", lib.loc = library), style = "text")
version <- read.dcf(file.path(dirname(here), "revealed", "DESCRIPTION"))[, "Version"]
expect(any(grepl("2026", cited)) && any(grepl(version, cited, fixed = TRUE)), "citation() has the year and the version")
readme <- readLines(file.path(dirname(here), "README.md"))
fences <- which(startsWith(readme, "```"))
at <- which(readme[fences] == "```r")[1]
session <- readme[(fences[at] + 1):(fences[at + 1] - 1)]
wanted <- readme[(fences[at + 2] + 1):(fences[at + 3] - 1)]
shown <- capture.output(for (it in as.list(parse(text = session))) {
  found <- withVisible(eval(it, globalenv()))
  if (found$visible) print(found$value)
})
expect(identical(shown, wanted), "the session of clients/r/README.md")

# ---- the draws that Python, R and the page have alike
own <- asNamespace("revealed")
alike <- own$read_json(paste(readLines(file.path(top, "clients", "tests", "behaviours.json")), collapse = "\n"))
for (it in alike$words) {
  drawn <- own$with_words(as.numeric(it$seed), own$next_words(length(it$words)))
  expect(identical(sprintf("%.0f", drawn), it$words), paste("the words of the seed", it$seed))
}
rows <- function(it) do.call(rbind, it)
for (it in alike$tables) {
  budgets <- own$budgets_of(own$table_of(rows(it$prices), rows(it$quantities)))
  drawn <- own$with_words(as.numeric(it$seed), lapply(it$behaviours, function(draw) own$behaviour(budgets)))
  wanted <- lapply(it$behaviours, function(draw) matrix(as.numeric(rows(draw)), length(draw)))
  expect(isTRUE(all.equal(drawn, wanted, tolerance = 0, check.attributes = FALSE)), paste("the behaviours of the seed", it$seed))
}

# ---- a panel
set.seed(2026)
count <- 1000
years <- 10
long <- data.frame(household = rep(seq_len(count), years), obs = rep(seq_len(years), each = count))
for (good_name in c("bread", "wine", "rent")) {
  long[[paste0("p_", good_name)]] <- sprintf("%.2f", sample(100:399, count * years, TRUE) / 100)
}
for (good_name in c("bread", "wine", "rent")) long[[paste0("q_", good_name)]] <- sample(0:20, count * years, TRUE)
long$q_rent <- long$q_rent + 1L
long$p_wine[long$household %% 100 == 0 & long$obs == 5] <- "0"
path <- file.path(room, "long.csv")
write.csv(long, path, row.names = FALSE, quote = FALSE)
panel <- file.path(top, "clients", "panel", "rp-panel-long")
first <- system.time(
  run("rp-panel-long", c(shQuote(panel), "--rp", shQuote(Sys.getenv("RP_EXEC")), shQuote(path), "verdicts.csv"), exe = "python3")
)[["elapsed"]]
second <- system.time(found <- as.data.frame(rp_panel(long, "household", progress = FALSE)))[["elapsed"]]
wanted <- as.matrix(read.csv(file.path(room, "verdicts.csv"), colClasses = "character", na.strings = character()))
texts <- rp_panel(long, "household", progress = FALSE)$texts
expect(identical(unname(texts), unname(wanted)), "the panel's rows beside those of rp-panel-long")
cat(sprintf("a panel of %d households: %.2f of the time of clients/panel/rp-panel-long\n", count, second / first))
if (nzchar(shared)) {
  third <- system.time(again <- as.data.frame(rp_panel(long, "household", progress = FALSE, exe = normalizePath(shared))))[["elapsed"]]
  expect(identical(again, found), "the panel by the library beside that by the program")
  cat(sprintf("the same by the library: %.2f of the time by the program\n", third / second))
}
cat(if (good) "clients/r: as it should be\n" else "clients/r: not as it should be\n")
quit("no", if (good) 0 else 1)
