# What is particular to Windows, tried here: the names and places of the program and its library, and the way to start a program
# without a shell. On Windows itself it was not tried.
library(revealed)
own <- asNamespace("revealed")
home <- file.path(tempdir(), "a user")
release <- file.path(home, "Downloads", "rp-0.17.0-x86_64-windows")
dir.create(release, recursive = TRUE)
older <- file.path(home, "rp-0.9.0-x86_64-windows", "rp-0.9.0-x86_64-windows")
dir.create(older, recursive = TRUE)
before <- Sys.getenv(c("USERPROFILE", "PATH"))
Sys.setenv(USERPROFILE = gsub("/", "\\", home, fixed = TRUE))
program <- file.path(release, "rp.exe")
writeLines(c("#!/bin/sh", "for it do echo \"[$it]\"; done", "cat table.csv", "echo 'rp: table.csv: TooLong' >&2", "exit 4"), program)
Sys.chmod(program)
file.copy(program, file.path(older, "rp.exe"))
stopifnot(own$program_name(TRUE) == "rp.exe", own$library_name(TRUE) == "rp.dll", own$is_library("C:\\rp\\RP.DLL"), !own$is_library("rp.exe"))
found <- Filter(own$is_program, own$usual_places(TRUE))
stopifnot(program %in% found, file.path(older, "rp.exe") %in% found, !any(grepl("bin", own$usual_places(TRUE))))
# the library lies beside the program
stopifnot(is.null(own$library_of(program, TRUE)))
file.create(file.path(release, "rp.dll"))
stopifnot(own$library_of(program, TRUE) == file.path(release, "rp.dll"), length(own$library_places(TRUE)) == 0)
# the path is parted by semicolons; a name may go without .exe, and has slashes of both kinds
Sys.setenv(PATH = paste0("C:\\nothing;;", gsub("/", "\\", release, fixed = TRUE)))
stopifnot(own$on_path("rp", TRUE) == program, own$on_path("rp.exe", TRUE) == program, is.null(own$on_path("none", TRUE)))
stopifnot(own$absolute("C:/rp/rp.exe", TRUE) == "C:/rp/rp.exe", own$absolute("\\\\host\\rp.exe", TRUE) == "\\\\host\\rp.exe")
stopifnot(grepl("windows/rp.exe", own$usual_release(TRUE)), own$absolute("rp.exe", TRUE) == file.path(getwd(), "rp.exe"))
Sys.setenv(PATH = before[["PATH"]], USERPROFILE = before[["USERPROFILE"]])
if (.Platform$OS.type == "unix") {
  # by no shell the same answers come as by one, whatever the words are
  words <- c("certify", "table.csv", "$(touch X)", "a b", "'\"")
  batch <- list(list(table.csv = "one"), list(table.csv = c("two", "three")))
  old <- setwd(home)
  without <- own$by_program(words, batch, program, shell = FALSE)
  stopifnot(identical(without, own$by_program(words, batch, program, shell = TRUE)), getwd() == normalizePath(home))
  stopifnot(without[[1]]$status == 4, without[[1]]$said == "rp: table.csv: TooLong", without[[2]]$out == paste0(paste0("[", words, "]\n", collapse = ""), "two\nthree\n"))
  setwd(old)
}
unlink(home, recursive = TRUE)
