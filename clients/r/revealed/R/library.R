# The program as a library in memory: one call over the bytes of files, without a process and without a file.

# Whether this is Windows. What differs there takes it as an argument, so that it is tried elsewhere too.
on_windows <- function() .Platform$OS.type == "windows"

# What the files of a library and of the program are called.
library_name <- function(windows = on_windows()) if (windows) "rp.dll" else "librp.so"
program_name <- function(windows = on_windows()) if (windows) "rp.exe" else "rp"

# Whether a path is that of a library, and not of a program.
is_library <- function(place) grepl("[.](so|dylib)([.][0-9.]*)?$|[.]dll$", tolower(basename(place)))

# Returns the library that a release or a package puts with a program, if it does: on Windows beside it.
library_of <- function(program, windows = on_windows()) {
  folder <- dirname(program)
  if (windows) return(Find(is_there, file.path(folder, library_name(windows))))
  Find(is_there, if (basename(folder) == "bin") libraries_below(dirname(folder)) else file.path(folder, "lib", library_name(windows)))
}

# Returns where the folder `lib` of a place may have the library: as programs find it, and as compilers do.
libraries_below <- function(root) {
  folders <- file.path(root, c("lib", file.path("lib", paste0(R.version$arch, "-linux-gnu"))))
  as.vector(outer(folders, c("librp.so.0", "librp.so"), file.path))
}

is_there <- function(place) file.exists(place) && !dir.exists(place)

# Returns where a library may stand alone: on Windows in no place but with the program.
library_places <- function(windows = on_windows()) {
  if (windows) return(character())
  home <- Sys.getenv("HOME")
  unlist(lapply(c(if (nzchar(home)) file.path(home, ".local"), "/usr/local", "/usr"), libraries_below))
}

# The calls of the libraries that were loaded, by their paths.
loaded <- new.env(parent = emptyenv())

# Returns the path of the package's own code where the library is inside of it, as in the package of a release; or nothing.
library_inside <- function() if (!is.null(.Call(C_revealed_own, 0L))) getLoadedDLLs()[["revealed"]][["path"]]

# Returns the call of a library, which is loaded once; or its call "wide", NULL in a library up to 0.13.0, which has none, or "panel",
# NULL in one up to 0.14.0.
library_call <- function(path, which = "call") {
  if (identical(path, library_inside())) return(.Call(C_revealed_own, match(which, c("call", "wide", "panel")) - 1L))
  if (is.null(loaded[[path]])) {
    found <- tryCatch(calls_in(dyn.load(path)), error = identity)
    if (inherits(found, "error")) no_program(path, " is no library of rp: ", conditionMessage(found))
    assign(path, found, envir = loaded)
    warn_of_version(path, found$version)
  }
  loaded[[path]][[which]]
}

calls_in <- function(library) {
  of <- function(name) getNativeSymbolInfo(name, library, withRegistrationInfo = FALSE)$address
  more <- function(name) tryCatch(of(name), error = function(wrong) NULL)
  version <- more("rp_version")
  list(
    call = of("rp_answer"), wide = more("rp_answer_wide"), panel = more("rp_panel"), version = if (!is.null(version)) .Call(C_revealed_version, version)
  )
}

# Warns of a library of another version than this package.
warn_of_version <- function(path, version) {
  own <- as.character(utils::packageVersion("revealed"))
  if (is.null(version) || version == own) return(invisible())
  message <- paste0("the library ", path, " is of version ", version, ", and the package revealed of version ", own, ": take both of one release")
  warning(structure(class = c("rp_warning", "warning", "condition"), list(message = message, call = NULL)))
}

# Returns the version of what answers, by the call `rp_version` of a library; NA of a program, and of a library up to 0.17.0.
rp_version <- function(exe = NULL) {
  path <- rp_program(exe)
  version <- NA_character_
  if (identical(path, library_inside())) version <- .Call(C_revealed_version, NULL)
  if (!identical(path, library_inside()) && is_library(path)) {
    library_call(path)
    if (!is.null(loaded[[path]]$version)) version <- loaded[[path]]$version
  }
  c(package = as.character(utils::packageVersion("revealed")), library = version)
}

# The statuses that the program has not, and what is said of them.
of_library_alone <- c(
  "8" = "the arguments of the call do not fit together",
  "70" = "the library stopped in the middle of the call, which no input is known to do"
)

# Asks a library over each list of files.
by_library <- function(words, batch, call) {
  lapply(batch, function(files) {
    of_files <- if (length(files)) names(files) else character()
    found <- .Call(C_revealed_answer, call, words, of_files, unname(files))
    said <- of_library_alone[as.character(found[[1]])]
    ended(found[[1]], text_of_bytes(found[[2]]), if (is.na(said)) text_of_bytes(found[[3]]) else unname(said))
  })
}

text_of_bytes <- function(bytes) rawToChar(bytes[bytes != 0])
