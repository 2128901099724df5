# What answers: the program or its library, where they are, and their calls; and their wider edition, which is asked where they
# withhold something, or refuse choices from budgets that it takes. The other files ask by `ask`, `ask_wide`, `ask_choices`,
# `answers` and `wide_answers` alone.

# Returns what answers: a list with the call of a library and its path, or with the path of the program.
engine_of <- function(exe = NULL) {
  path <- rp_program(exe)
  if (is_library(path)) list(call = library_call(path), path = path) else list(program = path)
}

# Returns what answers for the wider edition, or NULL where it is not there: the wider call of the library; else the program that
# RP_WIDE names, or that stands beside the program.
wide_engine <- function(engine) {
  call <- if (!is.null(engine$call)) library_call(engine$path, "wide")
  if (!is.null(call)) list(call = call) else wide_program(engine)
}

# Returns the wider program as what answers, or NULL.
wide_program <- function(engine) {
  named <- Sys.getenv("RP_WIDE")
  found <- if (nzchar(named)) on_path(named) else if (!is.null(engine$program)) Find(is_program, wide_places(engine$program))
  if (nzchar(named) && (is.null(found) || is_library(found))) no_program("the variable RP_WIDE names ", quoted(named), ", which is no program")
  if (!is.null(found)) list(program = found)
}

# Returns where the wider program may stand beside a program, or beside what that leads to; and where `rt` builds both.
wide_places <- function(program, windows = on_windows()) {
  folders <- unique(dirname(c(program, normalizePath(program, "/", mustWork = FALSE))))
  c(file.path(folders, if (windows) "rp-wide.exe" else "rp-wide"), file.path(dirname(dirname(folders)), "rp_wide", "out", "rp_wide"))
}

rp_program <- function(exe = NULL, must = TRUE) {
  variables <- Sys.getenv(c("RP_LIBRARY", "RP_EXEC"))
  variable <- names(variables)[nzchar(variables)][1]
  if (!is.null(exe)) {
    found <- on_path(exe)
    where <- paste0("the argument exe names ", quoted(paste(as.character(exe), collapse = " ")), ", which is no program and no library")
  } else if (!is.na(variable)) {
    found <- on_path(variables[[variable]])
    if (variable == "RP_LIBRARY" && !is.null(found) && !is_library(found)) found <- NULL
    what <- if (variable == "RP_EXEC") "program" else paste("library, such as", library_name())
    where <- paste0("the variable ", variable, " names ", quoted(variables[[variable]]), ", which is no ", what)
  } else {
    places <- usual_places()
    program <- c(on_path(program_name()), Filter(is_program, places))
    # The library inside the package is of the package's own version; one on the path may be of any.
    beside <- if (length(program)) library_of(program[1]) else Find(is_there, library_places())
    found <- Find(is.character, list(library_inside(), beside, if (length(program)) program[1]))
    where <- paste0(
      "Install the package of a release, which has the program inside of it: ", release_file(), ". Or unpack a release, and name its program or library by exe =. ",
      "There is no program ", program_name(), " now: the argument exe is not given, the variables RP_LIBRARY and RP_EXEC are not set, there is none of ", listed(places), ", no ", usual_release(), " in ",
      listed(usual_roots()), if (!on_windows()) paste0(", no librp.so in ", listed(unique(dirname(library_places())))),
      ", and no ", program_name(), " on the path: ", Sys.getenv("PATH")
    )
  }
  if (is.null(found) && must) no_program(where)
  found
}

# Returns where a release or a package puts the program, a later version first.
usual_places <- function(windows = on_windows()) {
  home <- Sys.getenv("HOME")
  own <- c(if (nzchar(home)) file.path(home, c(".local/bin", "bin")), "/usr/local/bin", "/usr/bin", "/usr/local/lib/rp")
  unpacked <- lapply(usual_roots(windows), function(root) {
    found <- list.files(root, paste0("^rp-[0-9]+([.][0-9]+)*-[A-Za-z0-9_]+-", if (windows) "windows$" else "linux$"))
    version <- numeric_version(sub("^rp-([0-9.]*[0-9])-.*", "\\1", found))
    file.path(root, found[order(version, decreasing = TRUE)])
  })
  # What Windows unpacks stands in a folder of the archive's name, within one of that name.
  unpacked <- unlist(unpacked)
  if (windows) unpacked <- as.vector(rbind(unpacked, file.path(unpacked, basename(unpacked))))
  file.path(c(if (!windows) own, unpacked), program_name(windows))
}

# Returns where a release is unpacked, in a folder such as rp-0.17.0-x86_64-linux.
usual_roots <- function(windows = on_windows()) {
  if (windows) {
    user <- gsub("\\", "/", Sys.getenv(c("USERPROFILE", "HOME", "ProgramFiles", "LOCALAPPDATA"), ""), fixed = TRUE)
    user <- unique(user[nzchar(user)])
    return(c(user, file.path(user, "Downloads"), file.path(user, "Desktop"), "C:"))
  }
  home <- Sys.getenv("HOME")
  c(if (nzchar(home)) c(home, file.path(home, c(".local", "Downloads"))), "/opt", "/usr/local")
}

# Returns the name of the package of a release.
release_file <- function() paste0("install.packages(\"revealed_", utils::packageVersion("revealed"), ".tar.gz\", repos = NULL, type = \"source\")")

usual_release <- function(windows = on_windows()) paste0("rp-VERSION-x86_64-", if (windows) "windows/rp.exe" else "linux/rp")

is_program <- function(place) file.access(place, 1) == 0 && !dir.exists(place)

# Returns where a program or a library is: the file that its name has a slash for, else the one of that name on the path. On
# Windows a name may go without its .exe, and has slashes of both kinds.
on_path <- function(named, windows = on_windows()) {
  if (!is.character(named) || length(named) != 1 || is.na(named) || !nzchar(named)) return(NULL)
  places <- path.expand(named)
  if (!grepl(if (windows) "[/\\\\]|^[A-Za-z]:" else "/", named)) {
    folders <- strsplit(Sys.getenv("PATH"), if (windows) ";" else ":", fixed = TRUE)[[1]]
    folders <- if (windows) gsub("\\", "/", folders[nzchar(folders)], fixed = TRUE) else ifelse(nzchar(folders), folders, ".")
    places <- file.path(folders, named)
  }
  if (windows && !grepl("[.][A-Za-z0-9]+$", named)) places <- paste0(places, ".exe")
  for (place in places) if (is_program(place) || is_library(place) && is_there(place)) return(absolute(place, windows))
  NULL
}

absolute <- function(place, windows = on_windows()) {
  is_whole <- startsWith(place, "/") || windows && grepl("^([A-Za-z]:|\\\\)", place)
  if (is_whole) place else file.path(getwd(), place)
}

# ---- calls

# Returns how a call ended, of words over files that are given by name, as lines or as bytes.
answer <- function(words, files, engine = engine_of()) answers(words, list(files), engine)[[1]]

# The same of the words over one list of files after another.
answers <- function(words, batch, engine = engine_of()) {
  if (is.null(engine$call)) by_program(words, batch, engine$program) else by_library(words, batch, engine$call)
}

# The same of words by which something may be withheld. Such an answer is that of the wider edition, where that is there and `wide`
# asks for it, and has what the program itself wrote as `stated`; `hint` is what is said of a value that stays withheld.
wide_answers <- function(words, batch, engine, wide) {
  found <- answers(words, batch, engine)
  more <- which(vapply(found, is_withheld, TRUE, command = words[1]))
  other <- if (wide && length(more)) wide_engine(engine)
  if (!is.null(other)) found[more] <- Map(function(ran, own) c(ran, stated = own$out), answers(words, batch[more], other), found[more])
  hint <- if (!wide) hints_of_wide$unasked else if (is.null(other) && length(more)) hints_of_wide$absent else hints_of_wide$asked
  lapply(found, function(ran) c(ran, hint = hint))
}

# Whether an answer withholds something of which the wider edition seeks evidence.
is_withheld <- function(ran, command) {
  mark <- c(
    certify = "\"item\":\"homothetic\",\"withheld\":", demand = "\"withheld\":", welfare = "\"withheld\":", cost = " lower withheld ",
    trial = "\nhomothetic withheld"
  )[command]
  ran$status %in% 0L && !is.na(mark) && grepl(mark, ran$out, fixed = TRUE, useBytes = TRUE)
}

# Whether a call refused choices from budgets that the wider edition may take.
is_refused <- function(ran) {
  told <- told_refusal(ran)
  !is.null(told) && told$fault %in% c("TooManyPatches", "TooManyCombinations", "TooManyTypes")
}

hints_of_wide <- list(
  asked = "rp-wide found no evidence either; docs/reference/limits.md, 'Undetermined results', says what to do",
  unasked = "rp-wide may give it: leave wide = FALSE out",
  absent = "rp-wide may give it, which is neither beside the program, nor in the library, nor named by the variable RP_WIDE"
)

hinted <- function(why, hint) if (is.null(hint)) why else paste0(why, "; ", hint)

# Whether an item or a bound is given where the program itself withholds it.
is_wide <- function(own, stated) is.null(own$withheld) && !is.null(stated$withheld)

# Runs the program over each list of files in a folder of its own, by one shell, or on Windows by none. No name outside of these
# folders is told to it, and each word is quoted.
by_program <- function(words, batch, exe, shell = !on_windows()) {
  room <- tempfile("revealed-")
  dir.create(room)
  on.exit(unlink(room, recursive = TRUE))
  folders <- folders_of(batch, room)
  if (!shell) return(lapply(folders, run_in, words = words, exe = exe))
  line <- paste(
    "{ cd", shQuote(room), "&& n=0 && while [ $n -lt", length(batch), "]; do n=$((n + 1)); cd $n || exit;", shQuote(exe),
    paste(shQuote(words), collapse = " "), ">out 2>err </dev/null; echo $? >status; cd ..; done; } 2>/dev/null"
  )
  system(line)
  lapply(folders, ended_in)
}

# Writes each list of files to a folder of its own within a room, and returns these folders.
folders_of <- function(batch, room) {
  folders <- file.path(room, seq_along(batch))
  for (at in seq_along(batch)) {
    dir.create(folders[at])
    for (name in names(batch[[at]])) write_file(batch[[at]][[name]], file.path(folders[at], name))
  }
  folders
}

# Returns how a call ended in a folder, by what it left there.
ended_in <- function(folder) {
  status <- suppressWarnings(as.integer(read_text(file.path(folder, "status"))))
  ended(status, read_text(file.path(folder, "out")), read_text(file.path(folder, "err")))
}

# Runs the program in a folder without a shell, as Windows starts programs, and returns how it ended.
run_in <- function(folder, words, exe) {
  old <- setwd(folder)
  on.exit(setwd(old))
  quoted <- shQuote(words, if (on_windows()) "cmd" else "sh")
  status <- suppressWarnings(system2(exe, quoted, stdout = "out", stderr = "err", stdin = if (on_windows()) "" else "/dev/null"))
  ended(as.integer(status), read_text("out"), read_text("err"))
}

# Returns how a call ended: its status, its output, and its own words on standard error.
ended <- function(status, out, said) {
  said <- strsplit(said, "\n", fixed = TRUE)[[1]]
  list(status = status, out = out, said = paste(said[!grepl("^(note|hint): ", said)], collapse = "\n"))
}

write_file <- function(data, path) {
  to <- file(path, "wb")
  on.exit(close(to))
  if (is.raw(data)) writeBin(data, to) else writeLines(data, to, useBytes = TRUE)
}

read_bytes <- function(path) readBin(path, "raw", file.size(path))

read_text <- function(path) {
  if (!file.exists(path)) return("")
  text_of_bytes(read_bytes(path))
}

# Returns the file, the fault and its places of a refusal, as in `rp: table.csv: BadNumber record 2 column 5`; else NULL.
told_refusal <- function(ran) {
  form <- "^rp(?:-panel)?: (([A-Za-z_-]+)\\.(csv|json): )?([A-Z][A-Za-z]*)(( (record|column|budget|menu|item) [0-9]+)*)$"
  parts <- regmatches(ran$said, regexec(form, ran$said, perl = TRUE))[[1]]
  if (!ran$status %in% 4L || !length(parts)) return(NULL)
  words <- strsplit(trimws(parts[6]), " ", fixed = TRUE)[[1]]
  odd <- seq_along(words) %% 2 == 1
  list(file = parts[3], fault = parts[5], places = named(as.list(as.integer(words[!odd])), words[odd]))
}

# Returns the output of a call that ends with a status of `good`; else stops with a refusal of one of the sheets, or with
# rp_failed.
ask <- function(words, files, engine, sheets = list(), good = 0) text_of(answer(words, files, engine), sheets, good)

# The same of words by which something may be withheld: a list of the output, and of `stated` and `hint` of `wide_answers`.
ask_wide <- function(words, files, engine, sheets = list(), wide = TRUE) {
  if (!is_switch(wide)) bad_data("wide is TRUE or FALSE")
  ran <- wide_answers(words, list(files), engine, wide)[[1]]
  list(text = text_of(ran, sheets), stated = ran$stated, hint = ran$hint)
}

# The same of words over choices from budgets: a list of the output, and of `is_wide`, whether that is the wider edition's, which is
# asked where the program itself refuses the choices, if it is there and `wide` asks for it.
ask_choices <- function(words, files, engine, sheets, wide, good = 0, beside = NULL) {
  if (!is_switch(wide)) bad_data("wide is TRUE or FALSE")
  ran <- answer(words, files, engine)
  other <- if (wide && is_refused(ran)) wide_engine(engine)
  if (!is.null(other)) ran <- long_answer(c(words, beside), files, other)
  list(text = text_of(ran, sheets, good), is_wide = !is.null(other))
}

text_of <- function(ran, sheets, good = 0) {
  if (ran$status %in% good) return(ran$out)
  told <- told_refusal(ran)
  if (is.null(told)) stop(failed(ran$status, ran$said))
  label <- NA
  if (!is.null(told$places$budget)) {
    for (own in sheets) if (own$file == "budgets") label <- own$labels[told$places$budget]
  }
  for (own in sheets) {
    if (own$file == told$file && is.na(label)) stop(refusal(own, told$fault, told$places))
  }
  file <- if (nzchar(told$file)) told$file else if (length(sheets)) sheets[[length(sheets)]]$file else "choices"
  stop(refused(told$fault, file, told$places, label, hint = plain_hint(told$fault)))
}
