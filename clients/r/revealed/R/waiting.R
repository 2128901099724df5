# Calls that may take long: by processes of their own, while R waits, says how long that has taken, and can be interrupted.

# So many seconds pass between two looks at a process, at most, and until a user is told that it works, and again.
looks <- 0.2
tells <- 5
is_watched <- function() interactive() || isatty(stderr())

# Functions of R that Windows has not.
of_copies <- function(name) get(name, asNamespace("parallel"))

# Returns how a call ended, as `answer` does.
long_answer <- function(words, files, engine, windows = on_windows()) long_answers(list(one_job(words, files)), engine, windows = windows)[[1]][[1]]

# Returns the job of one call.
one_job <- function(words, files) list(words = words, batch = list(files))

# Returns how the calls of each job ended, as `answers` does. At most so many jobs are worked on at once, and `done` is told the number of
# each that has ended. If R is interrupted, what works is ended, and that is said. On Windows, where R has no copies of its process, the
# calls are made in this one.
long_answers <- function(jobs, engine, workers = 1L, done = NULL, windows = on_windows()) {
  found <- vector("list", length(jobs))
  ended <- function(at, own) {
    found[[at]] <<- own
    if (!is.null(done)) done(at)
  }
  if (windows) {
    for (at in seq_along(jobs)) ended(at, answers(jobs[[at]]$words, jobs[[at]]$batch, engine))
    return(found)
  }
  works <- list()
  close_all <- function() for (work in works) work$close()
  on.exit(close_all())
  began <- proc.time()[["elapsed"]]
  passed <- function() proc.time()[["elapsed"]] - began
  told <- 0
  pause <- 0.005
  started <- 0
  withCallingHandlers(
    while (started < length(jobs) || length(works)) {
      while (started < length(jobs) && length(works) < workers) {
        started <- started + 1
        works[[as.character(started)]] <- started_job(jobs[[started]], engine)
      }
      looked <- lapply(works, function(work) work$look(pause / length(works)))
      over <- names(works)[!vapply(looked, is.null, TRUE)]
      for (name in over) {
        works[[name]]$close()
        works[[name]] <- NULL
        ended(as.integer(name), looked[[name]])
      }
      pause <- if (length(over)) 0.005 else min(looks, 2 * pause)
      if (is.null(done) && is_watched() && length(works) && passed() > told + tells) {
        told <- passed()
        message(sprintf("rp-wide has worked for %.0f s; Esc or Ctrl-C ends it", told))
      }
    },
    interrupt = function(wrong) {
      close_all()
      message(sprintf("rp-wide was ended after %.0f s, and there is no result", passed()))
    }
  )
  found
}

# Starts a job. `look` gives how its calls ended, after a pause, or NULL while it works; `close` ends it.
started_job <- function(job, engine) {
  if (is.null(engine$call)) started_program(job$words, job$batch, engine$program) else started_copy(job$words, job$batch, engine)
}

# Starts the program over one list of files after another, each in a folder of its own.
started_program <- function(words, batch, exe) {
  room <- tempfile("revealed-")
  dir.create(room)
  folders <- folders_of(batch, room)
  place <- function(name) file.path(room, name)
  line <- paste(
    "cd", shQuote(room), "&& { n=0; while [ $n -lt", length(batch), "] && [ ! -e stop ]; do n=$((n + 1)); cd $n || exit;", shQuote(exe),
    paste(shQuote(words), collapse = " "), ">out 2>err </dev/null & echo $! >number; wait $!; echo $? >ends; mv ends status; cd ..; done; : >over; }"
  )
  system(paste0("( ", line, " ) >/dev/null 2>&1"), wait = FALSE)
  for (at in 1:400) if (!file.exists(file.path(folders[1], "number"))) Sys.sleep(0.005)
  # Returns the number of the process that works now, if there is one.
  working <- function() {
    own <- folders[file.exists(file.path(folders, "number")) & !file.exists(file.path(folders, "status"))]
    number <- if (length(own)) suppressWarnings(as.integer(read_text(file.path(own[1], "number"))))
    number[!is.na(number)]
  }
  list(
    look = function(pause) {
      Sys.sleep(pause)
      if (file.exists(place("over"))) lapply(folders, ended_in)
    },
    close = function() {
      if (!dir.exists(room)) return(invisible())
      file.create(place("stop"))
      for (at in 1:40) {
        if (file.exists(place("over"))) break
        for (number in working()) tools::pskill(number, tools::SIGKILL)
        Sys.sleep(0.01)
      }
      unlink(room, recursive = TRUE)
    }
  )
}

# Starts calls of the library in a copy of this process.
started_copy <- function(words, batch, engine) {
  job <- of_copies("mcparallel")(answers(words, batch, engine), mc.set.seed = FALSE, silent = TRUE)
  # The copy that has ended is forgotten by a second look at it.
  collected <- function(pause) suppressWarnings(of_copies("mccollect")(job, wait = FALSE, timeout = pause))
  list(
    look = function(pause) {
      found <- collected(pause)
      if (is.null(found)) return(NULL)
      collected(1)
      job <<- NULL
      if (is.list(found[[1]])) found[[1]] else stop(failed(NA_integer_, "a process of R ended before its answer"))
    },
    close = function() {
      if (is.null(job)) return(invisible())
      tools::pskill(job$pid, tools::SIGKILL)
      collected(1)
      job <<- NULL
    }
  )
}
