# A verdict as a theorem: the file of Coq that the program `rp-second` of the second prover writes.

rp_theorem <- function(data, certificate = NULL, file = NULL, levels = NULL, exe = NULL, per = NULL, pairs = FALSE,
                       pump = FALSE) {
  program <- second_program(exe)
  asked <- (if (pairs) asked_of_pairs else asked_of_answer)(data, certificate, per, levels, pump)
  ran <- by_program(c("--theorem", asked$words), list(asked$files), program)[[1]]
  if (identical(ran$status, 1L)) {
    what <- if ("certificate.json" %in% asked$words) "certificate" else "report"
    bad_data("the ", what, " proves nothing of these data, and there is no theorem: ", trimws(ran$out))
  }
  if (!identical(ran$status, 0L)) stop(failed(ran$status, ran$said))
  text <- strsplit(ran$out, "\n", fixed = TRUE)[[1]]
  if (!is.null(file)) write_file(text, file)
  invisible(text)
}

# Returns the words and the files of the theorems on the pairs of a table.
asked_of_pairs <- function(data, certificate, per, levels, pump) {
  if (!is.null(certificate) || !is.null(per) || pump) {
    bad_data("theorems on pairs need a table alone: leave certificate, per and pump out")
  }
  if (inherits(data, c("rp_pairs", "rp_pump"))) data <- data$table
  list(words = c("--pairs", "table.csv"), files = table_alone(files_of(data, NULL, levels)))
}

# Returns the words and the files of the theorems on an answer, or on data with a certificate.
asked_of_answer <- function(data, certificate, per, levels, pump) {
  if (is.null(certificate) && pump && !inherits(data, "rp_pump")) {
    data <- if (is_sides(data)) rp_pump(data[[1]], data[[2]]) else rp_pump(data)
  }
  if (is.null(certificate) && inherits(data, c("rp_pump", "rp_menus", "rp_cost"))) return(asked_of_report(data, per))
  if (is.null(certificate) && !inherits(data, c("rp_test", "rp_demand", "rp_welfare", "rp_random"))) {
    data <- if (is_sides(data)) rp_test(data[[1]], data[[2]], levels = levels) else rp_test(data, levels = levels)
    levels <- NULL
  }
  answer <- if (is.null(certificate)) data else certificate
  of <- files_of(data, per, levels)
  if (pump) {
    files <- c(table_alone(of), list(result.txt = certificate_bytes(answer)))
    return(list(words = c("--pump", names(files)), files = files))
  }
  words <- c(names(of$files), "certificate.json", units_of(of$per))
  list(words = words, files = c(of$files, list(certificate.json = certificate_bytes(answer))))
}

# Returns the words and the files of the theorems on an answer that stands in a report.
asked_of_report <- function(answer, per) {
  if (!is.null(per)) {
    bad_data("a result of rp_menus has its own number of units, and the money pump and cost have no shares: leave per out")
  }
  of <- switch(class(answer)[1],
    rp_pump = list("--pump", "table.csv", answer$table),
    rp_menus = list("--menus", "menus.csv", answer$menus),
    rp_cost = list("--cost", "technology.csv", answer$technology)
  )
  report <- charToRaw(paste0(answer$report, "\n", collapse = ""))
  files <- named(list(csv_lines(of[[3]]), report), c(of[[2]], "result.txt"))
  units <- sub("^apportioned per ", "", grep("^apportioned per ", answer$report, value = TRUE))
  list(words = c(of[[1]], names(files), if (length(units)) units_of(units)), files = files)
}

# Returns the file of a table, and refuses other data.
table_alone <- function(of) {
  if (of$command != "check") bad_data("theorems on pairs and on the money pump are written of a table")
  of$files
}

# Whether data are the two sides of a table, prices and quantities.
is_sides <- function(data) is.list(data) && !is.data.frame(data) && !inherits(data, "rp_table") && length(data) == 2

# Returns the program rp-second: the argument, else what the variable RP_SECOND names, else the one on the path.
second_program <- function(exe = NULL) {
  named <- if (is.null(exe)) Sys.getenv("RP_SECOND") else exe
  given <- !is.null(exe) || nzchar(named)
  found <- on_path(if (given) named else if (on_windows()) "rp-second.exe" else "rp-second")
  if (!is.null(found)) return(found)
  no_program(
    if (given) c(quoted(paste(as.character(named), collapse = " ")), " is no program: ") else "there is no program rp-second on the path: ",
    "the release has it for Linux in rp-second-VERSION.tar.gz: name it by exe =, or by the variable RP_SECOND, or put it on the path. ",
    "From source, `make program` in the folder second/ builds it, with the packages coq, ocaml-findlib and libzarith-ocaml-dev of Debian 12"
  )
}
