# What the program has, as its proved sources tell it: inst/catalogue.json, which tools/make/catalogue of the repository writes.
# Limits, ranges of numbers and faults are taken from there and stand nowhere else in this package.

known <- new.env(parent = emptyenv())

catalogue <- function() {
  if (is.null(known$facts)) known$facts <- read_json(read_text(system.file("catalogue.json", package = "revealed")))
  known$facts
}

# Returns a limit as its digits, by its name in the catalogue.
limit_text <- function(name) {
  found <- Filter(function(it) it$name == name, catalogue()$limits)
  stopifnot(length(found) == 1)
  found[[1]]$most
}

limit <- function(name) as.integer(limit_text(name))

# Returns the least and the most of a number, or of an option's number, of a command, as their digits.
range_of <- function(command, name) {
  form <- Filter(function(it) it$name == command, catalogue()$commands)[[1]]
  found <- Filter(function(it) it$name == name, c(form$numbers, form$options))[[1]]
  c(found$least, found$most)
}

fault_names <- function() vapply(catalogue()$faults, function(it) it$name, "")

# At most so many places of a number are taken, and so many digits of the largest of its kind.
most_places <- function() limit("table.places")
digits_taken <- function() nchar(limit_text("table.largest"))

# Returns what is wrong and what to do about a fault, by the sentences of the catalogue, in the words of R; NA where it has none.
sentence <- function(code, of = "fault") {
  found <- Filter(function(it) it$code == code && it$of == of, catalogue()$hints)
  if (!length(found)) return(NA)
  text <- trimws(paste(found[[1]]$wrong, found[[1]]$do))
  sub("--id NAME; without this option the name is household", "by =", sub("--per ([0-9]+)", "per = \\1", text), fixed = FALSE)
}

# What an argument of this package does about a fault, behind that.
also <- list(
  UnknownBudget = "Budgets can have names: give them in a column 'budget' of both frames.",
  TooManyRecords = "If the rows are those of many units, they are a panel: rp_panel(data, by = ..).",
  OwnLevels = "The argument levels gives them too.",
  TooManyCombinations = "Leave wide = FALSE out, and have rp-wide beside the program, in the library, or named by RP_WIDE.",
  TooManyTypes = "Leave wide = FALSE out, and have rp-wide beside the program, in the library, or named by RP_WIDE."
)

# Returns what to do about a fault where nothing more is known, or NA.
plain_hint <- function(fault) {
  if (fault == "BadLevel") {
    most <- limit_text("table.level_scale")
    return(paste0("A level is a share of what was spent, such as 0.95, or an integer of thousandths from 1 to ", most, ", such as 950."))
  }
  found <- sentence(fault)
  if (is.na(found) || is.null(also[[fault]])) found else paste(found, also[[fault]])
}

# What units are called by the names of the columns that tell them apart: subjects by subject, or by subject_id; else units.
units_by <- function(by) {
  own <- tolower(trimws(by))
  known <- unlist(catalogue()$units)
  found <- c(known[own], known[sub("[ _.-]?(id|no|nr|number)$", "", own)])
  c(unname(found[!is.na(found)]), "units")[1]
}

# Returns what units are called: as the argument says, else by the names of their columns.
unit_words <- function(units, by) {
  if (is.null(units)) return(units_by(by))
  if (!is.character(units) || length(units) != 1 || is.na(units) || !nzchar(trimws(units))) bad_data("units is what units are called, such as \"subjects\"")
  units
}
