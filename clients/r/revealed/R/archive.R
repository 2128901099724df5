# The certificates of a panel as files, for the replication archive of a paper.

# Makes the folder that certificates are written to, if it is not there.
folder_for <- function(name) {
  if (!is.character(name) || length(name) != 1 || is.na(name) || !nzchar(name)) bad_data("certificates is the name of a folder")
  if (!dir.exists(name) && !dir.create(name, showWarnings = FALSE, recursive = TRUE)) bad_data("certificates: the folder ", quoted(name), " cannot be made")
}

# Writes the table and the certificate of each unit with verdicts to a folder, and a list of these units.
keep_certificates <- function(panel, folder, exe, wide, workers, progress) {
  own <- which(answered(panel))
  # The program of panels has no certificates: the one beside it, or on the path, has.
  engine <- engine_of(if (!is.null(exe) && startsWith(basename(exe), "rp-panel")) NULL else exe)
  file <- function(number, end) file.path(folder, paste0("unit_", number, end))
  keep <- function(number) {
    table <- table_in(panel, own[[number]])
    verdict <- verdict_on(table, engine, wide)
    write_lines(csv_lines(table), file(number, ".csv"))
    write_lines(verdict$certificate, file(number, ".json"))
    number
  }
  kept <- in_parallel(length(own), function(numbers) lapply(numbers, function(it) tryCatch(keep(it), error = identity)), workers, progress)
  wrong <- Filter(function(it) !is.numeric(it), kept)
  if (length(wrong)) stop(if (inherits(wrong[[1]], "error")) wrong[[1]] else failed(NA_integer_, "a process of R ended before its answer"))
  units <- inside(panel)$keys[own, , drop = FALSE]
  write.csv(cbind(units, file = sprintf("unit_%d", seq_along(own))), file.path(folder, "units.csv"), row.names = FALSE)
}

# Writes lines as they are, with the same ends on each system.
write_lines <- function(lines, file) {
  to <- file(file, "wb")
  on.exit(close(to))
  writeLines(lines, to, sep = "\n", useBytes = TRUE)
}
