# Certificates: their JSON as lists. Each number stays a text.

# Returns the items of a certificate of a kind.
items_of <- function(text, kind) {
  found <- read_json(text)
  stopifnot(is.list(found), identical(found$kind, kind), found$version %in% c("1", "2"), is.list(found$items), length(found$items) > 0)
  found$items
}

# Returns which of some members an item has, of which it has just one.
case_of <- function(item, cases) {
  found <- intersect(cases, names(item))
  stopifnot(length(found) == 1)
  found
}

# Returns an exact number of a text that is a whole number or a fraction.
one_exact <- function(text) {
  stopifnot(length(text) == 1, grepl("^-?[0-9]+(/[0-9]+)?$", text))
  exact(text)
}

read_json <- function(text) {
  tokens <- regmatches(text, gregexpr("\"[^\"]*\"|[][{}:,]|[^][{}:,\"[:space:]]+", text, useBytes = TRUE))[[1]]
  brackets <- which(tokens %in% c("[", "]", "{", "}"))
  following <- findInterval(seq_along(tokens), brackets) + 1
  at <- 0
  value <- function() {
    at <<- at + 1
    if (tokens[at] == "{") return(members())
    if (tokens[at] == "[") return(entries())
    bare_token(tokens[at])
  }
  members <- function() {
    found <- list()
    while (tokens[at + 1] != "}") {
      if (tokens[at + 1] == ",") at <<- at + 1
      name <- bare_token(tokens[at + 1])
      at <<- at + 2
      found[[name]] <- value()
    }
    at <<- at + 1
    found
  }
  entries <- function() {
    end <- brackets[following[at]]
    if (tokens[end] == "]") {
      found <- tokens[seq_len(end - at - 1) + at]
      at <<- end
      return(bare_token(found[found != ","]))
    }
    found <- list()
    while (tokens[at + 1] != "]") {
      if (tokens[at + 1] == ",") at <<- at + 1
      found[[length(found) + 1]] <- value()
    }
    at <<- at + 1
    found
  }
  value()
}

bare_token <- function(token) gsub("\"", "", token, fixed = TRUE)

# Returns the items by their names.
by_item <- function(items) named(items, vapply(items, function(it) it$item, ""))
