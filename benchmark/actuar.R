# The chances of a sheet's totals by R's actuar, for a Poisson law (order 1, A 0, D 1):
#     actuar.R table SHEET            prints them, a line for each total
#     actuar.R time TIMES SHEET       prints the shortest time of a call of aggregateDist, in microseconds
#     actuar.R compare TABLE SHEET    looks whether each lies from low to high of the table that the program wrote
#     actuar.R version
suppressPackageStartupMessages(library(actuar))

read_job <- function(path) {
    words <- strsplit(readLines(path), " ")
    keyword <- vapply(words, `[`, "", 1)
    number <- function(key, place) vapply(words[keyword == key], function(line) as.numeric(line[place]), 0)
    stopifnot(number("LAW", 2) == 1, number("LAW", 3) == 1, number("TERM", 2) == 0)
    weights <- c(number("ZERO", 2), number("W", 2))
    list(mean = number("TERM", 3), severity = weights / sum(weights), last = number("LAST", 2))
}

chances <- function(distribution) environment(distribution)$fs

# The call that is measured. It goes on until the chances add up to 1 - tol, or else to total maxit, and then warns.
aggregate_of <- function(job, tol) {
    aggregateDist("recursive", model.freq = "poisson", model.sev = job$severity, lambda = job$mean, tol = tol, maxit = job$last)
}

# A tol at which the call ends with the last total by itself, as a warning costs time: between what is left of 1 before that total and
# after it.
tol_for <- function(job) {
    left <- 1 - cumsum(chances(suppressWarnings(aggregate_of(job, 0))))
    stopifnot(length(left) == job$last + 1)
    mean(tail(left, 2))
}

shortest <- function(job, times) {
    tol <- tol_for(job)
    stopifnot(length(chances(aggregate_of(job, tol))) == job$last + 1)
    best <- Inf
    for (i in seq_len(times)) {
        from <- Sys.time()
        aggregate_of(job, tol)
        best <- min(best, as.numeric(Sys.time() - from, units = "secs"))
    }
    best * 1e6
}

compare <- function(job, path) {
    table <- read.table(path, header = TRUE)
    units <- 1e9 * chances(suppressWarnings(aggregate_of(job, 0)))
    # the chances are doubles, which err by far less than this part of a unit
    slack <- 0.001
    stopifnot(nrow(table) == length(units), table$LOW - slack <= units, units <= table$HIGH + slack)
}

given <- commandArgs(trailingOnly = TRUE)
switch(given[1],
    table = {
        found <- chances(suppressWarnings(aggregate_of(read_job(given[2]), 0)))
        cat(paste(seq_along(found) - 1, format(found, digits = 10)), sep = "\n")
    },
    time = cat(sprintf("%.2f\n", shortest(read_job(given[3]), as.numeric(given[2])))),
    compare = compare(read_job(given[3]), given[2]),
    version = cat(R.version.string, ", actuar ", as.character(packageVersion("actuar")), "\n", sep = ""),
    stop("usage: actuar.R table|time|compare|version")
)
