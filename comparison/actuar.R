# The chances of claim totals by actuar's aggregateDist. Reads jobs from standard input, one a line, of three parts with tabs between: the
# last total; the arguments of a call by recursion; and those of a call by convolutions, or nothing. Writes the versions, and for each job
# lines that begin with a word:
#   JOB          the number of the job's line
#   CHANCES      the chances of the totals 0, 1, .. in 17 digits, where the recursion is kept from stopping by itself
#   USUAL        the same with actuar's defaults: it stops when the sum is within 1e-6 of 1, or at total 500
#   QUANTILE     the quantile at 0.99, with the defaults
#   ERROR        what actuar says, with the defaults; likewise WARNING
#   CONVOLUTION  the chances by convolutions
suppressPackageStartupMessages(library(actuar))

say <- function(...) cat(..., "\n")
# 17 digits give every double back. diff() of an aggregateDist gives the chances that it has computed, not differences of their sums.
chances <- function(word, F) say(word, sprintf("%.17g", diff(F)))
by <- function(method, arguments) do.call(aggregateDist, c(method, arguments))
read <- function(text) eval(parse(text = paste0("list(", text, ")")))

# Only maxit stops this one: no sum of chances is within -Inf of 1.
all_totals <- function(arguments, last) {
    arguments <- modifyList(arguments, list(tol = -Inf, maxit = last))
    tryCatch(chances("CHANCES", suppressWarnings(by("recursive", arguments))), error = function(e) NULL)
}

usual <- function(arguments) {
    F <- by("recursive", arguments)
    chances("USUAL", F)
    say("QUANTILE", quantile(F, 0.99))
}

say("VERSION", R.version.string, "with actuar", as.character(packageVersion("actuar")))
input <- file("stdin")
jobs <- strsplit(readLines(input), "\t")
close(input)
for (number in seq_along(jobs)) {
    job <- jobs[[number]]
    say("JOB", number)
    all_totals(read(job[2]), as.integer(job[1]))
    withCallingHandlers(
        tryCatch(usual(read(job[2])), error = function(e) say("ERROR", conditionMessage(e))),
        warning = function(w) { say("WARNING", conditionMessage(w)); invokeRestart("muffleWarning") })
    if (length(job) > 2) chances("CONVOLUTION", by("convolution", read(job[3])))
}
