# The table of a sheet as a data frame, by the command `curve`. From the folder that has README.md, or by other paths from any folder:
#
#     Rscript examples/calls/table.R examples/poisson.txt
#
# The command is looked for two folders above this file, and builds the program first where that is due; another can be given as the second
# argument. The table, the mean and the totals for the level below go to standard output, with `none` for a total that there is not. What
# `curve` says goes to standard error: the sentence of a refusal, with exit status 1, or what failed, with 2. Why there is no total is told
# there too, with status 1.

unit <- 1e9
# Which total do 99 percent of the years not exceed?
level <- 990000000

stop_with <- function(status, ...) {
    message(...)
    quit(status = status)
}

# The folder of this file. R writes a space in its path as ~+~.
folder <- function() {
    path <- sub("^--file=", "", grep("^--file=", commandArgs(), value = TRUE)[1])
    dirname(normalizePath(gsub("~+~", " ", path, fixed = TRUE)))
}

given <- commandArgs(trailingOnly = TRUE)
if (!length(given) %in% 1:2) stop_with(2, "usage: Rscript table.R SHEET [COMMAND]")
command <- if (length(given) == 2) given[2] else file.path(folder(), "..", "..", "curve")
if (!file.exists(command)) stop_with(2, "no command at ", command)

# Its status tells a refusal, and it has said all that is to be said.
lines <- suppressWarnings(system2(normalizePath(command), c("--", shQuote(given[1])), stdout = TRUE))
if (!is.null(attr(lines, "status"))) quit(status = attr(lines, "status"))

# Numbers as doubles, which hold whole ones up to 2^53: sums of the rows, and of totals times entries, stay below 10^15. EXACT has Y or N.
totals <- read.table(text = lines, header = TRUE, colClasses = c(rep("numeric", 4), "character"))
options(scipen = 20)  # 1000000000 is not to be printed as 1e+09
print(totals, row.names = FALSE)

# What the totals of the table bring to the mean; later totals bring the rest.
mean_from <- sum(totals$TOTAL * totals$LOW) / unit
mean_to <- sum(totals$TOTAL * totals$HIGH) / unit
cat(sprintf("mean, totals up to %.0f: from %.9f to %.9f\n", max(totals$TOTAL), mean_from, mean_to))

# The smallest total at which the entries, added up from total 0 on, come to the level or more; NA where they never do.
reached <- function(row) totals$TOTAL[which(cumsum(row) >= level)[1]]
shown <- function(total) if (is.na(total)) "none" else sprintf("%.0f", total)
sure <- reached(totals$LOW)
possible <- reached(totals$HIGH)
cat(sprintf("level %.9g: sure %s, possible %s\n", level / unit, shown(sure), shown(possible)))
if (is.na(sure)) message(sprintf("level %.9g, sure: the lows never add up to it", level / unit))
if (is.na(possible)) message(sprintf("level %.9g, possible: the highs never add up to it", level / unit))
if (is.na(sure) || is.na(possible)) quit(status = 1)
