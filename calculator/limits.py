"""The paper's limits, each said once for the calculator, the tests and the comparison. The crates have their own; and cases_*.py have the
numbers of the paper themselves, so that a wrong number here is noticed."""

# "One unit U is 1,000,000,000 and stands for chance 1."
UNIT = 1_000_000_000
# "Order k, 1 to 4. Divisor D, 1 to 1,000. Terms .. each from -1,000 to 1,000."
MOST_ORDER = 4
MOST_DIVISOR = 1000
MOST_TERM = 1000
# "a row of exactly m weights, m from 1 to 500"; "their sum W is 1 to 1,000"
MOST_WEIGHTS = 500
MOST_SUM = 1000
# "Last total X, 0 to 500": 0 counts too
LAST_TOTAL = 500
MOST_TOTALS = LAST_TOTAL + 1
# "The work row is then 12 times (X+1) places"
WORK_COLUMNS = 12
# "a low or high of any row lies outside -2U to 2U"; "a bound of any row is above U"
MOST_END = 2 * UNIT
MOST_BOUND = UNIT
# "empty or over 16,384 bytes"
MOST_BYTES = 16_384
# "an s outside 1 to 1,000 or a mean above 20"; "a number of trials outside 1 to 1,000"
MOST_LOWER = 1000
MOST_MEAN = 20
MOST_TRIALS = 1000
# "up to 64 layers"
MOST_LAYERS = 64
