"""Whether the marks of an accepted curve are true: "low and high of an exact entry of row 0 are the clerk's amounts for the low and the
high start"."""


def off_amount(job, ends, amount):
    """A marked entry; `amount` is the exact one per unit of the start."""
    exact = job.low_start * amount, job.high_start * amount
    if ends != exact:
        yield "is marked with {} and {}, and the exact amounts are {} and {}".format(*ends, *exact)


def wrong_marks(job, rows, amounts):
    """`amounts` are the exact ones per unit of the start; no marked entry may be without one. An entry that is right may lack its mark, but
    not at total 0, nor where its ends are equal: a remainder, or ends apart that were used, would have left them apart."""
    for x in range(job.last + 1):
        ends, mark = (rows.low[x], rows.high[x]), rows.mark[x]
        if mark == 1 and x < len(amounts):
            yield from (f"total {x} {fault}" for fault in off_amount(job, ends, amounts[x]))
        elif mark == 1:
            yield f"total {x} is marked, and its exact amount is not known"
        elif mark != 0:
            yield f"total {x} has the mark {mark}"
        elif x == 0 or ends[0] == ends[1]:
            yield "total {} has {} and {}, and no mark".format(x, *ends)


def kinds_of_marks(job, rows):
    """The kinds of the marked entries past total 0, to count what was looked at."""
    for x in range(1, job.last + 1):
        if rows.mark[x] == 1:
            of_this = {
                "past total 0": True,
                "not 0": rows.high[x] > 0 or rows.low[x] < 0,
                "below 0": rows.low[x] < 0,
                "ends apart": rows.low[x] < rows.high[x],
                "order above 1": job.order > 1,
                "weight at 0": job.zero > 0,
            }
            yield from (kind for kind, is_so in of_this.items() if is_so)
