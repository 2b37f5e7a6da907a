"""A picture, as SVG, of a table. The upper panel has each total's low and high as the chances they stand for, and dots at its foot where
these are exact; the lower one has the gap between them and its bound. The same rows and title always give the same bytes."""
from __future__ import annotations

import math
import textwrap
from collections.abc import Callable, Iterable, Iterator, Sequence
from html import escape
from typing import TYPE_CHECKING, NamedTuple

from claimtotals.library import UNIT

if TYPE_CHECKING:
    from claimtotals.curves import Row

__all__ = ["DEFAULT_TITLE", "check_title", "picture"]

DEFAULT_TITLE = "Chance of each yearly claim total"

# places, in pixels
WIDTH, LEFT, RIGHT = 900, 130, 880
TITLE_LINE, LETTERS = 24, 60
UPPER, LOWER, BETWEEN, FOOT = 300, 150, 60, 56

# The picture must be readable in black and white: what is light here stays lighter than what is dark.
PAPER, INK, FRAME, GRID, STEM, BAR = "#ffffff", "#1a1a1a", "#555555", "#dddddd", "#b0b0b0", "#9fc0e0"
INTERVAL, BOUND = "#123f73", "#a63a00"

# How high and, where there is room, how wide a dot is.
DOT = 8

# Up to this largest number the lower panel's axis is linear.
MOST_LINEAR = 20


class Panel(NamedTuple):
    """A part of the picture: its upper and lower edge, and how high a number stands, from 0 for the lower edge to 1."""
    top: float
    bottom: float
    share: Callable[[int], float]

    def y(self, units: int) -> float:
        """The place of a number."""
        return self.bottom - (self.bottom - self.top) * self.share(units)


class Kind(NamedTuple):
    """A kind of dot, which marks a total as exact: what it says, where the legend has it, and its colour."""
    words: str
    place: float
    fill: str


# Dark is for a chance that is exact, light for low and high where they are not equal.
KINDS = DARK, LIGHT = Kind("exact", LEFT + 388, INTERVAL), Kind("each end exact for its own start", LEFT + 460, PAPER)


def kind_of(row: Row) -> Kind | None:
    """That of a row's dot, if it is exact."""
    if not row.exact:
        return None
    return DARK if row.chance_is_exact else LIGHT


def dot_kinds(rows: Sequence[Row]) -> list[Kind | None]:
    """Those of all dots. Every table is exact at total 0, where it repeats the start: only a later such total is worth dots."""
    kinds = [kind_of(row) for row in rows]
    return kinds if any(kinds[1:]) else [None] * len(rows)


# ---- scales

def step(span: int, most: int) -> int:
    """The smallest of 1, 2, 5, 10, 20, .. that cuts a span into `most` parts at most."""
    size = 1
    while span > size * most:
        size = size * 5 // 2 if str(size)[0] == "2" else size * 2
    return size


def ticks(least: int, greatest: int, most: int) -> range:
    """Marks in equal steps, from the least number or below it to the greatest or above it."""
    size = step(greatest - least, most)
    return range(least // size * size, -(-greatest // size) * size + 1, size)


def linear(least: int, greatest: int) -> Callable[[int], float]:
    """The scale from the least number, at 0, to the greatest, at 1."""
    return lambda units: (units - least) / (greatest - least)


def logarithmic(powers: int) -> Callable[[int], float]:
    """Zero has no logarithm: it stands one power below 1, and no whole number lies between. A little room is left above the last power."""
    return lambda units: (1 + math.log10(units)) / (powers + 0.4) if units else 0


def chance_axis(rows: Sequence[Row]) -> range:
    """The marks, in units, with a little room beyond the ends."""
    least, greatest = min(0, *(row.low for row in rows)), max(1, *(row.high for row in rows))
    room = (greatest - least) // 50
    return ticks(least - room if least else 0, greatest + room, 8)


def gap_axis(rows: Sequence[Row]) -> tuple[Sequence[int], Callable[[int], float]]:
    """The marks, in units, and the scale: linear where the bounds are small."""
    greatest = max(row.bound for row in rows)
    if greatest <= MOST_LINEAR:
        marks = ticks(0, greatest + 1, 5)
        return marks, linear(0, marks[-1])
    powers = len(str(greatest - 1)) + 1
    return [0, *(10 ** power for power in range(powers))], logarithmic(powers)


def chance_words(marks: Sequence[int]) -> Callable[[int], str]:
    """A mark's units as a chance, with as many digits as the steps need."""
    digits = max(10 - len(str(marks[1] - marks[0])), 1)
    return lambda units: f"{units / UNIT:.{digits}f}"


def gap_words(marks: Sequence[int]) -> Callable[[int], str]:
    """Of many powers only every third has its number, as there is no room for all."""
    many = len(marks) > 7
    return lambda units: "" if many and units and len(str(units)) % 3 != 1 else f"{units:,}"


# ---- drawing

def number(place: float) -> str:
    """A place, with at most two digits after the point."""
    return f"{place:.2f}".rstrip("0").rstrip(".")


def element(name: str, content: str | None = None, **attributes: str | float) -> str:
    """`class_` stands for `class`, and `_` for `-` within a name."""
    names = {key: key.rstrip("_").replace("_", "-") for key in attributes}
    written = "".join(f' {names[key]}="{value if isinstance(value, str) else number(value)}"' for key, value in attributes.items())
    return f"<{name}{written}/>" if content is None else f"<{name}{written}>{content}</{name}>"


def lines_of(elements: Iterable[str]) -> str:
    """The content of an element that has others in it."""
    return "\n".join(["", *elements, ""])


def line(x1: float, y1: float, x2: float, y2: float, colour: str, width: float) -> str:
    """A straight line."""
    return element("line", x1=x1, y1=y1, x2=x2, y2=y2, stroke=colour, stroke_width=width)


def text(words: str, x: float, y: float, anchor: str = "start", size: float = 13, **attributes: str) -> str:
    """Words, whatever their characters mean in XML."""
    return element("text", escape(words, quote=False), x=x, y=y, text_anchor=anchor, font_size=size, **attributes)


def frame(panel: Panel) -> str:
    """The edges of a panel."""
    return element("rect", x=LEFT, y=panel.top, width=RIGHT - LEFT, height=panel.bottom - panel.top, fill="none", stroke=FRAME,
                   stroke_width=1)


def upright_axis(panel: Panel, marks: Sequence[int], words: Callable[[int], str], name: str) -> Iterator[str]:
    """Grid lines at the marks, what `words` makes of the marks, and the axis's name."""
    middle = number((panel.top + panel.bottom) / 2)
    for mark in marks:
        yield line(LEFT, panel.y(mark), RIGHT, panel.y(mark), GRID, 1)
        yield text(words(mark), LEFT - 8, panel.y(mark) + 4.5, "end", class_="mark")
    yield text(name, 18, 0, "middle", transform=f"translate(0 {middle}) rotate(-90 18 0)")


def totals_axis(places: Sequence[float], panels: Sequence[Panel]) -> Iterator[str]:
    """Marks at the feet of the panels, with numbers below the last."""
    last = len(places) - 1
    foot = panels[-1].bottom
    for total in range(0, last + 1, step(last, 12)):
        for panel in panels:
            yield line(places[total], panel.bottom, places[total], panel.bottom + 5, FRAME, 1)
        yield text(str(total), places[total], foot + 20, "middle", class_="total")
    yield text("total", (LEFT + RIGHT) / 2, foot + 44, "middle")


def beam(x: float, high: float, low: float, width: float) -> str:
    """A line from high to low with a cap at each end; where they are near each other, the caps alone are seen."""
    left, right = number(x - width / 2), number(x + width / 2)
    return f"M{left} {number(high)}H{right}M{number(x)} {number(high)}V{number(low)}M{left} {number(low)}H{right}"


def interval(row: Row, kind: Kind | None, x: float, width: float, panel: Panel) -> Iterator[str]:
    """Low to high, and a thin line that leads there from zero."""
    high, low, zero = panel.y(row.high), panel.y(row.low), panel.y(0)
    yield line(x, zero, x, min(max(zero, high), low), STEM, min(1, width))
    said = element("title", f"total {row.total}: low {row.low}, high {row.high}, bound {row.bound}{f', {kind.words}' if kind else ''}")
    yield element("path", said, d=beam(x, high, low, width), fill="none", stroke=INTERVAL, stroke_width=min(2.4, width), class_="interval")


def gap(row: Row, x: float, width: float, panel: Panel) -> str:
    """A bar as high as the gap between low and high."""
    top = panel.y(row.high - row.low)
    return element("rect", x=x - width / 2, y=top, width=width, height=panel.bottom - top, fill=BAR, stroke=FRAME,
                   stroke_width=min(0.8, width / 4), class_="gap")


def bounds(rows: Sequence[Row], edges: Sequence[float], panel: Panel) -> str:
    """A line in steps, each as wide as a total's share of the axis."""
    steps = "".join(f"V{number(panel.y(row.bound))}H{number(edge)}" for row, edge in zip(rows, edges[1:]))
    return element("path", d=f"M{number(edges[0])} {number(panel.y(rows[0].bound))}{steps}", fill="none", stroke=BOUND, stroke_width=2,
                   class_="bound")


def dot(kind: Kind, x: float, y: float, width: float, **attributes: str) -> str:
    """Where many totals leave little width it keeps its height, so that it is seen."""
    return element("rect", x=x - width / 2, y=y - DOT / 2, width=width, height=DOT, rx=width / 2, fill=kind.fill, stroke=INTERVAL,
                   stroke_width=min(1.5, width / 4), **attributes)


def exact_dots(kinds: Sequence[Kind | None], places: Sequence[float], width: float, y: float) -> Iterator[str]:
    """Those of the totals that have one, all at one height, so that none of them covers an interval."""
    for kind, x in zip(kinds, places):
        if kind:
            yield dot(kind, x, y, min(DOT, width), class_="exact")


def exact_legend(kinds: Sequence[Kind | None], y: float) -> Iterator[str]:
    """What the dots stand for that there are."""
    for kind in KINDS:
        if kind in kinds:
            yield dot(kind, kind.place, y - 5, DOT)
            yield text(kind.words, kind.place + 12, y)


def upper_legend(rows: Sequence[Row], y: float) -> Iterator[str]:
    """What a beam stands for, and how far its ends are apart at most, which the panel may be too small to show."""
    widest = max(row.high - row.low for row in rows)
    yield element("path", d=beam(LEFT + 8, y - 12, y + 1, 13), fill="none", stroke=INTERVAL, stroke_width=2.4)
    yield text(f"low and high, at most {widest:,} billionth{'' if widest == 1 else 's'} apart", LEFT + 24, y)


def lower_legend(y: float) -> Iterator[str]:
    """What a bar and the line in steps stand for."""
    yield element("rect", x=LEFT, y=y - 11, width=16, height=12, fill=BAR, stroke=FRAME, stroke_width=0.8)
    yield text("high less low", LEFT + 24, y)
    yield line(LEFT + 134, y - 5, LEFT + 162, y - 5, BOUND, 2)
    yield text("bound", LEFT + 170, y)


def upper_panel(rows: Sequence[Row], panel: Panel, marks: Sequence[int], places: Sequence[float], width: float) -> Iterator[str]:
    """The chances."""
    yield from upper_legend(rows, panel.top - 14)
    yield from upright_axis(panel, marks, chance_words(marks), "chance")
    yield line(LEFT, panel.y(0), RIGHT, panel.y(0), INK, 1)
    kinds = dot_kinds(rows)
    for row, kind, x in zip(rows, kinds, places):
        yield from interval(row, kind, x, width, panel)
    yield frame(panel)
    yield from exact_legend(kinds, panel.top - 14)
    yield from exact_dots(kinds, places, width, panel.bottom + 14)


def lower_panel(rows: Sequence[Row], panel: Panel, marks: Sequence[int], edges: Sequence[float], places: Sequence[float],
                width: float) -> Iterator[str]:
    """The gaps and the bounds."""
    yield from lower_legend(panel.top - 14)
    name = "billionths" if isinstance(marks, range) else "billionths, log scale"
    yield from upright_axis(panel, marks, gap_words(marks), name)
    for row, x in zip(rows, places):
        yield gap(row, x, width, panel)
    yield frame(panel)
    yield bounds(rows, edges, panel)


# ---- the picture

def check_title(title: str) -> None:
    """A ValueError where a title has characters that cannot be printed, such as a line end. `picture` looks at its title so too; a command
    can do it before it reads anything."""
    if not title.isprintable():
        raise ValueError("the title has characters that cannot be printed")


def picture(rows: Sequence[Row], title: str) -> str:
    """The whole text of the picture of the rows of totals 0, 1, 2, ..; what is in front comes last."""
    check_title(title)
    heading = textwrap.wrap(title, LETTERS)
    top = TITLE_LINE * len(heading) + 50
    chances, (gaps, scale) = chance_axis(rows), gap_axis(rows)
    upper = Panel(top, top + UPPER, linear(chances[0], chances[-1]))
    lower = Panel(upper.bottom + BETWEEN, upper.bottom + BETWEEN + LOWER, scale)
    share = (RIGHT - LEFT) / len(rows)
    edges = [LEFT + share * place for place in range(len(rows) + 1)]
    places = [edge + share / 2 for edge in edges[:-1]]
    width = min(0.7 * share, 26)
    height = lower.bottom + FOOT
    drawn = [
        element("title", escape(title, quote=False)),
        element("rect", width=WIDTH, height=height, fill=PAPER),
        *(text(words, LEFT, 30 + TITLE_LINE * place, size=18, font_weight="bold") for place, words in enumerate(heading)),
        element("g", lines_of(upper_panel(rows, upper, chances, places, width)), class_="upper"),
        element("g", lines_of(lower_panel(rows, lower, gaps, edges, places, width)), class_="lower"),
        *totals_axis(places, [upper, lower]),
    ]
    return element("svg", lines_of(drawn), xmlns="http://www.w3.org/2000/svg", viewBox=f"0 0 {WIDTH} {height}", width=WIDTH,
                   height=height, role="img", font_family="Helvetica, Arial, sans-serif", fill=INK) + "\n"
