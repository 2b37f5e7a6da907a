"""Refusals in words, from the table refusals.ini."""
from __future__ import annotations

import configparser
import pathlib
import re
from typing import NamedTuple, Optional

# A longer faulty word is cut where it is shown.
MOST_SHOWN = 40

# What a line (22, 23) or a word (24) looks like, in the order in which it is looked for. The table has a remedy for each.
SEEN = {
    22: {"line ends of old Macs": rb".*\r"},
    23: {
        "ZERO behind SEVERITY": rb"SEVERITY\b",
        "older sheet": rb"SEVERITY\b",
        "byte order mark": rb"\xef\xbb\xbf|\xff\xfe|\xfe\xff",
        "comment": rb".*(#|//)",
        "empty": rb"\s*$",
        "indented": rb"[ \t]+\S",
        "tab": rb".*\t",
        "lower case": rb"(?=[A-Z]*[a-z])(?i:law|term|start|last|zero|severity|w)( |$)",
        "other separators": rb".*[,;\x80-\xff]",
        "spaces": rb".*(  | \r?$)",
    },
    24: {
        "line ends of Windows": rb".*\r$",
        "tab": rb".*\t",
        "decimals": rb"-?[0-9]+\.[0-9]*$|\.[0-9]+$",
        "comma": rb"-?[0-9]*(,[0-9]*)+(\.[0-9]*)?$",
        "negative": rb"-[1-9][0-9]{0,9}$",
        "minus zero": rb"-0$",
        "plus sign": rb"\+[0-9]",
        "zero in front": rb"-?0[0-9]+$",
        "too many digits": rb"-?[1-9][0-9]{10,}$",
        "empty": rb"$",
    },
}

# And what the line before it and the lines behind it look like, where they count too: behind a good line LAST the line ZERO is due, and it
# may stand on a later line.
SEEN_AROUND = {
    (23, "ZERO behind SEVERITY"): (rb"LAST ", rb"(?:.*\n)*?ZERO "),
    (23, "older sheet"): (rb"LAST ", rb""),
}


class Refusal(NamedTuple):
    """A section of the table; some refusals are those of several calls."""
    number: int
    calls: list[str]
    name: str
    why: str
    at: str
    place: str
    remedy: str
    seen: dict

    def look(self, text: bytes, before: bytes, behind: bytes) -> str:
        """What is seen in the text of the line or the word, in the line before and in those behind; nothing where there is no remedy for
        it."""
        for look, pattern in SEEN.get(self.number, {}).items():
            around = SEEN_AROUND.get((self.number, look), (b"", b""))
            if all(map(re.match, (pattern, *around), (text, before, behind))):
                return look
        return ""


def refusal(number: int, section: configparser.SectionProxy) -> Refusal:
    words = {key: " ".join(value.split()) for key, value in section.items()}
    seen = {key[len("seen "):]: value for key, value in words.items() if key.startswith("seen ")}
    return Refusal(number, words["call"].split(", "), words["name"], words["why"], words.get("at", ""), words.get("place", ""),
                   words["remedy"], seen)


def read_table() -> dict[int, Refusal]:
    table = configparser.ConfigParser(interpolation=None, delimiters=("=",), comment_prefixes=("#",))
    table.optionxform = str  # keys keep their capitals
    table.read_string((pathlib.Path(__file__).parent / "refusals.ini").read_text(encoding="utf-8"))
    return {int(number): refusal(int(number), table[number]) for number in table.sections()}


# By number.
REFUSALS = read_table()


def printable(word: bytes) -> str:
    """Bytes that would not be seen, and the backslash, by their numbers; a long word is cut."""
    shown = "".join(chr(byte) if 0x20 < byte < 0x7f and byte != 0x5c else f"\\x{byte:02x}" for byte in word[:MOST_SHOWN])
    return shown + ".." * (len(word) > MOST_SHOWN)


class Refused(Exception):
    """A refusal of a call. It can be pickled, so that one process can raise it in another.

    number      that of the refusal
    place       its place: a line of the sheet, a term, a total, a place of the rows or a layer; 0 where it has none
    line        the place where it is a line, else None
    word        the faulty word, as bytes, where the number is 24, else None
    name        the reason's name
    why         what holds
    seen        what is seen in the line or the word that tells what to do; empty where it is nothing known
    remedy      what to do
    sentence    all of it, in words
    """

    def __init__(self, number: int, place: int, *, word: Optional[bytes] = None, text: bytes = b"", before: bytes = b"",
                 behind: bytes = b"", more: str = "") -> None:
        """`text` is the line or the word where it may be seen what to do, `before` the line before it, `behind` all lines behind it, and
        `more` is said after why."""
        super().__init__(number, place)  # from these it is made anew where it was pickled, and then gets its attributes back
        said = REFUSALS[number]
        self.number, self.place, self.word, self.name = number, place, word, said.name
        self.line = place if "sheet" in said.calls else None
        self.why = said.why + more
        self.seen = said.look(text, before, behind)
        self.remedy = said.seen.get(self.seen, said.remedy)
        self.at = f"{said.at} {place}" if said.at else ""

    def __str__(self) -> str:
        return self.sentence

    @property
    def reason(self) -> str:
        """Number and why, with the word where there is one."""
        shown = "" if self.word is None else f"; the word is {printable(self.word) or 'empty'}"
        return f"refused by {self.number}: {self.why}{shown}. {self.remedy}"

    @property
    def sentence(self) -> str:
        return f"{self.at}: {self.reason}" if self.at else self.reason

    def on_line(self, line: int) -> Refused:
        """The same, told of another line: for a sheet that was read with lines that its file does not have."""
        self.place, self.line, self.at, self.args = line, line, f"line {line}", (self.number, line)
        return self

    def of(self, source: str) -> str:
        """The sentence with the name of the file or whatever else was refused."""
        return f"{source}, {self.sentence}" if self.at else f"{source}: {self.sentence}"
