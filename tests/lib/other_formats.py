"""Reads Life 1.06, Life 1.05, plaintext and apgcodes as docs/FORMATS.md says, apart from the program."""
import re

from lib.apgcode import read_representation
from lib.rle import tidy
from lib.rle_reader import Fault, rule_of

EDGE, MOST_CELLS = 1 << 60, 1 << 24
BLANKS = b" \t\r"
INTEGER, CODE = re.compile(rb"-?[0-9]+"), re.compile(rb"x[spq][0-9]+_([^ \t\r\n]*)")
STAR_ROW, LETTER_ROW = re.compile(rb"([.*]*)[ \t\r]*"), re.compile(rb"([.*O]*)[ \t\r]*")


def lines_of(text):
    """The lines of a text: one that ends with LF has no line after it."""
    lines = text.split(b"\n")
    return lines if lines[-1] else lines[:-1]


def format_of(text):
    """The format of a text, or None."""
    first = text.split(b"\n")[0].strip(BLANKS)
    if first in (b"#Life 1.06", b"#Life 1.05"):
        return first[1:]
    start = text.lstrip(BLANKS + b"\n")[:1]
    if start and start in b"!.*O":
        return b"plaintext"
    return b"apgcode" if CODE.fullmatch(text.strip(BLANKS + b"\n")) else None


def integers(words):
    """Two words as whole numbers, or None."""
    return tuple(map(int, words)) if len(words) == 2 and all(INTEGER.fullmatch(it) for it in words) else None


class Reading:
    """The cells and the rule of the lines so far."""

    def __init__(self, corner):
        self.cells, self.count, self.corner, self.rule = set(), 0, corner, None

    def name(self, places):
        """More live cells."""
        self.count += len(places)
        if self.count > MOST_CELLS:
            raise Fault("too many cells")
        self.cells |= set(places)

    def row(self, cells):
        """A row of cells, below the last."""
        if self.corner is None:
            raise Fault("no corner")
        x, y = self.corner
        if y >= EDGE or x + len(cells) > EDGE:
            raise Fault("range")
        self.name([(x + at, y) for at, it in enumerate(cells) if it in b"*O"])
        self.corner = x, y + 1


def in_range(place):
    """The place, where a file may have it."""
    if not all(-EDGE <= it < EDGE for it in place):
        raise Fault("range")
    return place


def words_of(line):
    """The words of a line."""
    return re.findall(rb"[^ \t\r]+", line)


def life_106(reading, line):
    """A line of Life 1.06."""
    words = words_of(line)
    if words and not words[0].startswith(b"#"):
        place = integers(words)
        if place is None:
            raise Fault("syntax")
        reading.name([in_range(place)])


def life_105(reading, line):
    """A line of Life 1.05."""
    words = words_of(line)
    first = words[0] if words else b"#"
    if first == b"#P":
        place = integers(words[1:] or [b"0", b"0"])
        if place is None:
            raise Fault("syntax")
        reading.corner = in_range(place)
    elif first == b"#N":
        reading.rule = "B3/S23"
    elif first == b"#R":
        try:
            rule, states = rule_of(words[1] if len(words) == 2 else b"")
        except Fault:
            raise Fault("syntax") from None
        if states != 2 or rule.count("/") != 1:
            raise Fault("syntax")
        reading.rule = rule
    elif not first.startswith(b"#"):
        row = STAR_ROW.fullmatch(line)
        if not row or not row[1]:
            raise Fault("syntax")
        reading.row(row[1])


def plaintext(reading, line):
    """A line of plaintext."""
    if not line.startswith(b"!"):
        row = LETTER_ROW.fullmatch(line)
        if not row:
            raise Fault("syntax")
        reading.row(row[1])


def apgcode(text):
    """The live cells of an apgcode."""
    cells = read_representation(CODE.search(text)[1].decode("latin-1"))
    if cells is None:
        raise Fault("syntax", text[:text.index(b"x")].count(b"\n") + 1)
    return cells


def read(text):
    """The live cells of a text, and the rule that it names, or None; or its fault is raised, with the number of its line."""
    kind = format_of(text)
    if kind is None:
        raise Fault("unknown format")
    if kind == b"apgcode":
        return apgcode(text), None
    line_of = {b"Life 1.06": life_106, b"Life 1.05": life_105, b"plaintext": plaintext}[kind]
    reading = Reading((0, 0) if kind == b"plaintext" else None)
    for number, line in enumerate(lines_of(text), 1):
        try:
            line_of(reading, line)
        except Fault as fault:
            raise Fault(fault.kind, number) from None
    return reading.cells, reading.rule


def rle_of(text, rule="B3/S23", states=2):
    """The RLE that a text is imported as."""
    cells, own = read(text)
    return tidy({it: 1 for it in cells}, own or rule, 0, 2 if own else states)
