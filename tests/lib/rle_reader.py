"""RLE texts and the rules that they name, read as docs/FORMATS.md says: naive, apart from the program, and the source of what tests expect of it."""
import re
from dataclasses import dataclass

from lib import macrocell, remedies
from lib.macrocell import BLANKS, EDGE, GENERATIONS, number
from lib.program import escaped

MOST_CELLS, MOST_COUNT = 1 << 24, 1 << 62

HEADER = re.compile(rb"_x_=_\d+_,_y_=_\d+_(?:,_rule_=_([^ \t\r]*).*)?".replace(b"_", rb"[ \t\r]*"), re.DOTALL)
CORNER = re.compile(rb"Pos=(-?)(\d+),(-?)(\d+)")
XLIFE = re.compile(rb"[ \t\r]*#r[ \t\r]")
DIGITS = re.compile(rb"\d*")
WORD = re.compile(rb"[^ \t\r]+")

# Spellings of B/S rules: birth digits, survival digits, and a suffix; and which digits a suffix allows.
SPELLINGS = tuple(re.compile(it, re.IGNORECASE) for it in (
    rb"B(?P<birth>\d*)/?S(?P<survival>\d*)(?P<suffix>[VH]?)",
    rb"S(?P<survival>\d*)/?B(?P<birth>\d*)(?P<suffix>[VH]?)",
    rb"(?P<survival>\d*)/(?P<birth>\d*)(?P<suffix>[VH]?)",
))
HIGHEST_DIGIT = {"": "8", "V": "4", "H": "6"}
GENERATIONS_RULE = re.compile(rb"([0-8]*)/([0-8]*)/(\d+)")


class Fault(Exception):
    """What is wrong with a text, as it is printed, and the number of its line, if it has one."""

    def __init__(self, kind, line=None):
        super().__init__(kind, line)
        self.kind, self.line = kind, line


@dataclass
class Picture:
    """What a text holds: runs of live cells, each by its first place, its length and its state, a rule text, and a generation."""

    runs: list
    rule: bytes
    generation: int

    def population(self):
        """The number of live cells."""
        return sum(count for _, _, count, _ in self.runs)

    def highest_state(self):
        """The highest state of a cell."""
        return max((state for _, _, _, state in self.runs), default=0)

    def cells(self):
        """The live cells' states, by their places."""
        return {(x + at, y): state for x, y, count, state in self.runs for at in range(count)}


def lines_of(text):
    """The lines of a text, without their ends."""
    lines = text.split(b"\n")
    return [it[:-1] if it.endswith(b"\r") else it for it in (lines if lines[-1] else lines[:-1])]


class Front:
    """What the lines before the header say."""

    def __init__(self):
        self.corner, self.generation, self.has_rule = (0, 0), 0, False

    def read(self, line, at):
        """Reads a line that is blank or begins with `#`."""
        words = WORD.findall(line)
        self.has_rule |= bool(XLIFE.match(line))
        for word in words[1:] if words[:1] == [b"#CXRLE"] else ():
            if word.startswith(b"Pos="):
                said = CORNER.fullmatch(word)
                if not said:
                    raise Fault("syntax", at)
                self.corner = tuple(number(said[digits]) * (-1 if said[digits - 1] else 1) for digits in (2, 4))
            if word.startswith(b"Gen="):
                self.generation = number(word[4:])
                if self.generation is None:
                    raise Fault("syntax", at)
                if self.generation >= GENERATIONS:
                    raise Fault("gen too large", at)


def after_white(text, at):
    """The place after the white space at a place of what follows the header."""
    while at < len(text):
        if text[at] in b" \t\r\n":
            at += 1
        elif text[at] == ord("#") and not text[text.rfind(b"\n", 0, at) + 1:at].strip(BLANKS):
            at = text.find(b"\n", at) if b"\n" in text[at:] else len(text)
        else:
            break
    return at


def tag_at(text, at):
    """What a tag says, a state or the byte `$` or `!`, and where it ends."""
    tag, letter = text[at:at + 1], text[at + 1:at + 2]
    if not tag:
        raise Fault("no end")
    if tag in b"$!":
        return tag, at + 1
    if tag in b".bo":
        return int(tag == b"o"), at + 1
    if b"A" <= tag <= b"X":
        return tag[0] - 64, at + 1
    if not b"p" <= tag <= b"y":
        raise Fault("syntax")
    if not letter:
        raise Fault("no end")
    if not b"A" <= letter <= b"X":
        raise Fault("syntax")
    state = (tag[0] - ord("p") + 1) * 24 + letter[0] - 64
    if state > 255:
        raise Fault("bad state")
    return state, at + 2


def items_of(text, line, last):
    """The items, each a count and what its tag says, of the bytes from the end of the header's line on. `last` is the number of the last line."""
    found, at = [], after_white(text, 0)
    while at < len(text):
        begin, digits = at, DIGITS.match(text, at).group()
        count = number(digits) if digits else 1
        try:
            if count == 0:
                raise Fault("syntax")
            tag, at = tag_at(text, after_white(text, at + len(digits)) if digits else at)
            if tag == b"!" and digits:
                raise Fault("syntax")
        except Fault as why:
            raise Fault(why.kind, line + text.count(b"\n", 0, begin)) from why
        if tag == b"!":
            return found
        found.append((count, tag))
        at = after_white(text, at)
    raise Fault("no end", last)


def runs_of(items, corner):
    """The runs of live cells that the items draw."""
    (x, y), runs = corner, []
    for count, tag in items:
        if tag == b"$":
            x, y = corner[0], y + count
        else:
            runs += [(x, y, count, tag)] * bool(tag)
            x += count
    is_near = all(-EDGE <= it < EDGE for it in corner) and all(count <= MOST_COUNT for count, _ in items)
    if not is_near or any(not (-EDGE <= x <= EDGE - count and -EDGE <= y < EDGE) for x, y, count, _ in runs):
        raise Fault("range")
    if sum(count for _, _, count, _ in runs) > MOST_CELLS:
        raise Fault("too many cells")
    return runs


def read(text):
    """The picture of a text, or its fault is raised."""
    lines, front = lines_of(text), Front()
    for at, line in enumerate(lines, 1):
        if line.strip(BLANKS) and not line.strip(BLANKS).startswith(b"#"):
            break
        front.read(line, at)
    else:
        raise Fault("header", max(1, len(lines)))
    header = HEADER.fullmatch(line)
    if not header:
        raise Fault("header", at)
    if not header[1] and front.has_rule:
        raise Fault("xlife rule", at)
    parts = text.split(b"\n", at)
    items = items_of(b"\n" + parts[at] if len(parts) > at else b"", at, len(lines))
    return Picture(runs_of(items, front.corner), header[1] or b"B3/S23", front.generation)


def rising(digits):
    """The digits rising and each once."""
    return "".join(sorted({*digits.decode()}))


def rule_of(text):
    """The printed form and the number of states of the rule that a text spells, or its fault is raised."""
    if b":" in text:
        raise Fault("bounded")
    for spelling in SPELLINGS:
        said = spelling.fullmatch(text)
        suffix = said and said["suffix"].decode().upper()
        if said and all(it <= HIGHEST_DIGIT[suffix] for it in (said["birth"] + said["survival"]).decode()):
            birth = rising(said["birth"])
            if "0" in birth:
                raise Fault("wakes")
            return f"B{birth}/S{rising(said['survival'])}{suffix}", 2
    said = GENERATIONS_RULE.fullmatch(text)
    if not said or not 2 <= number(said[3]) <= 256:
        raise Fault("unknown")
    if b"0" in said[2]:
        raise Fault("wakes")
    return f"{rising(said[1])}/{rising(said[2])}/{number(said[3])}", number(said[3])


@dataclass
class PatternFile:
    """What a pattern file comes to without a rule file: what it holds, or the cause of its refusal with the line that is reported, if there is one."""

    content: bytes
    cause: str = ""
    line: int | None = None
    held: Picture | macrocell.Pattern | None = None
    rule: str = ""
    states: int = 0

    def __post_init__(self):
        self.is_macrocell = self.content.startswith(b"[M2]")
        try:
            self.held = macrocell.read(self.content) if self.is_macrocell else read(self.content)
        except (Fault, macrocell.Fault) as why:
            self.line = macrocell.faulty_line(self.content) if self.is_macrocell else why.line
            self.cause = f"bad pattern: {'macrocell' if self.is_macrocell else 'rle'} {why.kind}"
            return
        try:
            self.rule, self.states = rule_of(self.held.rule.encode("latin-1") if self.is_macrocell else self.held.rule)
        except Fault as why:
            self.cause = f"bad rule: {why.kind}"
            return
        if self.drawn().highest_state() >= self.states:
            self.cause = "state too large"

    def drawn(self):
        """What holds the cells."""
        return self.held.tree if self.is_macrocell else self.held

    def population(self):
        """The number of live cells, of a file that reads."""
        return self.drawn().population() if self.held else 0

    def pattern(self):
        """What the file holds as a tree, with the printed form of its rule."""
        tree = self.held.tree if self.is_macrocell else macrocell.tree_of(self.held.cells())
        return macrocell.Pattern(tree, self.rule, self.held.generation)

    def told(self):
        """What an explained run tells of the cause after the file's path: the line of its fault, or the rule text that isn't known."""
        if self.cause.startswith("bad rule"):
            return b": rule " + escaped(self.rule_text())
        return b", line %d" % self.line if self.line else b""

    def rule_text(self):
        """The rule text that isn't known."""
        return self.held.rule.encode("latin-1") if self.is_macrocell else self.held.rule

    def helps(self, path):
        """What an explained run tells to help, of the file at this path."""
        return remedies.line(self.cause, path, self.content, self.rule_text() if self.cause.startswith("bad rule") else b"")
