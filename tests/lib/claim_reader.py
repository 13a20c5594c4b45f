"""Claim texts read as docs/CLAIMS.md says, and the verdicts on their claims, apart from the program. Patterns are small ones of B/S rules without
suffix, which return, moved or not, or die in few generations: so each claim about them can be judged for any number of generations."""
import re
from dataclasses import dataclass

from lib.macrocell import EDGE, number
from lib.program import escaped
from lib.rle_reader import Fault, WORD, PatternFile, lines_of
from lib.steps import next_live

MOST_PERIOD = 4294967295

# How each line goes on after its keyword: n a name that is loaded, N one that becomes so, p a path, # a number, - one that may have a `-`, s the
# word `shift`.
FIRST_FORMS = {
    (b"rule", 2): "p", (b"load", 3): "Np", (b"still", 2): "n", (b"oscillator", 3): "n#", (b"spaceship", 5): "n#--", (b"becomes", 4): "n#n",
}
FORMS = {1: FIRST_FORMS, 2: {**FIRST_FORMS, (b"becomes", 7): "n#ns--", (b"dies", 3): "n#"}}

# The limits of a claim's number.
LIMITS = {b"oscillator": (2, MOST_PERIOD), b"spaceship": (1, MOST_PERIOD), b"becomes": (0, EDGE), b"dies": (1, EDGE)}

SPELLED = {"#": re.compile(rb"\d+"), "-": re.compile(rb"-?\d+"), "s": re.compile(rb"shift")}

NOTE = re.compile(rb" at (-?\d+),(-?\d+): (\d+) after (\d+) generations?, claimed (\d+)")


@dataclass(frozen=True)
class Claim:
    """A claim: its line, its kind, the names and paths of its patterns, its number, and its vector."""

    line: int
    kind: bytes
    patterns: tuple
    number: int = 1
    vector: tuple = (0, 0)


class Reader:
    """The claims, names and paths of rule files of the lines read so far."""

    def __init__(self):
        self.version, self.is_begun, self.rules, self.paths, self.claims = 1, False, [], {}, []

    def read(self, at, words):
        """Reads a line that isn't skipped."""
        begun, self.is_begun = self.is_begun, True
        if words == [b"claims", b"2"] and not begun:
            self.version = 2
            return
        form = FORMS[self.version].get((words[0], len(words)))
        said = [*zip(form or "", words[1:])]
        if form is None or any(it in SPELLED and not SPELLED[it].fullmatch(word) for it, word in said):
            raise Fault("syntax", at)
        numbers = [number(word) for it, word in said if it == "#"]
        vector = tuple(number(word.lstrip(b"-")) * (-1 if word.startswith(b"-") else 1) for it, word in said if it == "-")
        least, most = LIMITS.get(words[0], (0, 0))
        if any(not least <= it <= most for it in numbers) or any(abs(it) > EDGE for it in vector) or (words[0] == b"spaceship" and not any(vector)):
            raise Fault("number", at)
        names = [word for it, word in said if it == "n"]
        if any(it not in self.paths for it in names):
            raise Fault("unknown name", at)
        if words[0] == b"load" and words[1] in self.paths:
            raise Fault("name taken", at)
        if words[0] == b"load":
            self.paths[words[1]] = words[2]
        elif words[0] == b"rule":
            self.rules.append(words[1])
        else:
            self.claims.append(Claim(at, words[0], tuple((it, self.paths[it]) for it in names), *(numbers or [1]), vector or (0, 0)))


def read(text):
    """What a claim text says, or its fault is raised."""
    reader = Reader()
    for at, line in enumerate(lines_of(text), 1):
        words = WORD.findall(line)
        if words and not words[0].startswith(b"#"):
            reader.read(at, words)
    return reader


def moved(cells, vector):
    """Cells, moved."""
    return frozenset((x + vector[0], y + vector[1]) for x, y in cells)


def vector_between(cells, others):
    """The vector by which the first cells are to be moved to be the others; None where there is none."""
    if not cells or not others:
        return None if cells or others else (0, 0)
    vector = tuple(min(it[at] for it in others) - min(it[at] for it in cells) for at in (0, 1))
    return vector if moved(cells, vector) == others else None


class Course:
    """The planes of a pattern, one after another, until one is an earlier one, moved."""

    def __init__(self, file):
        birth, survival = ({int(it) for it in digits} for digits in re.fullmatch(r"B(\d*)/S(\d*)", file.rule).groups())
        self.planes = [frozenset(file.drawn().cells())]
        while True:
            cells = next_live(self.planes[-1], birth, survival)
            vectors = [vector_between(it, cells) for it in self.planes]
            if any(it is not None for it in vectors):
                self.first = next(at for at, it in enumerate(vectors) if it is not None)
                self.period, self.vector = len(self.planes) - self.first, vectors[self.first]
                return
            self.planes.append(cells)

    def after(self, generations):
        """The live cells after these generations."""
        if generations < len(self.planes):
            return self.planes[generations]
        rounds, rest = divmod(generations - self.first, self.period)
        return moved(self.planes[self.first + rest], [rounds * it for it in self.vector])

    def earlier(self, generations):
        """The earlier generations of which the first return or death is one, with their planes."""
        return [(at, self.after(at)) for at in range(1, min(generations, len(self.planes) + 1))]


@dataclass(frozen=True)
class Verdict:
    """What is printed of a claim, and the note of an explained run: its bytes, or the planes found and claimed, of which it names a cell; and its last line, which helps."""

    claim: Claim
    text: str
    note: bytes = b""
    planes: tuple = ()
    helps: bytes = b""

    def complaint(self, lines):
        """Takes the lines of this verdict from the first of what was printed, and tells what is wrong with them."""
        got = [lines.pop(0) if lines else b"(nothing)"]
        if got[0] != b"line %d: %s" % (self.claim.line, self.text.encode()):
            return f"line {self.claim.line} has to come to {self.text}, and {got[0]!r} was printed"
        if self.note or self.planes:
            got.append(lines.pop(0) if lines else b"(nothing)")
        if self.helps and (not lines or lines.pop(0) + b"\n" != self.helps):
            return f"{got[0]!r} lacks {self.helps!r}"
        is_good = len(got) == 1 or self.is_noted(got[1])
        return None if is_good else f"{got[0]!r} has another note: {got[1]!r}, wanted {self.note!r}"

    def is_noted(self, note):
        """Whether a note is the one that is wanted."""
        begin = b"  " + self.claim.patterns[0][0]
        if not self.planes:
            return note == b"  " + self.note
        said = NOTE.fullmatch(note[len(begin):]) if note.startswith(begin) else None
        if not said or note.endswith(b" generations, claimed %s" % said[5]) != (self.claim.number != 1):
            return False
        x, y, found, generations, claimed = map(int, said.groups())
        cells = tuple(int((x, y) in it) for it in self.planes)
        return generations == self.claim.number and cells == (found, claimed) and found != claimed


class Judge:
    """Judges claims. `content_of` gives the bytes of the file at a path, `absence_of` why there are none, `rule_file_fault` a rule file's fault and its line,
    or None."""

    def __init__(self, content_of, absence_of, rule_file_fault):
        self.content_of, self.absence_of, self.rule_file_fault = content_of, absence_of, rule_file_fault
        self.files, self.courses = {}, {}

    def file(self, path):
        """What the pattern file at a path comes to."""
        content = self.content_of(path)
        if content not in self.files:
            self.files[content] = PatternFile(content)
        return self.files[content]

    def course(self, path):
        """The course of the pattern at a path."""
        file = self.file(path)
        if file.content not in self.courses:
            self.courses[file.content] = Course(file)
        return self.courses[file.content]

    def refusal(self, claim, rules):
        """The cause of a claim's refusal, its note and what helps; None where it isn't refused."""
        for name, path in claim.patterns:
            if self.content_of(path) is None:
                return "no file", b"%s: %s: %s" % (escaped(name), escaped(path), self.absence_of(path)), b""
        for path in rules:
            if self.content_of(path) is None:
                return "no file", b"rule file: %s: %s" % (escaped(path), self.absence_of(path)), b""
        for path in rules:
            fault = self.rule_file_fault(self.content_of(path))
            if fault:
                return f"bad table: {fault[0]}", b"rule file: %s, line %d" % (escaped(path), fault[1]), b""
        for kind in ("bad pattern", "bad rule", "state"):
            for name, path in claim.patterns:
                file = self.file(path)
                if file.cause.startswith(kind):
                    return file.cause, escaped(name) + b": " + escaped(path) + file.told(), file.helps(path)
        return ("mixed rules", b"", b"") if len({self.file(path).rule for _, path in claim.patterns}) > 1 else None

    def verdict(self, claim, rules):
        """The verdict on a claim."""
        refusal = self.refusal(claim, rules)
        if refusal:
            return Verdict(claim, f"refused, {refusal[0]}", refusal[1], helps=refusal[2])
        course, start = self.course(claim.patterns[0][1]), self.course(claim.patterns[0][1]).after(0)
        if claim.kind != b"becomes" and not start:
            return Verdict(claim, "no, empty")
        wanted = frozenset() if claim.kind == b"dies" else moved(self.course(claim.patterns[-1][1]).after(0), claim.vector)
        found = course.after(claim.number)
        if found != wanted:
            return Verdict(claim, f"no, cells differ after {claim.number}", planes=(found, wanted))
        for at, plane in course.earlier(claim.number):
            vector = vector_between(start, plane)
            if claim.kind == b"dies" and not plane:
                return Verdict(claim, f"no, empty after {at}")
            if vector == (0, 0) and claim.kind == b"oscillator" or vector is not None and claim.kind == b"spaceship":
                return Verdict(claim, f"no, the same after {at}, shifted by {vector[0]},{vector[1]}")
        return Verdict(claim, "yes")
