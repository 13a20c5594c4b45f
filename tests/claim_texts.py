#!/usr/bin/env -S python3 -B
"""Claim texts: what one may say, and the first fault of one that says something else.

- Small texts of the first version, faulty and good.
- Claims of the second version, of patterns that become another one moved and of patterns that die: where they may stand, what each comes to, and the notes of
  an explained run. What random planes and large ones come to is known by naive steps.
- Several claim texts in one run. Each line has its text's path before it, and the status is the greatest. A text that can't be read or has a fault is reported,
  and the others are judged still. Each text's memory is given back before the next is read.
"""
import itertools
import os
import random
import resource
import subprocess
import tempfile

from lib import steps
from lib.claim_text import ClaimText, outcome, printed, status_of
from lib.macrocell import EDGE
from lib.macrocell_texts import FULL_SQUARE
from lib.program import MAX_FILE, Folder, Outcome, Tally, escaped, fault, lines_outcome, run
from lib.small_files import HEADER
from lib.small_planes import CORNERS, RETURNING, Text, judge, moved, one_changed, random_cells, random_rule, returning, stepped

BLOCK = "x = 2, y = 2, rule = B3/S23\n2o$2o!\n"

# Claim texts with a fault, and the fault.
FAULTS = (
    ("still q\n", "1: unknown name"),
    ("still b\nload b block.rle\n", "1: unknown name"),
    ("load a p\nbecomes a 1 b", "2: unknown name"),
    ("load a p\nload a q\n", "2: name taken"),
    ("gun a\n", "1: syntax"),
    ("load a\n", "1: syntax"),
    ("load a b c\n", "1: syntax"),
    ("LOAD a p\n", "1: syntax"),
    ("load# a p\n", "1: syntax"),
    ("load a p\nrule", "2: syntax"),
    ("rule r\nrule r q\n", "2: syntax"),
    ("rules r\n", "1: syntax"),
    ("load a p\nstill a\nrule r\nstill r\n", "4: unknown name"),
    ("load a p\nstill a a\n", "2: syntax"),
    ("load a p\nstill\n", "2: syntax"),
    ("load a p\noscillator a", "2: syntax"),
    ("load a p\noscillator a x", "2: syntax"),
    ("load a p\noscillator a -2", "2: syntax"),
    ("load a p\nspaceship a 4 1", "2: syntax"),
    ("load a p\nspaceship a 4 +1 1", "2: syntax"),
    ("load a p\nspaceship a 4 1 --1", "2: syntax"),
    ("load a p\nspaceship a 4 1 -", "2: syntax"),
    ("load a p\nspaceship a 0 1 x", "2: syntax"),
    ("load a p\nbecomes a 1", "2: syntax"),
    ("load a p\nbecomes a a 1", "2: syntax"),
    ("load a p\nbecomes a 1 a a", "2: syntax"),
    ("load a p\noscillator a 1", "2: number"),
    ("load a p\noscillator a 0", "2: number"),
    ("load a p\noscillator a 4294967296", "2: number"),
    ("load a p\nspaceship a 4 0 0", "2: number"),
    ("load a p\nspaceship a 1 -0 0", "2: number"),
    ("load a p\nspaceship a 0 1 1", "2: number"),
    ("load a p\nspaceship a 1 0 1152921504606846977", "2: number"),
    ("load a p\nspaceship a 1 -1152921504606846977 0", "2: number"),
    ("load a p\nspaceship a 1 -9999999999999999999999999999999999999999 1", "2: number"),
    ("load a p\nbecomes a 1152921504606846977 a", "2: number"),
    ("load a p\nbecomes a 9999999999999999999999999999999999999999 a", "2: number"),
    # The number is reported, not the name.
    ("oscillator b 0", "1: number"),
)

# Claim texts without a fault, and their verdicts.
CLAIM_TEXTS = {
    "numbers at their limits": (
        f"load a lost.rle\noscillator a 4294967295\nbecomes a {EDGE} a\nspaceship a 1 -{EDGE} 0\nspaceship a 0004 -000 {EDGE}\n",
        [(at, "refused, no file") for at in (2, 3, 4, 5)],
    ),
    "rule files of no claim": ("rule lost.rule\nload a lost.rle\nrule lost.rle\n\n rule  lost.rule\r\n", []),
    "numbers with leading zeros": (
        "load a examples/glider.rle\nload b tests/files/lwss.rle\nspaceship a 0004 1 01\nspaceship b 4 -002 -000\nbecomes a 000 a\noscillator a 002\n",
        [(3, "yes"), (4, "yes"), (5, "yes"), (6, "no, cells differ after 2")],
    ),
    "two names of one path": (
        "load a examples/block.rle\nload b examples/blinker.rle\nload c examples/block.rle\nbecomes b 0 c\nbecomes a 0 c\nbecomes c 0 b\nbecomes b 2 b\n",
        [(4, "no, cells differ after 0"), (5, "yes"), (6, "no, cells differ after 0"), (7, "yes")],
    ),
    "lines that end with CR LF": (
        "# two patterns\r\n\r\n\tload a  tests/files/beehive.rle \r\n  #still a\r\nload b examples/blinker.rle\r\nstill b\r\n\r\nstill a",
        [(6, "no, cells differ after 1"), (8, "yes")],
    ),
    "a file that is not there": (
        "# patterns\nload b examples/block.rle\n\nload m lost.rle\nload c examples/block.rle\nstill b\nstill m\n still c\r\nstill b",
        [(6, "yes"), (7, "refused, no file"), (8, "yes"), (9, "yes")],
    ),
}

FILES = {
    "p": HEADER + "o!\n",
    "d": HEADER + "o$bo$2bo!\n",
    "e": HEADER + "!\n",
    "b": HEADER + "2o$2o!\n",
    "three": HEADER + "2o$o!\n",
    "far_three": f"#CXRLE Pos=3,{-EDGE}\n" + HEADER + "2o$o!\n",
    "g": HEADER + "bo$2bo$3o!\n",
    # more than 16777216 live cells
    "f": f"[M2]\n#R B3/S23\n{FULL_SQUARE}",
    "k": f"[M2]\n#R B3/S23\n#C the same\n{FULL_SQUARE}",
    # each cell stays, and none is born
    "stone": "x = 1, y = 1, rule = B/S012345678\no!\n",
    "hole": "x = 1, y = 1, rule = B/S012345678\n!\n",
}

# Claims, their verdicts, and the notes of an explained run, in which a path is in braces.
CLAIMS = (
    ("dies p 1", "yes", ""),
    ("dies p 2", "no, empty after 1", ""),
    ("dies d 2", "yes", ""),
    ("dies d 3", "no, empty after 2", ""),
    (f"dies d {EDGE}", "no, empty after 2", ""),
    ("dies e 1", "no, empty", ""),
    (f"dies e {EDGE}", "no, empty", ""),
    ("becomes g 4 g shift 1 1", "yes", ""),
    ("becomes g 8 g shift 2 2", "yes", ""),
    ("becomes g 0 g shift 0 0", "yes", ""),
    ("becomes g 0 g shift -0 00", "yes", ""),
    (f"becomes g {EDGE} g shift {EDGE // 4} {EDGE // 4}", "yes", ""),
    ("becomes e 7 e shift 5 -9", "yes", ""),
    (f"becomes e 0 e shift {EDGE} {-EDGE}", "yes", ""),
    # the cells of the second pattern are counted where they are moved, and the first one's never
    ("becomes f 0 f shift 0 0", "refused, too many cells", "f: {f}"),
    ("becomes f 0 f", "yes", ""),
    ("becomes f 0 k shift 0 0", "refused, too many cells", "k: {k}"),
    ("becomes k 0 f shift 1 0", "refused, too many cells", "f: {f}"),
    ("becomes b 0 f shift 0 0", "refused, too many cells", "f: {f}"),
    ("becomes b 3 f shift 7 7", "refused, too many cells", "f: {f}"),
    ("becomes b 0 b shift 0 0", "yes", ""),
    ("becomes three 1 b shift 0 0", "yes", ""),
    ("becomes three 0 b shift 0 0", "no, cells differ after 0", "three at 1,1: 0 after 0 generations, claimed 1"),
    ("becomes b 9 three shift 0 0", "no, cells differ after 9", "b at 1,1: 1 after 9 generations, claimed 0"),
    (f"becomes far_three 0 b shift 3 {-EDGE}", "no, cells differ after 0", f"far_three at 4,{1 - EDGE}: 0 after 0 generations, claimed 1"),
    (f"becomes far_three 1 b shift 3 {-EDGE}", "yes", ""),
    (f"becomes e 1 far_three shift 0 {-EDGE}", "no, cells differ after 1", None),
    ("dies stone 7", "no, cells differ after 7", "stone at 0,0: 1 after 7 generations, claimed 0"),
    ("becomes hole 5 stone shift -3 8", "no, cells differ after 5", "hole at -3,8: 0 after 5 generations, claimed 1"),
    ("becomes stone 5 hole shift -3 8", "no, cells differ after 5", "stone at 0,0: 1 after 5 generations, claimed 0"),
    ("becomes stone 5 p shift 0 0", "refused, mixed rules", ""),
)

# Claims whose note is of one of several cells, and how many of these.
OPEN = (("dies b 5", "no, cells differ after 5"), ("dies d 1", "no, cells differ after 1"), ("becomes g 4 g shift 0 0", "no, cells differ after 4"),
        ("becomes g 4 g shift -1 -1", "no, cells differ after 4"), ("becomes g 4 g shift 1 0", "no, cells differ after 4"),
        (f"becomes g {EDGE} g shift {EDGE} {EDGE}", f"no, cells differ after {EDGE}"), ("becomes f 0 b shift 0 0", "no, cells differ after 0"))

# Texts with a fault, and what is said of it.
SECOND_FAULTS = (
    ("claims 2\nload p P\ndies p 0\n", "claims line 3: number"),
    (f"claims 2\nload p P\ndies p {EDGE + 1}\n", "claims line 3: number"),
    (f"claims 2\nload p P\ndies p {'9' * 400}\n", "claims line 3: number"),
    (f"claims 2\nload p P\nbecomes p 4 p shift {EDGE + 1} 0\n", "claims line 3: number"),
    (f"claims 2\nload p P\nbecomes p 4 p shift 0 {-EDGE - 1}\n", "claims line 3: number"),
    (f"claims 2\nload p P\nbecomes p 4 p shift 0 {'9' * 400}\n", "claims line 3: number"),
    (f"claims 2\nload p P\nbecomes p {EDGE + 1} p shift 0 0\n", "claims line 3: number"),
    ("claims 2\ndies p 0\n", "claims line 2: number"),
    ("claims 2\ndies p 1\n", "claims line 2: unknown name"),
    ("claims 2\nload p P\nbecomes p 0 q shift 0 0\n", "claims line 3: unknown name"),
    ("claims 2\nload p P\nbecomes q 0 p shift 0 0\n", "claims line 3: unknown name"),
    ("claims 2\nload p P\nbecomes p 4 p shift 1\n", "claims line 3: syntax"),
    ("claims 2\nload p P\nbecomes p 4 p shift 1 1 1\n", "claims line 3: syntax"),
    ("claims 2\nload p P\nbecomes p 4 p shift\n", "claims line 3: syntax"),
    ("claims 2\nload p P\nbecomes p 4 p moved 1 1\n", "claims line 3: syntax"),
    ("claims 2\nload p P\nbecomes p 4 p Shift 1 1\n", "claims line 3: syntax"),
    ("claims 2\nload p P\nbecomes p 4 p 1 1\n", "claims line 3: syntax"),
    ("claims 2\nload p P\nbecomes p 4 p shift +1 1\n", "claims line 3: syntax"),
    ("claims 2\nload p P\nbecomes p 4 p shift 1 x\n", "claims line 3: syntax"),
    ("claims 2\nload p P\ndies p\n", "claims line 3: syntax"),
    ("claims 2\nload p P\ndies p 1 1\n", "claims line 3: syntax"),
    ("claims 2\nload p P\ndies p -1\n", "claims line 3: syntax"),
    # a second `claims 2`, a later one, and another word
    ("claims 2\nclaims 2\n", "claims line 2: syntax"),
    ("claims 2\nload p P\nclaims 2\n", "claims line 3: syntax"),
    ("load p P\nclaims 2\n", "claims line 2: syntax"),
    ("rule R\nclaims 2\n", "claims line 2: syntax"),
    ("claims 3\n", "claims line 1: syntax"), ("claims 1\n", "claims line 1: syntax"), ("claims 02\n", "claims line 1: syntax"),
    ("claims\n", "claims line 1: syntax"),
    ("claims 2 2\n", "claims line 1: syntax"), ("Claims 2\n", "claims line 1: syntax"), ("#\n\nclaims 3\n", "claims line 3: syntax"),
    # without `claims 2` both forms are unknown, whatever their numbers and names
    ("load p P\ndies p 1\n", "claims line 2: syntax"), ("load p P\ndies p 0\n", "claims line 2: syntax"), ("dies p 1\n", "claims line 1: syntax"),
    ("load p P\nbecomes p 4 p shift 1 1\n", "claims line 2: syntax"), (f"load p P\nbecomes p 4 p shift {EDGE + 1} 1\n", "claims line 2: syntax"),
    ("load p P\nbecomes q 4 p shift 1 1\n", "claims line 2: syntax"),
)

# What may stand before `claims 2`, and how it may be spelled.
BEGINNINGS = ("claims 2\n", "# claims\n\n \t\n#claims 3\nclaims 2\n", "  claims\t2  \r\n", "\nclaims 2\n")

# A claim about a row of a million cells: the claim text and the pattern's file have 20 million bytes each. A run that judges it takes less than 160
# million bytes of address space; six runs would take more than the room that is given, if each kept one of the two files.
ROW, SIZE, ROOM, TIMES = 1_000_000, 20_000_000, 320_000_000, 6


def try_claim_texts(tally, files):
    """Claim texts with a fault and without one."""
    for text, told in FAULTS:
        tally.expect(f"the fault {told}, of {text!r}", run(["verify", files.path("text.claims", text)]), fault(f"claims line {told}"))
    for what, (text, verdicts) in CLAIM_TEXTS.items():
        tally.expect(what, run(["verify", files.path("text.claims", text)]), lines_outcome(verdicts))


def load_files(text):
    """Loads the files, and gives their paths."""
    return {name: text.load(name, content).decode() for name, content in FILES.items()}


def try_second_claims(tally, files):
    """Each claim, explained."""
    text = Text(files)
    text.lines.append(b"claims 2")
    paths = load_files(text)
    for claim, verdict, note in CLAIMS:
        if note is not None:
            text.claim(claim, verdict, note.format(**paths))
    tally.expect("claims with notes", run(["verify", "--explain", text.write()]), outcome(text.answers, True))
    text = Text(files)
    text.lines.append(b"claims 2")
    load_files(text)
    for claim, verdict in (*((claim, verdict) for claim, verdict, _ in CLAIMS), *OPEN):
        text.claim(claim, verdict)
    judge(tally, "claims", text)


def try_beginnings(tally, files):
    """What stands before `claims 2`."""
    path = files.path("one", FILES["p"])
    for at, beginning in enumerate(BEGINNINGS):
        written = files.path("text.claims", f"{beginning}load p {path}\ndies p 1\n")
        line = beginning.count("\n") + 2
        tally.expect(f"beginning {at}", run(["verify", written]), Outcome(f"line {line}: yes\n".encode(), b"", 0))
    for text in BEGINNINGS:
        tally.expect(f"{text!r} alone", run(["verify", files.path("text.claims", text)]), Outcome(b"", b"", 0))


def try_second_faults(tally, files):
    """Faulty texts."""
    for text, complaint in SECOND_FAULTS:
        tally.expect(repr(text[:80]), run(["verify", files.path("text.claims", text)]), fault(complaint))


def claim_shift(chance, text, cells, rule, count, later):
    """Claims that cells become others that lie elsewhere, and that they become others but for a cell, or by another vector."""
    number, at, vector = len(text.lines), (chance.choice(CORNERS), chance.choice(CORNERS)), (chance.choice(CORNERS), chance.choice(CORNERS))
    there = at[0] - vector[0], at[1] - vector[1]
    if any(not -EDGE <= there[side] + place[side] < EDGE for place in [*later, (0, 0)] for side in (0, 1)):
        vector = at = there = (0, 0)
    for name, it in ((f"a{number}", moved(cells, at)), (f"b{number}", moved(later, there)),
                     (f"c{number}", moved(one_changed(chance, later, rule.states), there))):
        text.plane(name, it, rule)
    beside = vector[0] + chance.choice((-1, 1)), vector[1] + chance.randint(-1, 1)
    text.claim(f"becomes a{number} {count} b{number} shift {vector[0]} {vector[1]}", "yes")
    text.claim(f"becomes a{number} {count} c{number} shift {vector[0]} {vector[1]}", f"no, cells differ after {count}")
    if later:
        text.claim(f"becomes a{number} {count} b{number} shift {beside[0]} {beside[1]}", f"no, cells differ after {count}")


def try_shifts(tally, files):
    """Random planes under random rules, and patterns that come back, moved."""
    chance = random.Random(62)
    text = Text(files)
    text.lines.append(b"claims 2")
    for _ in range(60):
        rule = random_rule(chance)
        cells = random_cells(chance, chance.randint(1, 12), chance.randint(1, 12), 2)
        later, count = stepped(cells, rule, chance.choice((0, 1, 2, 3, 5, 8, 16, 31)))
        claim_shift(chance, text, cells, rule, count, later)
    judge(tally, "random planes moved", text)
    text = Text(files)
    text.lines.append(b"claims 2")
    for name, body in RETURNING:
        it = returning(name, body)
        count = chance.randrange(1 << chance.randint(1, 50))
        claim_shift(chance, text, it.planes[0], it.rule, count, it.after(count))
    judge(tally, "patterns that come back, moved", text)


def life_span(cells, rule, most):
    """After how many generations no cell is live, if that is so after the most, and the plane doesn't grow."""
    for count in range(most):
        if not cells:
            return count
        if len(cells) > 300:
            return None
        cells = steps.step(cells, rule)
    return None


def try_deaths(tally, files):
    """Random patterns that die, anywhere."""
    chance = random.Random(63)
    text, spans = Text(files), set()
    text.lines.append(b"claims 2")
    while len(text.answers) < 600:
        rule = random_rule(chance)
        cells = random_cells(chance, chance.randint(1, 9), chance.randint(1, 9), 2)
        span = life_span(cells, rule, 120)
        if not span or (span < 3 and chance.random() < 0.9):
            continue
        spans.add(span)
        name = f"a{len(text.lines)}"
        text.plane(name, moved(cells, (chance.choice(CORNERS), chance.choice(CORNERS))), rule)
        text.claim(f"dies {name} {span}", "yes")
        for later in (span + 1, 2 * span + chance.randint(1, 9), chance.randrange(span + 1, EDGE)):
            text.claim(f"dies {name} {later}", f"no, empty after {span}")
        for earlier in {span - 1, span // 2, 1} - {0, span}:
            text.claim(f"dies {name} {earlier}", f"no, cells differ after {earlier}")
    judge(tally, f"{len(spans)} life spans up to {max(spans)}", text)


def try_large(tally, files):
    """A fuse of 100000 cells, which burns at both ends, and a soup as large, moved."""
    text = Text(files)
    text.lines.append(b"claims 2")
    text.load("fuse", HEADER + "$".join(f"{at}bo" if at else "o" for at in range(100000)) + "!\n")
    for count, verdict in ((50000, "yes"), (49999, "no, cells differ after 49999"), (50001, "no, empty after 50000"), (EDGE, "no, empty after 50000")):
        text.claim(f"dies fuse {count}", verdict)
    chance = random.Random(64)
    rule = steps.rule_of("B3/S23")
    soup = {(x, y): 1 for x in range(520) for y in range(520) if chance.random() < 0.375}
    text.plane("soup", soup, rule)
    text.plane("later", moved(steps.step(soup, rule), (-(1 << 40), 77777)), rule)
    text.claim(f"becomes soup 1 later shift {1 << 40} -77777", "yes")
    text.claim(f"becomes soup 1 later shift {1 << 40} -77776", "no, cells differ after 1")
    judge(tally, "large planes", text)


class Texts:
    """Claim texts in a folder, by name, and what each has to come to: its answers, or what is complained of."""

    def __init__(self, folder):
        self.files, self.answers, self.complaints = Folder(folder), {}, {}
        self.answered("yes", {"block": BLOCK}, [("still block", "yes", "")])
        self.answered("more", {"block": BLOCK}, [("becomes block 7 block", "yes", ""), ("still block", "yes", "")])
        self.answered("no", {"dot": "x = 1, y = 1\no!"}, [("still dot", "no, cells differ after 1", "dot at 0,0: 0 after 1 generation, claimed 1")])
        self.answered("empty", {"none": "x = 0, y = 0\n!"}, [("still none", "no, empty", "")])
        self.answered("refused", {"dot": "x = 1, y = 1\n\nz!"}, [("still dot", "refused, bad pattern: rle syntax", "dot: {dot}, line 3")])
        self.answered("mixed", {"dot": "x = 1, y = 1\no!", "block": BLOCK, "high": "x = 1, y = 1, rule = B36/S23\no!"}, [
            ("oscillator dot 2", "no, cells differ after 2", "dot at 0,0: 0 after 2 generations, claimed 1"), ("still block", "yes", ""),
            ("becomes dot 1 high", "refused, mixed rules", "")])
        self.answered("no claims", {"block": BLOCK}, [])
        self.faulty("syntax", "load a b\n\ngun a\n", "claims line 3: syntax")
        self.faulty("unknown", "still a\n", "claims line 1: unknown name")
        self.faulty("missing", None, "cannot read {path}")
        self.faulty("long", b"\n" * (MAX_FILE + 1), "too long {path}")

    def answered(self, name, loads, claims):
        """A text without a fault, and its answers."""
        text = ClaimText(Folder(tempfile.mkdtemp(dir=self.files.folder)))
        paths = {word: text.load(word, content).decode() for word, content in loads.items()}
        for claim, verdict, note in claims:
            text.claim(claim, verdict, note.format(**paths))
        os.rename(text.write(), self.path(name))
        self.answers[name] = text.answers

    def faulty(self, name, content, told):
        """A text with a fault, none where its content is missing."""
        if content is not None:
            self.files.path(f"{name}.claims", content)
        self.complaints[name] = told.format(path=self.path(name))

    def path(self, name):
        """The path of a text."""
        return self.files.path(f"{name}.claims")

    def wanted(self, names, explained=False):
        """What a run over several texts comes to."""
        lines = [printed(self.answers[it], explained, f"{self.path(it)}: ".encode()) for it in names if it in self.answers]
        complaints = [f"cafile: {self.path(it)}: {self.complaints[it]}\n".encode() for it in names if it in self.complaints]
        status = max(2 if it in self.complaints else status_of(self.answers[it]) for it in names)
        return Outcome(b"".join(lines), b"".join(complaints), status)

    def run(self, names, *more, **how):
        """The outcome of a run over these texts."""
        return run(["verify", *more, *(self.path(it) for it in names)], **how)


def try_orders(tally, texts):
    """Each two texts, and some of three and more: their lines, their faults and the status."""
    names = [*texts.answers, *texts.complaints]
    groups = [*itertools.product(names, names), ("yes", "syntax", "no"), ("syntax", "yes", "missing", "refused", "yes"), ("no", "yes", "no"),
              ("long", "mixed", "unknown", "more"), tuple(names), tuple(reversed(names)), ("yes",) * 40]
    for explained in (False, True):
        words = ["--explain"] * explained
        complaints = []
        for group in groups:
            got, wanted = texts.run(group, *words), texts.wanted(group, explained)
            if got != wanted:
                complaints.append(f"{', '.join(group)}: wanted {wanted}, got {got}")
        tally.tell(f"{len(groups)} runs over several texts, {'' if explained else 'not '}explained", complaints)


def try_one_stream(tally, texts):
    """Where both streams are one, lines and faults come in the order of the texts."""
    group = ("yes", "syntax", "no", "missing", "mixed", "long", "more", "unknown")
    wanted = texts.wanted(group)
    lines = b"".join(texts.wanted([it]).printed + texts.wanted([it]).complaint for it in group)
    tally.expect("both streams in one", texts.run(group, stderr=subprocess.STDOUT), Outcome(lines, b"", wanted.status))


def try_statuses(tally, texts):
    """The greatest status, whatever the order."""
    statuses = {"yes": 0, "no claims": 0, "no": 1, "empty": 1, "refused": 2, "mixed": 2, "syntax": 2, "missing": 2}
    complaints = []
    for group in itertools.permutations(statuses, 3):
        got, wanted = texts.run(group).status, max(statuses[it] for it in group)
        if got != wanted:
            complaints.append(f"{', '.join(group)}: wanted {wanted}, got {got}")
    tally.tell("the greatest status of three texts", complaints)


def try_one(tally, texts):
    """With one text no path is printed but that of a file that can't be read."""
    for name, answers in texts.answers.items():
        for explained in (False, True):
            wanted = Outcome(printed(answers, explained), b"", status_of(answers))
            tally.expect(f"one text, {name}{', explained' * explained}", texts.run([name], *["--explain"] * explained), wanted)
    for name, told in texts.complaints.items():
        tally.expect(f"one text, {name}", texts.run([name]), fault(told))


def try_limits(tally, texts):
    """The limits that are set are those of each claim of each text."""
    group = ("yes", "more", "yes")
    lines = [f"{texts.path(it)}: line {answer.line}: refused, work\n" for it in group for answer in texts.answers[it]]
    tally.expect("no work in several texts", texts.run(group, "--work", "0"), Outcome("".join(lines).encode(), b"", 2))


def try_paths(tally, files):
    """The path is printed as it is given, however it is spelled; an LF in it is spelled out."""
    text = b"load a examples/block.rle\nstill a\n"
    for name in ("a b.claims", "a: b", "line 2: yes", "\u00e9\u4e16.claims", "n" * 200, "a\nb"):
        path = files.path(name, text)
        wanted = Outcome(b"%s: line 2: yes\nexamples/block.claims: line 2: yes\n" % escaped(path.encode()), b"", 0)
        tally.expect(f"a path, {name[:20]!r}", run(["verify", path, "examples/block.claims"]), wanted)
    wanted = Outcome(b"./examples/block.claims: line 2: yes\nexamples/../examples/block.claims: line 2: yes\n", b"", 0)
    tally.expect("a path in two ways", run(["verify", "./examples/block.claims", "examples/../examples/block.claims"]), wanted)
    got, wanted = run(["verify", "", "examples/block.claims"]), Outcome(b"examples/block.claims: line 2: yes\n", b"cafile: : cannot read \n", 2)
    tally.expect("an empty path", got, wanted)


def try_failed_writes(tally, texts):
    """A failed write ends the run; a complaint that can't be written doesn't."""
    with open("/dev/full", "wb") as full:
        told = f"cafile: {texts.path('syntax')}: {texts.complaints['syntax']}\n".encode()
        for group, complaint in ((("yes", "no"), b""), (("yes", "syntax"), b""), (("yes", "missing", "no"), b""), (("no claims", "yes", "syntax"), b""),
                                 (("syntax", "yes", "syntax"), told), (("mixed", "syntax"), b"")):
            tally.expect(f"a full standard output, {', '.join(group)}", texts.run(group, stdout=full), Outcome(b"", complaint + b"cafile: write\n", 2))
        tally.expect("a full standard output, and nothing to print", texts.run(("no claims", "syntax"), stdout=full), Outcome(b"", told, 2))
        for group in (("syntax", "yes"), ("yes", "missing", "no")):
            wanted = texts.wanted(group)
            tally.expect(f"a full standard error, {', '.join(group)}", texts.run(group, stderr=full), Outcome(wanted.printed, b"", 2))


def try_memory(tally, files):
    """Each text's memory is given back: many are judged under a limit under which few would fit together."""
    row = files.path("row.rle", f"x = {ROW}, y = 1, rule = B/S012345678\n{ROW}o!\n".ljust(SIZE))
    claims = files.path("row.claims", f"load row {row}\nstill row\n#".ljust(SIZE))
    wanted = Outcome(f"{claims}: line 2: yes\n".encode() * TIMES, b"", 0)
    got = run(["verify", *[claims] * TIMES], preexec_fn=lambda: resource.setrlimit(resource.RLIMIT_AS, (ROOM, ROOM)))
    tally.expect(f"{TIMES} large texts", got, wanted)


def main():
    tally = Tally()
    with tempfile.TemporaryDirectory() as folder:
        for it in (try_claim_texts, try_second_claims, try_beginnings, try_second_faults, try_shifts, try_deaths, try_large):
            it(tally, Folder(folder))
    with tempfile.TemporaryDirectory() as folder:
        texts = Texts(folder)
        for it in (try_one, try_orders, try_one_stream, try_statuses, try_failed_writes, try_limits):
            it(tally, texts)
        try_paths(tally, texts.files)
        try_memory(tally, texts.files)
    tally.finish()


if __name__ == "__main__":
    main()
