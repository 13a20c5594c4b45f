#!/usr/bin/env -S python3 -B
"""What small planes become, beside naive steps (tests/lib/steps.py), and under Generations rules computed by hand too.

The planes are random ones under random rules, Generations rules and tables, and patterns that come back, after any number of generations, anywhere on the
plane. Claims of `verify` ask for what they become. `show` and `convert` with `--after` tell it, from both formats and in both. `--after 0` changes nothing, and
each refusal comes at its edge. Where it is on the path, Golly's command line tells what planes become under Generations rules.
"""
import itertools
import random

from lib import brians_brain, golly, macrocell, rle, steps
from lib.claim_text import ClaimTexts, differs
from lib.gallery import found
from lib.macrocell import EDGE
from lib.macrocell_texts import FOURFOLD, FULL_LEAF, chain
from lib.parts import as_one_test, try_all
from lib.program import Runs, ample, fault, figures, run
from lib.random_tables import random_tables
from lib.rule_texts import DIE
from lib.small_files import COMMANDS, PATTERNS, SPREAD, with_file
from lib.small_planes import AGEING_RETURNING, CORNERS, RETURNING, Text, claim_returns, judge, moved, random_cells, random_rule, returning, stepped

# The most generations that a run may take, and the greatest generation of a file.
MOST, GREATEST = 1 << 60, (1 << 63) - 1

# A glider, which is moved by (1, 1) every four generations.
GLIDER = "bo$2bo$3o!"

# A rule under which each cell near a live one is live: a lone cell becomes a square that grows by a cell on each side.
SPREADING = "B12345678/S012345678"

# Generations rules of random planes: those of collectors, and others whose counts or states are few or many.
AGEING_RULES = (
    "23/3/8", "345/2/4", "/2/3", "23/3/2", "3322/33/0004", "0/2/5", "8/3/3", "45678/3/256", "012345678/1/5", "/2/256", "/2/255", "/234/2", "8//3", "//2",
    "//256",
    "012345678/12345678/2", "/12345678/3", "02/25/7", "345/3/6", "01234567/8/16", "2/13/21", "124567/378/4", "0/1/2", "345/2/03",
)


def try_claimed_planes(tally, files):
    """Random planes under random rules and tables, anywhere."""
    chance = random.Random(60)
    rules = [(random_rule(chance), None) for _ in range(60)]
    rules += [(table, it) for it, table in random_tables(chance, 2)]
    text = Text(files)
    for rule, made in rules:
        if made:
            text.rule(made.text)
        cells = made.cells if made else random_cells(chance, chance.randint(1, 12), chance.randint(1, 12), 2)
        later, count = stepped(cells, rule, chance.choice((1, 2, 3, 4, 5, 7, 8, 9, 15, 16, 17, 24, 31, 32, 33, 40)) if len(rule.ring) < 8 or not made else 5)
        at = chance.choice(CORNERS), chance.choice(CORNERS)
        text.becomes(chance, moved(cells, at), rule, count, moved(later, at))
    judge(tally, "random planes", text)


def try_claimed_returns(tally, files):
    """Patterns that come back."""
    for chance, patterns in ((random.Random(61), RETURNING), (random.Random(63), AGEING_RETURNING)):
        for name, body in patterns:
            text, it = Text(files), returning(name, body)
            claim_returns(chance, text, it)
            judge(tally, f"{name}, {body}, period {it.period}, moved by {it.vector}", text)


def ageing_planes(chance):
    """A random plane for each Generations rule, with a number of generations."""
    for rule_text in AGEING_RULES:
        rule = steps.Aging(rule_text)
        cells = random_cells(chance, chance.randint(3, 40), chance.randint(3, 40), 2)
        # most cells are live, and the others of any state
        cells = {place: 1 if chance.random() < 0.8 else chance.randrange(1, rule.states) for place in cells}
        count = chance.randint(1, 60) if rule.birth.isdisjoint({1}) and len(rule.birth) < 4 else chance.randint(1, 16)
        yield rule_text, rule, cells, count


def try_ageing_planes(tally, files):
    """Random planes under Generations rules, anywhere, beside two naive steppers."""
    chance, text, complaints = random.Random(64), Text(files), []
    for rule_text, rule, cells, count in ageing_planes(chance):
        at = chance.choice(CORNERS), chance.choice(CORNERS)
        text.becomes(chance, moved(cells, at), rule, count, moved(steps.steps(cells, rule, count, steps.aged), at))
        complaints += [f"{rule_text}: the steppers differ"] if steps.steps(cells, rule, 2, steps.aged) != steps.steps(cells, rule, 2) else []
    tally.tell("the naive steppers agree", complaints)
    judge(tally, "random planes under Generations rules", text)


def try_golly(tally, files):
    """Random planes beside Golly, whose macrocells stand one row higher here than its RLE files."""
    if not golly.BGOLLY:
        return
    chance, text = random.Random(65), Text(files)
    for at, (_, rule, cells, count) in enumerate(ageing_planes(chance)):
        before, later = files.path("before.rle", rle.tidy(moved(cells, (0, 1)), rule.name, 0, rule.states)), files.path(f"after{at}.mc")
        golly.save_aged(before, count, later)
        text.plane(f"a{at}", cells, rule)
        text.load_path(f"b{at}", later)
        text.claim(f"becomes a{at} {count} b{at}", "yes")
    judge(tally, "random planes beside Golly", text)


def try_by_hand(tally, files):
    """Each kind of claim under Brian's Brain, with its note."""
    texts = ClaimTexts(tally, files.folder)
    text, unpinned = texts.text(), Text(files)
    text.rule(DIE.format(name="Die"))
    paths = {name: text.load(name, content) for name, content in brians_brain.FILES.items()}
    for name in ("wheel", "ship"):
        unpinned.load(name, brians_brain.FILES[name])
    for claim, verdict, note in brians_brain.CLAIMS:
        if note is None:
            unpinned.claim(claim, verdict)
        else:
            told = f": rule {brians_brain.OTHERS[note][0]}" if verdict.startswith("refused, bad rule") else ""
            text.claim(claim, verdict, f"{note}: {paths[note].decode()}{told}" if note in paths else note)
    texts.judge("claims that were worked out by hand", text)
    for claim, generations in (("still ship", 1), ("oscillator ship 2", 2), ("oscillator wheel 2", 2), ("oscillator wheel 4294967294", 4294967294),
                               ("spaceship ship 1 0 1", 1), ("still wheel", 1)):
        unpinned.claim(claim, differs(generations))
    judge(tally, "claims that fail at many cells", unpinned)


def try_macrocells(tally, files):
    """Claims about macrocells of more than two states, and of more cells than there is memory for."""
    text, head = Text(files), "[M2]\n#R 345678//3\n"
    for name, square in (("full", FULL_LEAF), ("dying", ("1 2 2 2 2", 1)), ("too_large", ("1 3 3 3 3", 1))):
        text.load(name, chain(square, FOURFOLD, 61, head))
    text.load("nothing", f"{head}1 0 0 0 0\n")
    text.load("ship", "[M2]\n#R 345/2/4\n1 1 1 2 2\n1 3 3 0 0\n2 0 1 0 2\n")
    text.load("ship_as_rle", brians_brain.pattern("345/2/4", "#CXRLE Pos=0,-2\n2A$2B$2C!"))
    for claim, verdict in (("still full", "yes"), ("oscillator full 2", "no, the same after 1, shifted by 0,0"), (f"becomes full {EDGE} full", "yes"),
                           ("becomes full 1 dying", differs(1)), ("becomes dying 1 nothing", "yes"), ("still too_large", "refused, state too large"),
                           ("still ship", differs(1)), ("becomes ship 0 ship_as_rle", "yes"), ("spaceship ship 1 0 -1", "yes")):
        text.claim(claim, verdict)
    judge(tally, "macrocells", text)


class PlaneRuns(Runs):
    """Planes in files, and what the program makes of them after some generations."""

    def written(self, kind, cells, rule, generation):
        """The path of a file of this format with these cells."""
        pattern = macrocell.Pattern(macrocell.tree_of(cells), rule.name, generation)
        text = rle.tidy(cells, rule.name, generation, rule.states) if kind == "rle" else macrocell.tidy(pattern, rule.states)
        return self.path(f"p{self.count}.{kind}", text)

    def judge(self, cells, rule, generation, count, later, *more):
        """A file with these cells, in both formats, shown and converted `count` generations later."""
        self.judge_words(cells, rule, generation, macrocell.Pattern(macrocell.tree_of(later), rule.name, generation + count), "--after", str(count), *more)

    def judge_words(self, cells, rule, generation, pattern, *more):
        """A file with these cells, in both formats, shown and converted with these words: that comes to this pattern."""
        later = pattern.tree.cells()
        inside = all(-EDGE <= part < EDGE for place in later for part in place)
        texts = (rle.tidy(later, rule.name, pattern.generation, rule.states), macrocell.tidy(pattern, rule.states))
        for kind in ("rle", "mc"):
            path = self.written(kind, cells, rule, generation)
            shown = pattern.shown(kind="rle" if kind == "rle" else "macrocell")
            self.expect(f"{len(cells)} cells under {rule.name}", ["show", path, *more], ample(shown))
            for target, text in zip(("rle", "mc"), texts):
                self.expect(f"{len(cells)} cells under {rule.name}", ["convert", path, "--to", target, *more],
                            ample(text) if inside else fault("range"))


def try_converted(tally, files):
    """Patterns under Generations rules in both formats, with states as letters where there are more than two."""
    chance, planes = random.Random(62), PlaneRuns(files.folder)
    for rule_text in ("23/3/2", "23/3/3", "345/2/4", "/2/24", "/2/25", "/2/26", "45678/3/256", "0/2/3"):
        rule = steps.Aging(rule_text)
        for cells in ({(x, 0): 1 for x in range(3)}, {}, moved(random_cells(chance, 9, 7, rule.states), (-4, 100)),
                      {(at, 3): at for at in range(1, rule.states)}):
            planes.judge_words(cells, rule, 0, macrocell.Pattern(macrocell.tree_of(cells), rule.name, 0))
        planes.tell(tally, f"show and convert under {rule_text}")
    for rule_text, body in (("23/3/2", "3o!"), ("23/3/3", "3A!")):
        row = files.path("row.rle", brians_brain.header(rule_text) + "3o!")
        tally.expect(f"3o! to RLE under {rule_text}", run(["convert", row, "--to", "rle"]),
                     ample(f"#CXRLE Pos=0,0\nx = 3, y = 1, rule = {rule_text}\n{body}\n".encode()))
    large = files.path("large.rle", brians_brain.header("/2/3") + "C!")
    for words in (["show", large], ["convert", large, "--to", "mc"], ["convert", large, "--to", "rle"]):
        tally.expect(f"{words[0]} of a state that is too large", run(words), fault("state too large"))


@as_one_test(PlaneRuns, "random planes")
def try_planes(planes):
    """Random planes under random rules and tables, anywhere."""
    chance = random.Random(70)
    rules = [(random_rule(chance), None) for _ in range(25)] + [(table, it) for it, table in random_tables(chance, 1)]
    for rule, made in rules:
        more = ["--rule", planes.path(f"{rule.name}.rule", made.text)] if made else []
        cells = made.cells if made else random_cells(chance, chance.randint(1, 12), chance.randint(1, 12), 2)
        later, count = stepped(cells, rule, chance.choice((1, 2, 3, 5, 8, 13, 16, 21, 32)) if not made else chance.randint(1, 4))
        at = chance.choice(CORNERS), chance.choice(CORNERS)
        planes.judge(moved(cells, at), rule, chance.choice((0, 1, 1000, GREATEST - count)), count, moved(later, at), *more)


@as_one_test(PlaneRuns, "patterns that come back")
def try_returns(planes):
    """Patterns that come back, after numbers of all sizes; those that leave the range are shown, and not written."""
    chance = random.Random(71)
    for name, body in chance.sample(RETURNING, 12):
        it = returning(name, body)
        at = chance.choice(CORNERS), chance.choice(CORNERS)
        for count in (chance.randrange(1 << chance.randint(1, 60)), MOST - chance.randrange(100)):
            planes.judge(moved(it.planes[0], at), it.rule, chance.randrange(1 << 62), count, moved(it.after(count), at),
                         *chance.choice(((), ("--memo", "65536"))))


@as_one_test(PlaneRuns, "a glider at the edge")
def try_edges(planes):
    """A glider whose last cell leaves the range, at the generation at which it does, and one generation earlier; and on, as far as is counted."""
    it = returning("B3/S23", GLIDER)
    cells = moved(it.planes[0], (EDGE - 10, 5))
    out = next(count for count in itertools.count() if max(x for x, _ in it.after(count)) + EDGE - 10 >= EDGE)
    for count in (out - 1, out, MOST):
        planes.judge(cells, it.rule, 7, count, moved(it.after(count), (EDGE - 10, 5)))


@as_one_test(PlaneRuns, "after no generations, and faults of files")
def try_zero(planes):
    """What is printed after no generations is what is printed without."""
    for path, command in itertools.product(found("*.rle", "macrocell/*.mc"), COMMANDS):
        words = with_file(command, path)
        planes.expect("after no generations", [*words, "--after", "0"], run(words))
    spread = planes.path("spread.rule", SPREAD)
    for (name, (text, told)), command, count in itertools.product(PATTERNS.items(), COMMANDS, (0, 1, MOST)):
        planes.expect(told, with_file(command, planes.path(name, text), "--rule", spread, "--after", str(count)), fault(told))


@as_one_test(PlaneRuns, "refusals")
def try_refusals(planes):
    """The generation, the number of cells and the work, each just too large, and at its limit."""
    block = "#CXRLE Gen={}\nx = 2, y = 2, rule = B3/S23\n2o$2o!\n"
    for begun, count in ((GREATEST, 1), (GREATEST - MOST + 1, MOST), (GREATEST - 5, 6)):
        path = planes.path("late.rle", block.format(begun))
        for command in COMMANDS:
            planes.expect("too late", with_file(command, path, "--after", str(count)), fault("gen too large"))
        planes.expect("as late as may be", ["show", path, "--after", str(count - 1)], figures(begun + count - 1, 4, "0 0 2 2", "rle"))
    gun = "examples/gun.rle"
    for command in COMMANDS:
        planes.expect("too little work", with_file(command, gun, "--after", "1000", "--work", "1"), fault("work"))
        planes.expect("enough work", with_file(command, gun, "--after", "1000", "--work", "100000000"), run(with_file(command, gun, "--after", "1000")))
    dot = planes.path("dot.rle", f"x = 1, y = 1, rule = {SPREADING}\no!\n")
    planes.expect("too many cells", ["convert", dot, "--after", "2048", "--to", "rle"], fault("too many cells"))
    planes.expect("as many cells", ["show", dot, "--after", "2048"], figures(2048, 4097 * 4097, "-2048 -2048 4097 4097", "rle", SPREADING))
    side = 2 * MOST + 1
    planes.expect("beyond the range", ["show", dot, "--after", str(MOST)], figures(MOST, side * side, f"-{MOST} -{MOST} {side} {side}", "rle", SPREADING))
    for target in ("rle", "mc"):
        planes.expect("beyond the range", ["convert", dot, "--after", str(MOST), "--to", target], fault("range"))


def try_words(tally, _):
    """Numbers that aren't generations."""
    complaints = []
    for number, command in itertools.product(("-1", "1152921504606846977", "18446744073709551616", "1.5", "x", ""), COMMANDS):
        got = run(with_file(command, "examples/glider.rle", f"--after={number}"))
        if got.printed or got.status != 2 or not got.complaint.startswith(b"error: "):
            complaints.append(f"--after={number}: got {got}")
    tally.tell("numbers that aren't generations", complaints)


if __name__ == "__main__":
    try_all(try_claimed_planes, try_claimed_returns, try_ageing_planes, try_golly, try_by_hand, try_macrocells, try_converted, try_planes, try_returns,
            try_edges, try_zero, try_refusals, try_words)
