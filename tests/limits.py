#!/usr/bin/env -S python3 -B
"""What a claim, a run and an identification may take and keep: `--memo`, `--work` and `--max-memory`.

- What is judged within `--memo` and `--work`, and what is refused as work. Each claim has its own count, and each command remembers and computes what these
  say. No generations need no work.
- How many results typical runs compute: each has to end within a tenth more than it took when this was written. So leaps that forget what they should remember,
  or look for it in the wrong place, are seen on a machine of any speed. The units are the program's own count, and no value from outside: what is promised
  (docs/PROMISES.md) is a bound far above them. Where fewer serve, they may be lowered here. The verdicts are known: what a pattern becomes was computed by Golly
  (leaps/README.md), and a soup doesn't come back.
- Long runs that make too many squares for one store. They go on in a store of their own, and end with the plane that is known. They stay within the memory of the
  squares that they may have, and within the work of what they compute.
"""
import math
import os
import random
import re
import tempfile

from lib import ageing, macrocell, rle, rows
from lib.ageing import AgeingRule
from lib.claim_text import ClaimText, outcome
from lib.golly import AFTER, LEAPS
from lib.planes import FLIGHT, GROWING, explosion, far_cells, far_gliders
from lib.parts import try_all
from lib.program import ROOT, Folder, Outcome, ample, contents, fault, figures, lines_outcome, run
from lib.steps import drifted, next_live

BLOCK = "x = 2, y = 2, rule = B3/S23\n2o$2o!\n"
EMPTY = "x = 0, y = 0, rule = B3/S23\n!\n"
GLIDER = "x = 3, y = 3, rule = B3/S23\nbo$2bo$3o!\n"
GLIDER_AT_8, GLIDER_FAR = (f"#CXRLE Pos={way},{way}\n" + GLIDER for way in (8, 1 << 58))
CHANCE = random.Random(1)
SOUP = rows.text_of("B3/S23", rows.Rows(0, 0, tuple(CHANCE.getrandbits(200) for _ in range(200))))
MOST_WORK, MOST_MEMO = (1 << 64) - 1, 1 << 24

# The options, the patterns, a claim about them, and its verdict.
CLAIMS = (
    (("--work", "0"), {"b": BLOCK}, "still b", "refused, work"),
    (("--work", "0"), {"b": BLOCK}, "oscillator b 2", "refused, work"),
    (("--work", "0"), {"b": BLOCK}, "spaceship b 4 1 1", "refused, work"),
    (("--work", "0"), {"b": BLOCK}, "dies b 1", "refused, work"),
    (("--work", "0"), {"b": BLOCK}, "becomes b 1 b shift 1 1", "refused, work"),
    (("--work", "0"), {"b": BLOCK}, "becomes b 0 b", "yes"),
    (("--work", "0"), {"e": EMPTY}, "becomes e 5 e", "yes"),
    (("--work", "0", "--memo", "1"), {"e": EMPTY}, f"becomes e {1 << 60} e", "yes"),
    (("--work", "0"), {"e": EMPTY}, "still e", "no, empty"),
    (("--work", "0"), {"g": GLIDER}, "becomes g 64 g", "refused, work"),
    (("--work", "0"), {"b": BLOCK, "g": GLIDER}, "becomes b 0 g", "no, cells differ after 0"),
    (("--work", "0"), {"s": SOUP}, "becomes s 100 s", "refused, work"),
    (("--work", "20000"), {"s": SOUP}, "becomes s 1000 s", "refused, work"),
    (("--work", "1000000"), {"s": SOUP}, "becomes s 1000 s", "no, cells differ after 1000"),
    (("--work", "0"), {"b": BLOCK, "o": "x = 1, y = 1, rule = B36/S23\no!\n"}, "becomes b 1 o", "refused, mixed rules"),
    (("--work", "0"), {"b": "x = 1, y = 1\nz!\n"}, "still b", "refused, bad pattern: rle syntax"),
    (("--work", "537825"), {"b": BLOCK}, "still b", "yes"),
    (("--work", str(MOST_WORK)), {"b": BLOCK}, "still b", "yes"),
    (("--work", "100000"), {"b": BLOCK}, f"becomes b {1 << 60} b", "yes"),
    (("--work", "100000"), {"g": GLIDER, "h": GLIDER_FAR}, f"becomes g {1 << 60} h", "yes"),
    (("--work", "100000"), {"g": GLIDER}, f"spaceship g {(1 << 32) - 4} {(1 << 30) - 1} {(1 << 30) - 1}", "no, the same after 4, shifted by 1,1"),
    (("--memo", "1"), {"b": BLOCK}, "still b", "yes"),
    (("--memo", "1"), {"g": GLIDER, "h": GLIDER_AT_8}, "becomes g 32 h", "yes"),
    (("--memo", "1"), {"g": GLIDER}, "spaceship g 8 2 2", "no, the same after 4, shifted by 1,1"),
    (("--memo", str(MOST_MEMO)), {"g": GLIDER, "h": GLIDER_AT_8}, "becomes g 32 h", "yes"),
    (("--memo", "1", "--work", "1000000"), {"g": GLIDER, "h": GLIDER_AT_8}, "becomes g 32 h", "yes"),
)

# Options whose numbers aren't within the limits.
FAULTS = (
    ("--memo", "0"), ("--memo", str(MOST_MEMO + 1)), ("--memo", "x"), ("--memo", "-1"), ("--memo", ""), ("--memo", "1.5"), ("--memo", str(1 << 64)),
    ("--work", "-1"), ("--work", "x"), ("--work", ""), ("--work", str(MOST_WORK + 1)), ("--work", "0x10"),
)

# The rules of tables under which soups are leapt, the cells a side, the generations, how much work may be done, and whether that is enough. The first soup took
# 816560 units, by the program's own count when this was written, and no value from outside.
LEAPT = (
    ("345/2/4", 200, 300, 600000, False),
    ("345/2/4", 200, 300, 1000000, True),
    ("23/3/3", 100, 40, 0, False),
    ("23/3/3", 100, 40, 800, False),
    ("23/3/3", 100, 40, MOST_WORK, True),
    ("23/3/3", 100, 1000, 20000, False),
    ("23/3/3", 100, 1000, MOST_WORK, True),
)

# No block needs this much work for a generation.
AMPLE_WORK = 1000

# How long a glider goes: much is remembered of that, and else computed again and again. And more work than any command needs for it.
LONG, ENOUGH_WORK = 1 << 40, 1 << 20

# The cells of a pattern of 2^20 cells a side, and how it is drawn at the scale at which it is 8 squares wide.
SIDE = 1 << 20
WIDE = dict.fromkeys([*((at << 10, at << 10) for at in range(1024)), (SIDE - 1, SIDE - 1)], 1)
WIDE_PICTURE = "".join("." * at + "o" + "." * (7 - at) + "\n" for at in range(8))

# The entries of the memo by default, and those of small ones.
USUAL, SMALL, SMALLEST = 262144, 16384, 256

# Patterns of lib/golly.py, the entries of a memo, and the units of work that their runs took.
UNITS_OF_PATTERNS = (
    ("acorn", USUAL, 26395),
    ("acorn", SMALLEST, 153062),
    ("switch_engine", USUAL, 5575),
    ("gun", USUAL, 3502),
    ("von_neumann", USUAL, 27614),
    ("wires", USUAL, 3782),
    ("wires", SMALLEST, 5374),
    ("langtons_loop", USUAL, 71305),
    ("rule_110", USUAL, 4483),
)

# The rules of soups of 200 by 200 cells, the generations, the entries of a memo, and the units of work.
UNITS_OF_SOUPS = (
    ("345/2/4", 300, USUAL, 98593),
    ("B3/S23", 1000, USUAL, 87925),
)

# The rule of a table under which such a soup is leapt, the generations, and the entries of a memo and the units of work.
UNITS_OF_TABLE = ("345/2/4", 300, ((USUAL, 816560), (SMALL, 993737)))

# A rule under which each cell is the parity of its eight neighbours: after 2^k generations a plane's eight copies stand round its place, so far from it. The
# side of a soup under it, the generations, and the units of work. It is stepped at first, and then leapt: one that goes on to step takes many times as many.
COPIED = ("B1357/S1357", 64, 4096, 1066866)

# A pattern of lib/golly.py, the generations, and the units of work that the run takes where it keeps a megabyte of squares and results; and fewer units, by which
# it ends all the same where it keeps all of them.
ROOM, FEWEST = ("acorn", 8192, 42304), 30000

# The same pattern so late that no step comes there, and units of work by which it is reached; and where it keeps a megabyte, fewer by which it isn't, and more
# by which it is. It takes some 32500 units, and some 60500 in a megabyte.
LATE, LATE_UNITS, FEW_UNITS, MANY_UNITS = 1 << 40, 37000, 50000, 75000

# Runs of which the least work is found: the rule and the side of a soup, and the generations. They are stepped, or leapt under a table.
LEAST = (("B3/S23", 100, 100), ("B2/S013V", 60, 64), ("345/2/4", 60, 64), ("table", 40, 40))

# How many guns lie in a plane, so far from each other that no glider of one comes to another one by that many generations. The squares of a run of the plane
# are more than so many, which repeat, so that all are kept.
GUNS, SQUARE_OF_A_GUN, SHOTS, KEPT_SQUARES = 3600, 1 << 22, 1 << 20, 8000000

# Fewer guns beside cells far apart: how many these are, the megabytes by which garbage is collected where there are more than so many squares.
FEWER_GUNS, BESIDE, MEGABYTES, COLLECTED = 2000, 76000, 400, 4500000

# Patterns of examples/ that are back at no time, the cells and the box that they have after 65536 generations (by Golly), and the units of work by which
# `identify` tells so. It leaps or strides: one that looks at each generation takes many times as many. And the line on its census, where it has one.
NEVER_BACK = (
    ("gun", "10964 cells, in a box of 16402 by 16389", 14038, ""),
    ("r_pentomino", "116 cells, in a box of 32717 by 32741", 35247, "# r_pentomino: settles after 1103 generations into 25 objects: cafile census\n"),
)

# The gun within a limit that is a multiple of 60 generations above that of Golly's figures: in each 60 two gliders of five cells come, and all fly 15 cells
# away. No stride comes so far: it leaps.
FAR = ("gun", 100000036, "16666714 cells, in a box of 25000027 by 25000014", 49072)

# A pattern of examples/ whose period is long, as it is known, and the units of work by which `identify` finds it. It goes by strides: one that looks at each
# generation takes many times as many.
LONG_PERIOD = ("period_57960", 57960, 24566)

# By how many generations, and how many squares there may be at a time, nearly. The results of the run are some 2.2 million, and squares that are copied are
# hardly any work beside them.
GROWN, MOST_SQUARES, GROWN_WORK = 1500, 4600000, 2400000

# How many gliders far apart make a quarter of the squares that there may be at a time in each leap of theirs.
GLIDERS = 4000


def claim_text(folder, patterns, first=()):
    """A claim text in a folder of its own that begins with these lines and loads these patterns."""
    text = ClaimText(Folder(tempfile.mkdtemp(dir=folder)))
    text.lines += first
    for name, content in patterns.items():
        text.load(name, content)
    return text


def try_claims(tally, files):
    """One claim within some limits. There is no note on a refusal for want of work."""
    for options, patterns, claim, verdict in CLAIMS:
        text = claim_text(files.folder, patterns, (b"claims 2",))
        text.claim(claim, verdict)
        tally.expect(f"{' '.join(options)}: {claim}", run(["verify", *options, text.write()]), outcome(text.answers, False))
    text = claim_text(files.folder, {"b": BLOCK})
    text.claim("still b", "refused, work")
    tally.expect("no note on work", run(["verify", "--explain", "--work", "0", text.write()]), outcome(text.answers, True))


def try_each_by_itself(tally, files):
    """Each of two claims has its own count: with each limit both are refused, or none is."""
    text = claim_text(files.folder, {"b": BLOCK})
    text.lines += [b"still b", b"still b"]
    path = text.write()
    for work in range(AMPLE_WORK):
        got = run(["verify", "--work", str(work), path])
        judged = lines_outcome([(2, "yes"), (3, "yes")])
        if got == judged:
            tally.tell(f"two claims, each by itself, up to {work} units", [] if work > 0 else ["no work was counted"])
            return
        if got != lines_outcome([(2, "refused, work"), (3, "refused, work")]):
            break
    tally.tell(f"two claims, each by itself, {work} units", [str(got)])


def try_a_soup(tally, files):
    """A dense plane is refused alone: the claims before and after it are judged."""
    text = claim_text(files.folder, {"b": BLOCK, "s": SOUP})
    for claim, verdict in (("still b", "yes"), ("becomes s 500 s", "refused, work"), ("still b", "yes")):
        text.claim(claim, verdict)
    tally.expect("a soup among blocks", run(["verify", "--work", "1000", text.write()]), outcome(text.answers, False))


def try_least_work(tally, files):
    """A soup of a table is leapt, and each square of 4 by 4 cells that isn't empty is counted."""
    for rule, side, count, work, is_enough in LEAPT:
        text = claim_text(files.folder, {})
        text.rule(ageing.table_of(AgeingRule.of(rule), "Ageing"))
        text.load("s", rows.text_of("Ageing", rows.soup(random.Random(side), side, side)))
        text.claim(f"becomes s {count} s", f"no, cells differ after {count}" if is_enough else "refused, work")
        tally.expect(f"a soup of a table of {rule} by {count}, {work} units", run(["verify", "--work", str(work), text.write()]), outcome(text.answers, False))


def try_faults(tally, _):
    """Other numbers are faults of the words."""
    for options in FAULTS:
        got = run(["verify", *options, "examples/block.claims"])
        well = got.complaint and (got.printed, got.status) == (b"", 2)
        tally.tell(f"faulty words: {' '.join(options)}", [] if well else [str(got)])


def long_runs(folder):
    """The words of each command that takes a glider far on, what it comes to, and what it comes to where work is out."""
    files = Folder(tempfile.mkdtemp(dir=folder))
    path, far = files.path("glider.rle", GLIDER), LONG // 4
    cells = {(x + far, y + far): 1 for x, y in ((1, 0), (2, 1), (0, 2), (1, 2), (2, 2))}
    text = claim_text(folder, {"g": GLIDER, "h": f"#CXRLE Pos={far},{far}\n" + GLIDER})
    text.lines.append(f"becomes g {LONG} h".encode())
    told = f"claims 2\nload glider {path}\n# glider after {LONG} generations: spaceship 4 1 1\n"
    after = [path, "--after", str(LONG)]
    return (
        (["verify", text.write()], lines_outcome([(3, "yes")]), lines_outcome([(3, "refused, work")])),
        (["show", *after], figures(LONG, 5, f"{far} {far} 3 3", "rle"), fault("work")),
        (["convert", *after, "--to", "rle"], ample(rle.tidy(cells, "B3/S23", LONG, 2)), fault("work")),
        (["draw", *after], ample(b".o.\n..o\nooo\n"), fault("work")),
        (["identify", *after], ample(told.encode()), Outcome(f"claims 2\n# glider: {path}: work\n".encode(), b"", 2)),
    )


def least_work(words, done):
    """With how much work these words just come to what they have to."""
    low, high = 0, ENOUGH_WORK
    while high - low > 1:
        middle = (low + high) // 2
        low, high = (low, middle) if run([*words, "--work", str(middle)]) == done else (middle, high)
    return high


def try_limits_of_commands(tally, files):
    """A command that has just the work that it needs is refused with less, and with a memo of one entry also where it has four times as much. The run is the
    same for all of them, and so is what it needs; an identification takes some steps more."""
    most = {}
    for words, done, refused in long_runs(files.folder):
        most[words[0]] = work = least_work(words, done)
        tries = [(["--work", str(work)], done), (["--work", str(work - 1)], refused), (["--work", str(work), "--memo", "262144"], done),
                 (["--work", str(work), "--memo", str(MOST_MEMO)], done), (["--work", str(4 * work), "--memo", "1"], refused)]
        for more, wanted in tries:
            tally.expect(f"{words[0]}, a long run: {' '.join(more)}", run([*words, *more]), wanted)
    claim, more = most["verify"], most.pop("identify")
    others = [f"{name} needs {work} units, verify {claim}" for name, work in most.items() if work != claim]
    tally.tell("each command needs as much work", others if claim <= more < 2 * claim else [*others, f"identify needs {more} units, verify {claim}"])


def soup_run(files, rule, side, count):
    """A soup under a rule, or a table of one: its path, the words for its rule, its cells after some generations by naive steps, the text of its rule, and how
    many states that has."""
    if rule in ("table", "345/2/4"):
        of, chance = AgeingRule.of("345/2/4"), random.Random(side)
        cells = {(x, y): chance.randrange(1, of.states) for x in range(side) for y in range(side) if chance.random() < 0.4}
        name, states, later = "Ageing" if rule == "table" else rule, of.states, ageing.after(cells, of, count)
        words = ["--rule", files.path("ageing.rule", ageing.table_of(of, name))] if rule == "table" else []
    else:
        soup = rows.soup(random.Random(side), side, side)
        cells, later = (dict.fromkeys(it.cells(), 1) for it in (soup, soup.after(rule, count)))
        name, states, words = rule, 2, []
    return files.path(f"{side}.rle", rle.tidy(cells, name, 0, states)), words, later, name, states


def try_least_work_of_soups(tally, files):
    """Each command that runs a soup ends with the least work that it needs, and is refused with one unit less. Where it is stepped, all need as much."""
    for rule, side, count in LEAST:
        path, words, later, name, states = soup_run(files, rule, side, count)
        left, top = (min(it) for it in zip(*later))
        wide, high = (max(it) - min(it) + 1 for it in zip(*later))
        text = ClaimText(Folder(tempfile.mkdtemp(dir=files.folder)))
        if words:
            text.rule_path(words[1])
        text.load_path("soup", path)
        text.load("later", rle.tidy(later, name, 0, states))
        text.claim(f"becomes soup {count} later", "yes")
        judged, refused = outcome(text.answers, False), lines_outcome([(text.answers[0].line, "refused, work")])
        after = [path, "--after", str(count), *words]
        picture = "".join(".o"[(left + x, top) in later] for x in range(20)) + "\n"
        most = {}
        for run_of, done, less in (
            (["verify", text.write()], judged, refused),
            (["show", *after], figures(count, len(later), f"{left} {top} {wide} {high}", "rle", name), fault("work")),
            (["convert", *after, "--to", "rle"], ample(rle.tidy(later, name, count, states)), fault("work")),
            (["draw", *after, "--at", f"{left},{top}", "--size", "20,1", "--scale", "0"], ample(picture.encode()), fault("work")),
        ):
            most[run_of[0]] = work = least_work(run_of, done)
            complaints = []
            for units, wanted in ((work, done), (2 * work, done), (work - 1, less), (work // 2, less), (0, less)):
                got = run([*run_of, "--work", str(units)])
                complaints += [] if got == wanted else [f"{units} units: wanted {wanted}, got {got}"]
            tally.tell(f"{run_of[0]}, a soup of {rule} by {count}, {work} units", complaints if work < ENOUGH_WORK else ["no work is enough"])
        others = [f"{name} needs {work} units, verify {most['verify']}" for name, work in most.items() if work != most["verify"]]
        tally.tell(f"a soup of {rule} by {count} takes each command as much work", [] if words else others)


def try_no_generations(tally, files):
    """A large plane after no generations needs no work, with a memo of one entry."""
    text = rle.tidy(WIDE, "B3/S23", 0, 2)
    path = Folder(tempfile.mkdtemp(dir=files.folder)).path("wide.rle", text)
    shown = figures(0, len(WIDE), f"0 0 {SIDE} {SIDE}", "rle").printed
    draw = ["draw", path, "--scale", "17"]
    tries = ((draw, WIDE_PICTURE.encode()), ([*draw, "--after", "0"], WIDE_PICTURE.encode()), (["show", path, "--after", "0"], shown),
             (["convert", path, "--after", "0", "--to", "rle"], text))
    for words, wanted in tries:
        tally.expect(f"no generations: {words[0]} {' '.join(words[2:])}", run([*words, "--work", "0", "--memo", "1"]), ample(wanted))


def judge_units(tally, name, text, memo, units):
    """Expects the verdicts of a text with `units` of work and a tenth more."""
    words = ["verify", "--memo", str(memo), "--work", str(units + units // 10), text.write()]
    tally.expect(f"{name}, {memo} entries: {units} units", run(words), outcome(text.answers, False))


def try_patterns(tally, files):
    """What patterns become by leaps."""
    known = {name: it for name, *it in AFTER}
    for name, memo, units in UNITS_OF_PATTERNS:
        before, rule, count = known[name]
        text = ClaimText(files)
        if rule:
            text.rule_path(rule)
        text.load_path("before", before)
        text.load_path("after", f"{LEAPS}/{name}_after.mc")
        text.claim(f"becomes before {count} after", "yes")
        judge_units(tally, f"{name} by {count}", text, memo, units)


def try_soups(tally, files):
    """Soups: those of rules are stepped, and that of a table is leapt."""
    for rule, count, memo, units in UNITS_OF_SOUPS:
        text = ClaimText(files)
        text.load("soup", rows.text_of(rule, rows.soup(random.Random(200), 200, 200)))
        text.claim(f"becomes soup {count} soup", f"no, cells differ after {count}")
        judge_units(tally, f"a soup of {rule} by {count}", text, memo, units)
    name, count, needs = UNITS_OF_TABLE
    for memo, units in needs:
        text = ClaimText(files)
        text.rule(ageing.table_of(AgeingRule.of(name), "Ageing"))
        text.load("soup", rows.text_of("Ageing", rows.soup(random.Random(200), 200, 200)))
        text.claim(f"becomes soup {count} soup", f"no, cells differ after {count}")
        judge_units(tally, f"a soup of a table of {name} by {count}", text, memo, units)


def try_copies(tally, files):
    """A soup whose bricks soon are copies of few."""
    rule, side, count, units = COPIED
    soup = rows.soup(random.Random(side), side, side)
    steps = (-count, 0, count)
    text = ClaimText(files)
    text.load("soup", rows.text_of(rule, soup))
    text.load("copies", rows.text_of(rule, *(soup.moved(x, y) for x in steps for y in steps if x or y)))
    text.claim(f"becomes soup {count} copies", "yes")
    judge_units(tally, f"a soup of {rule} by {count}", text, USUAL, units)


def try_room(tally, _):
    """A run that may keep few squares: it ends, and takes more work."""
    name, count, units = ROOM
    path = f"{LEAPS}/{name}.rle"
    words = ["show", path, "--after", str(count)]
    shown = run(words)
    tally.expect(f"{name} by {count} is shown", shown.status, 0)
    tally.expect(f"{name} by {count}: {FEWEST} units", run([*words, "--work", str(FEWEST)]), shown)
    few = [*words, "--max-memory", "1"]
    tally.expect(f"{name} by {count} in a megabyte: {units} units", run([*few, "--work", str(units + units // 10)]), shown)
    tally.expect(f"{name} by {count} in a megabyte: {FEWEST} units", run([*few, "--work", str(FEWEST)]), Outcome(b"", b"cafile: work\n", 2))


def late_acorn():
    """The live cells of the acorn after LATE generations: what Golly made of it has settled, but for gliders, which fly on."""
    _, _, _, count = next(it for it in AFTER if it[0] == "acorn")
    settled = later = frozenset(macrocell.read(contents(os.path.join(ROOT, LEAPS, "acorn_after.mc"))).tree.cells())
    for _ in range(4):
        later = next_live(later, {3}, {2, 3})
    return drifted(settled, later, (LATE - count) // 4)


def try_late_room(tally, _):
    """A run as far as no step comes, within its work and not within less, where it keeps all squares and few."""
    cells = macrocell.tree_of(dict.fromkeys(late_acorn(), 1))
    shown = figures(LATE, cells.population(), " ".join(map(str, cells.box())), "rle")
    words = ["show", f"{LEAPS}/acorn.rle", "--after", str(LATE)]
    for more, units, wanted in (([], LATE_UNITS, shown), (["--max-memory", "1"], FEW_UNITS, fault("work")), (["--max-memory", "1"], MANY_UNITS, shown)):
        tally.expect(f"the acorn by {LATE} {' '.join(more)}: {units} units", run([*words, *more, "--work", str(units)]), wanted)


def try_room_of_claims(tally, files):
    """The same of a claim."""
    name, count, _ = ROOM
    text = ClaimText(files)
    text.load_path("before", f"{LEAPS}/{name}.rle")
    text.load_path("after", f"{LEAPS}/{name}_after.mc")
    text.claim(f"becomes before {count} after", "yes")
    words = ["verify", "--work", str(FEWEST)]
    tally.expect(f"{name} becomes by {count}: {FEWEST} units", run([*words, text.write()]), Outcome(b"line 3: yes\n", b"", 0))
    tally.expect(f"{name} becomes by {count} in a megabyte", run([*words, "--max-memory", "1", text.write()]), Outcome(b"line 3: refused, work\n", b"", 2))


def try_identification(tally, _):
    """What is back at no time, and what is back late."""
    for name, grown, units, settles in NEVER_BACK:
        path = f"examples/{name}.rle"
        words = ["identify", "--work", str(units + units // 10), path]
        told = f"claims 2\nload {name} {path}\n# {name}: none of these within 65536 generations: {grown}, after 65536\n{settles}"
        tally.expect(f"{name} is back at no time: {units} units", run(words), Outcome(told.encode(), b"", 0))
    name, limit, grown, units = FAR
    path = f"examples/{name}.rle"
    words = ["identify", "--limit", str(limit), "--work", str(units + units // 10), path]
    told = f"claims 2\nload {name} {path}\n# {name}: none of these within {limit} generations: {grown}, after {limit}\n"
    tally.expect(f"{name} is back at no time up to {limit}: {units} units", run(words), Outcome(told.encode(), b"", 0))
    name, period, units = LONG_PERIOD
    path = f"examples/{name}.rle"
    words = ["identify", "--work", str(units + units // 10), path]
    told = f"claims 2\nload {name} {path}\noscillator {name} {period}\n"
    tally.expect(f"{name} is back late: {units} units", run(words), Outcome(told.encode(), b"", 0))


def squares_seen(got):
    """The squares of which a run told while it went on."""
    return [100000 * (10 * int(it[1]) + int(it[2])) for it in re.finditer(rb"(\d+)\.(\d) million squares", got.complaint)]


def guns(count):
    """An RLE text of so many guns far from each other, and the corners of their squares."""
    chance, side = random.Random(count), math.isqrt(count)
    places = [tuple(SQUARE_OF_A_GUN * at + chance.randrange(SQUARE_OF_A_GUN // 2) for at in (k % side, k // side)) for k in range(count)]
    cells = rle.cells_and_rule(contents(os.path.join(ROOT, "examples", "gun.rle")).decode())[0]
    return rle.tidy({(x + i, y + j): 1 for x, y in places for i, j in cells}, "B3/S23", 0, 2), places


def try_many_guns(tally, files):
    """Guns whose gliders meet no other gun: the plane is that of each gun as Golly made it, and all squares of the run are kept, since they repeat."""
    text, places = guns(GUNS)
    after = macrocell.read(contents(os.path.join(ROOT, LEAPS, "gun_after.mc"))).tree
    left, top, wide, high = after.box()
    (west, east), (north, south) = ((min(it), max(it)) for it in zip(*places))
    shown = figures(SHOTS, GUNS * after.population(), f"{west + left} {north + top} {east - west + wide} {south - north + high}", "rle")
    got = run(["show", files.path("guns.rle", text), "--after", str(SHOTS), "--progress"])
    squares = squares_seen(got)
    well = (got.printed, got.status) == (shown.printed, 0) and squares == sorted(squares) and squares[-1] > KEPT_SQUARES
    tally.tell(f"{GUNS} guns by {SHOTS}", [] if well else [f"wanted {shown}, got {got}, squares {squares}"])


def try_collected_guns(tally, files):
    """A run that repeats and has room for squares beside those of another plane: garbage is collected where there are more than most runs ever have."""
    text = ClaimText(files)
    text.load("guns", guns(FEWER_GUNS)[0])
    text.load("far", far_cells(BESIDE))
    text.claim(f"becomes guns {SHOTS} far", f"no, cells differ after {SHOTS}")
    got = run(["verify", "--progress", "--max-memory", str(MEGABYTES), text.write()])
    squares = squares_seen(got)
    collected = [one for one, other in zip(squares, squares[1:]) if 2 * other < one]
    well = (got.printed, got.status) == (outcome(text.answers, False).printed, 1) and max(collected, default=0) > COLLECTED
    tally.tell(f"{FEWER_GUNS} guns beside cells far apart", [] if well else [f"{got}, squares {squares}"])


def judge_squares(tally, folder, name, texts, generations, verdict, *words):
    """Expects the verdict on a pattern that is to become another one, in a run that leaves squares behind and never has too many."""
    text = ClaimText(Folder(folder))
    for which, it in zip(("first", "later"), texts):
        text.load(which, it)
    text.claim(f"becomes first {generations} later", verdict)
    got = run(["verify", "--progress", *words, text.write()])
    squares = squares_seen(got)
    # some are left behind, so later there are fewer
    well = got.printed == f"line 3: {verdict}\n".encode() and squares != sorted(squares) and max(squares) <= MOST_SQUARES
    tally.tell(name, [] if well else [f"{got}, squares {squares}"])


def try_full_stores(tally, files):
    """A plane that grows in all directions, and another one that is claimed of it; and gliders far apart."""
    plane = explosion()
    later = plane.after(GROWING, GROWN)
    other, _ = later.with_changed(later.x, later.y)
    for name, it, verdict in (("yes", later, "yes"), ("no", other, f"no, cells differ after {GROWN}")):
        texts = [rows.text_of(GROWING, which) for which in (plane, it)]
        judge_squares(tally, files.folder, f"a long run, {name}", texts, GROWN, verdict, "--work", str(GROWN_WORK))
    judge_squares(tally, files.folder, f"{GLIDERS} gliders far apart", far_gliders(GLIDERS), FLIGHT, "yes")


if __name__ == "__main__":
    try_all(try_claims, try_each_by_itself, try_a_soup, try_least_work, try_limits_of_commands, try_least_work_of_soups, try_no_generations, try_patterns,
            try_soups, try_copies, try_room_of_claims, try_full_stores, try_many_guns, try_collected_guns, try_faults, try_room, try_late_room,
            try_identification)
