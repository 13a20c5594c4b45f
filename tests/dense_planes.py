#!/usr/bin/env -S python3 -B
"""What dense planes become, which are stepped and not leapt, beside naive steps.

- Under B/S rules, beside tests/lib/rows.py. Soups go by fewer and more generations than are stepped at a time, at borders of bricks, in all quarters of the plane
  and at its far ends. Planes rest, never rest, are woken by gliders, or die. Soups are as large as Golly tells under rules of four neighbours and six.
- Under Generations rules, beside tests/lib/ageing.py. Soups of 2 to 256 states go at the same places. Planes are of dying cells alone, or rest beside dying ones.
  Where it is on the path, Golly tells how many cells there are of each state.

Each plane is claimed to become what it does, which is true, and the same with one cell changed, which isn't. Under B/S rules the verdict has to name that cell.
"""
import functools
import operator
import random
import re

from lib import ageing, golly, rle, rows, small_planes
from lib.ageing import AgeingRule
from lib.claim_text import ClaimText, outcome
from lib.macrocell import EDGE
from lib.parts import try_all
from lib.planes import Packed, far_cells, text_of_copies
from lib.program import run
from lib.small_planes import moved

# The columns and rows of a brick, and the generations for which a plane is stepped at a time.
WIDE, HIGH, AT_A_TIME = 64, 16, 1024

SHORT = (1, 2, 3, 31, 32, 33, 63, 64, 65, 127, 128, 129, 255, 256, 257)
LONG = tuple(many + more for many in (AT_A_TIME, AT_A_TIME + 32, 2 * AT_A_TIME) for more in (-1, 0, 1))

# Rules, the side of a soup under each, and the generations that it goes. Under B2/S and B1357/S1357 it grows by a cell each generation on all sides. V rules
# count four neighbours, H rules six.
RULES = (
    ("B3/S23", 100, SHORT + LONG),
    ("B36/S23", 90, SHORT + LONG),
    ("B3678/S34678", 130, SHORT + LONG),
    ("B378/S238", 80, SHORT + LONG),
    ("B368/S245", 100, SHORT + LONG),
    ("B4678/S35678", 100, SHORT + LONG),
    ("B38/S12378", 70, SHORT + LONG[:2]),
    ("B3/S012345678", 70, SHORT + LONG[:2]),
    ("B2/S", 60, SHORT),
    ("B1357/S1357", 60, SHORT),
    ("B12345678/S012345678", 60, SHORT),
    ("B8/S8", 70, SHORT),
    ("B/S8", 70, SHORT),
    ("B2/S", 30, (AT_A_TIME + 33,)),
    ("B13/S012V", 70, SHORT),
    ("B2/S013V", 100, SHORT + LONG[:2]),
    ("B23/S23V", 100, SHORT + LONG[:2]),
    ("B2/S2H", 100, SHORT + LONG[:2]),
    ("B24/S34H", 100, SHORT + LONG[:2]),
    ("B3/S1256H", 90, SHORT),
    ("B1/S4V", 60, SHORT),
)

# The upper left corners of soups: at each alignment of some to bricks in each quarter, round the origin, and far away.
ALIGNMENTS = ((0, 0), (1, 15), (31, 8), (63, 1), (62, 14))

CORNERS = (
    *((WIDE * i + x, HIGH * j + y) for i, j in ((5, 9), (-7, 3), (2, -11), (-6, -8)) for x, y in ALIGNMENTS),
    *((x, y) for x in (-64, -35, -1) for y in (-50, -16, -1)),
    *((x << 59, y << 59) for x in (-1, 0, 1) for y in (-1, 0, 1)),
)

PLACED = (("B3/S23", 32), ("B36/S23", 65), ("B3678/S34678", 129), ("B3/S23", AT_A_TIME + 1), ("B2/S", 63), ("B1357/S1357", 33), ("B38/S12378", 64),
          ("B2/S013V", 65), ("B24/S34H", 33), ("B2/S2H", 129), ("B13/S012V", 32))

# A glider that goes down and to the right, and what rests beside others: still lifes and oscillators of period 2, each in all its phases and ways to lie.
GLIDER = rows.Rows(0, 0, (0b010, 0b100, 0b111))

RESTING = tuple(rows.Rows(0, 0, it) for it in (
    (3, 3), (7,), (1, 1, 1), (6, 9, 6), (2, 5, 5, 2), (2, 5, 2), (3, 5, 2), (6, 9, 10, 4), (3, 3, 12, 12), (3, 1, 8, 12), (7, 14), (4, 9, 9, 2)))

# A pulsar, which has period 3. At places so far apart it meets no other.
PULSAR = rows.Rows(0, 0, tuple(int(row, 2) for row in (
    "0011100011100", "0", "1000010100001", "1000010100001", "1000010100001", "0011100011100", "0",
    "0011100011100", "1000010100001", "1000010100001", "1000010100001", "0", "0011100011100")))

PITCH = 20

# The directions of gliders.
WAYS = ((1, 1), (-1, 1), (1, -1), (-1, -1))

# How soups of 60 by 60 cells lie that are apart, and those of 300 by 300: the first at the origin, the other so far to the right and down.
APART = ((130, 0), (0, 170), (300, 0), (0, 1000), (-900, 200), (5000, -5000), (1 << 20, 3), (-(1 << 59), 1 << 59))

NEAR = ((370, 0), (-20, -380))

# Soups of as many columns and rows, and the generations that they go.
LARGE = (("B3/S23", 700, 700, (64, 65)), ("B3/S23", 700, 700, (321,)), ("B36/S23", 512, 512, (200,)), ("B3678/S34678", 700, 700, (64, 129)),
         ("B2/S", 700, 700, (65,)), ("B3/S23", 5000, 20, (129,)), ("B3/S23", 20, 5000, (129,)), ("B3/S012345678", 640, 640, (99,)),
         ("B2/S013V", 700, 700, (99,)), ("B2/S2H", 700, 700, (99,)))

# What bgolly 3.3 tells by QuickLife of soups of 100 by 100 cells: the rule, the generations, the live cells, and the columns and rows that they take.
GOLLY = (
    ("B13/S012V", 33, 13530, 166, 166), ("B13/S012V", 64, 22650, 228, 228), ("B13/S012V", 500, 337074, 1100, 1100),
    ("B2/S013V", 33, 3812, 100, 100), ("B2/S013V", 64, 3281, 100, 100), ("B2/S013V", 500, 1813, 100, 100),
    ("B23/S23V", 33, 6268, 100, 100), ("B23/S23V", 64, 6345, 100, 100), ("B23/S23V", 500, 6480, 100, 100),
    ("B2/S2H", 33, 3698, 123, 121), ("B2/S2H", 64, 4306, 131, 141), ("B2/S2H", 500, 21636, 324, 327),
    ("B24/S34H", 33, 6193, 122, 119), ("B24/S34H", 64, 7025, 132, 133), ("B24/S34H", 500, 28074, 285, 274),
    ("B3/S23", 33, 1699, 120, 116), ("B3/S23", 64, 1425, 127, 128), ("B3/S23", 500, 1406, 295, 250),
)

# Rules under which soups of as many cells a side die.
DEADLY = (("B3/S", 100), ("B35/S", 100), ("B678/S5678", 100), ("B5678/S5678", 100), ("B35678/S5678", 33), ("B35678/S5678", 60), ("B35678/S5678", 54),
          ("B35678/S5678", 66))

AGED_SHORT = (1, 2, 31, 32, 33, 64, 100)

# Rules, the side of a soup under each, and the generations that it goes.
AGED_RULES = (
    ("/2/3", 60, AGED_SHORT),
    ("23/3/3", 90, (*AGED_SHORT, AT_A_TIME + 1)),
    ("345/2/4", 90, AGED_SHORT),
    ("3/2/4", 60, AGED_SHORT),
    ("23/3/8", 120, (*AGED_SHORT, AT_A_TIME - 1, AT_A_TIME, AT_A_TIME + 1, AT_A_TIME + 33, 2 * AT_A_TIME + 1)),
    ("345/2/16", 90, (*AGED_SHORT, 260)),
    ("23/3/17", 90, (*AGED_SHORT, AT_A_TIME + 5)),
    ("345/2/5", 90, (33, 130)),
    ("345/2/6", 90, (33, 130)),
    ("23/3/2", 90, (33, 130)),
    ("/2/256", 60, (33, 257, 300)),
    ("345/2/256", 60, (33, 253, 254, 255, 256, 300)),
    ("345/2/255", 60, (33, 255, 300)),
    ("012345678/3/4", 70, (33, 130)),
    ("/23/6", 60, (33, 70)),
    ("345/2/4", 700, (33,)),
)

# The upper left corners of soups: at alignments to bricks in each quarter, round the origin, and far away.
AGED_CORNERS = (
    *((WIDE * i + x, HIGH * j + y) for i, j in ((5, 9), (-7, 3), (2, -11), (-6, -8)) for x, y in ((0, 0), (1, 15), (63, 1))),
    *((x, y) for x in (-64, -35) for y in (-50, -16)),
    *((x << 59, y << 59) for x in (-1, 1) for y in (-1, 1)),
)

AGED_PLACED = (("/2/3", 33), ("23/3/8", 65), ("345/2/4", 40), ("345/2/256", 34))

# Planes of many bricks: the rule, the side of a soup under it, the columns and rows of copies of it, and the generations. The copies lie at different alignments
# to squares of 16 by 16 cells, and near each other, so that the planes are stepped.
MANY_BRICKS = (("B3/S23", 3500, 3, 3, 33), ("23/3/8", 300, 10, 9, 33))

# A soup, and cells far apart that take more than 2 million squares beside it.
BESIDE, FAR_CELLS = ("B3/S23", 300, 129), 46000


def place_of_change(chance, plane):
    """A place that a file has: one of a live cell, or any of the plane or beside it."""
    live = [at for at, row in enumerate(plane.rows) if row]
    if live and chance.random() < 0.5:
        y = chance.choice(live)
        return plane.x + chance.choice([x for x in range(plane.width()) if plane.rows[y] >> x & 1]), plane.y + y
    x, y = plane.x + chance.randint(-1, plane.width()), plane.y + chance.randint(-1, len(plane.rows))
    return max(-EDGE, min(EDGE - 1, x)), max(-EDGE, min(EDGE - 1, y))


class Text(ClaimText):
    """A claim text about planes that are given by their rows."""

    def __init__(self, files, chance):
        super().__init__(files)
        self.chance = chance
        self.lines.append(b"claims 2")

    def plane(self, rule, *planes):
        """Loads the live cells of planes, and gives their name."""
        name = f"p{len(self.lines)}"
        self.load(name, rows.text_of(rule, *planes))
        return name

    def becomes(self, before, rule, count, *later):
        """Claims that what was loaded becomes these planes, and that it becomes others: a cell is changed of the last."""
        x, y = place_of_change(self.chance, later[-1])
        changed, state = later[-1].with_changed(x, y)
        name, other = self.plane(rule, *later), self.plane(rule, *later[:-1], changed)
        self.claim(f"becomes {before} {count} {name}", "yes")
        note = f"{before} at {x},{y}: {state} after {count} generation{'s' * (count != 1)}, claimed {1 - state}"
        self.claim(f"becomes {before} {count} {other}", f"no, cells differ after {count}", note)

    def becomes_each(self, rule, before, generations):
        """Claims what a plane becomes by each of these numbers of generations, and gives its last."""
        name, later, done = self.plane(rule, before), before, 0
        for count in generations:
            later, done = later.after(rule, count - done), count
            self.becomes(name, rule, count, later)
        return later

    def judge(self, tally, name):
        """Expects the verdicts, and the notes of those that are no."""
        came, wanted = run(["verify", "--explain", self.write()]), outcome(self.answers, True)
        pairs = zip(came.printed.splitlines(), wanted.printed.splitlines())
        others = [f"wanted {right.decode()}, got {line.decode()}" for line, right in pairs if line != right]
        tally.tell(f"{name}: {len(self.answers)} claims", others or ([] if came == wanted else [str(came)]))


def try_rules(tally, files):
    """Soups under each rule, at random places, by each number of generations."""
    for rule, side, generations in RULES:
        chance = random.Random(side)
        text, before = Text(files, chance), rows.soup(chance, side, side).moved(chance.randint(-200, 100), chance.randint(-200, 100))
        text.becomes_each(rule, before, generations)
        text.judge(tally, f"{side} by {side} cells, {rule}")


def at_edges(before, later):
    """The vectors that move both planes to a corner of the places that files have, so far that one of them reaches its edges."""
    x0, y0, x1, y1 = (pick(parts) for pick, parts in zip((min, min, max, max), zip(*(
        (it.x, it.y, it.x + it.width(), it.y + len(it.rows)) for it in (before, later)))))
    return [(x, y) for x in (-EDGE - x0, EDGE - x1) for y in (-EDGE - y0, EDGE - y1)]


def try_places(tally, files):
    """Soups at all corners, and where they, or what they become, reach the ends of files."""
    for rule, count in PLACED:
        chance = random.Random(count)
        text, before = Text(files, chance), rows.soup(chance, 80, 60)
        later = before.after(rule, count)
        for corner in (*CORNERS, *at_edges(before, later)):
            text.becomes(text.plane(rule, before.moved(*corner)), rule, count, later.moved(*corner))
        text.judge(tally, f"soups at all places, {rule} by {count}")


def resting(chance, across, down):
    """So many things across and down that rest, each at a random place of 8 by 8 cells and far enough from the others."""
    places = [(8 * x + chance.randint(1, 2), 8 * y + chance.randint(1, 2)) for x in range(across) for y in range(down)]
    return rows.united([chance.choice(RESTING).turned(*chance.choice(WAYS)).moved(*place) for place in places])


def cleared(plane, x, y, wide, high):
    """The plane without its live cells in a box."""
    hole = ((1 << wide) - 1) << (x - plane.x)
    return rows.Rows(plane.x, plane.y, tuple(row & ~hole if y <= at < y + high else row for at, row in enumerate(plane.rows, plane.y)))


def try_rest(tally, files):
    """Planes at rest are what they were two generations before, and oscillators of no longer period."""
    chance = random.Random(8)
    for x, y in ((0, 0), (-300, -77), (EDGE - 400, -EDGE)):
        text, before = Text(files, chance), resting(chance, 40, 25).moved(x, y)
        name = text.plane("B3/S23", before)
        for count in (1, 2, 32, 33, AT_A_TIME + 1, AT_A_TIME + 34, 3 * AT_A_TIME + 1):
            text.becomes(name, "B3/S23", count, before.after("B3/S23", count % 2))
        text.claim(f"oscillator {name} 64", "no, the same after 2, shifted by 0,0")
        text.claim(f"oscillator {name} 2", "yes")
        text.judge(tally, f"at rest, {x},{y}")


def try_busy(tally, files):
    """Pulsars in all phases, none of which ever rests: such a plane is stepped as often as one may be, and then leapt."""
    chance, phases = random.Random(12), [PULSAR.after("B3/S23", count) for count in range(3)]
    places = [(PITCH * x + chance.randint(0, 2), PITCH * y + chance.randint(0, 2)) for x in range(12) for y in range(12)]
    before = rows.united([chance.choice(phases).moved(*place) for place in places])
    text = Text(files, chance)
    name = text.plane("B3/S23", before)
    for count in (AT_A_TIME + 1, *(many * AT_A_TIME + more for many in range(2, 10) for more in (0, 1)), 1 << 20):
        text.becomes(name, "B3/S23", count, before.after("B3/S23", count % 3))
    text.claim(f"oscillator {name} {3 * AT_A_TIME}", "no, the same after 3, shifted by 0,0")
    text.claim(f"oscillator {name} 3", "yes")
    text.judge(tally, "never at rest")


def try_waking(tally, files):
    """A glider comes to a corner of four bricks that sleep, in each direction and a little beside the corner, and goes on or meets what rests there."""
    chance = random.Random(9)
    corner_x, corner_y, reach = WIDE, 4 * HIGH, 24
    for dx, dy in WAYS:
        text, glider = Text(files, chance), GLIDER.turned(dx, dy)
        for beside in range(-4, 5):
            for far in (reach, 0):
                # the hole ends at the corner, or so far beyond
                west, north = (at - (reach if step > 0 else far) for at, step in ((corner_x, dx), (corner_y, dy)))
                field = cleared(resting(chance, 24, 16), west, north, reach + far, reach + far)
                before = rows.united([field, glider.moved(corner_x - 1 - 12 * dx + beside, corner_y - 1 - 12 * dy)])
                name = text.plane("B3/S23", before)
                later = before.after("B3/S23", 49)
                text.becomes(name, "B3/S23", 49, later)
                text.becomes(name, "B3/S23", 130, later.after("B3/S23", 81))
        text.judge(tally, f"a glider by {dx},{dy} over a corner")


def try_gliders(tally, files):
    """Gliders at all alignments to bricks, all in one direction."""
    for dx, dy in WAYS:
        chance, phases = random.Random(10), [GLIDER.turned(dx, dy).after("B3/S23", count) for count in range(4)]
        # 9 times 0 to 63 are all columns of a brick, and 9 times 0 to 15 all its rows; closer together they would meet, and farther apart be leapt
        before = rows.united([chance.choice(phases).moved(9 * i, 9 * j) for i in range(WIDE) for j in range(HIGH)]).moved(-700, -chance.randint(0, 300))
        text = Text(files, chance)
        name = text.plane("B3/S23", before)
        for count in (32, 35, 64, 129, AT_A_TIME + 32):
            text.becomes(name, "B3/S23", count, before.after("B3/S23", count % 4).moved(count // 4 * dx, count // 4 * dy))
        text.claim(f"spaceship {name} 64 {16 * dx} {16 * dy}", f"no, the same after 4, shifted by {dx},{dy}")
        text.claim(f"becomes {name} 64 {name} shift {16 * dx} {16 * dy}", "yes")
        text.judge(tally, f"gliders by {dx},{dy}")


def try_deaths(tally, files):
    """Soups that die: after as many generations as that takes, and not before."""
    for rule, side in DEADLY:
        chance = random.Random(side)
        text, before = Text(files, chance), rows.soup(chance, side, side).moved(chance.randint(-100, 0), chance.randint(-100, 0))
        later, span = before, 0
        while later.rows:
            last, later, span = later, later.after(rule, 1), span + 1
        name = text.plane(rule, before)
        text.claim(f"dies {name} {span}", "yes")
        for count in (span + 1, max(32, span + 9), AT_A_TIME + 33, EDGE):
            text.claim(f"dies {name} {count}", f"no, empty after {span}")
        text.becomes(name, rule, span - 1, last)
        for count in (span, 33 + span, AT_A_TIME + span):
            text.becomes(name, rule, count, later)
        text.judge(tally, f"{rule} dies after {span}")


def try_apart(tally, files):
    """Two soups apart in one file, which go no further than half-way to each other. Large ones that lie near are stepped, the others are leapt."""
    for rule in ("B3/S23", "B36/S23"):
        chance = random.Random(11)
        text = Text(files, chance)
        for side, vector in (*((60, it) for it in APART), *((300, it) for it in NEAR)):
            soups = [rows.soup(chance, side, side), rows.soup(chance, side, side).moved(*vector)]
            name, most = text.plane(rule, *soups), (max(map(abs, vector)) - side) // 2
            for count in {min(most, it) for it in (33, 130, AT_A_TIME + 1)}:
                text.becomes(name, rule, count, *(it.after(rule, count) for it in soups))
        text.judge(tally, f"two soups apart, {rule}")


def try_large(tally, files):
    """Large soups: memory is enough for them."""
    for rule, wide, high, generations in LARGE:
        chance = random.Random(wide)
        text, before = Text(files, chance), rows.soup(chance, wide, high).moved(-wide // 2, -high // 3)
        later = text.becomes_each(rule, before, generations)
        text.judge(tally, f"{wide} by {high} cells, {rule}, from {before.population()} live cells to {later.population()}")


def copied(chance, side, across, down, count):
    """The places of so many copies of a soup, no two of which meet within `count` generations: each is some cells beside the corner of a square of its own."""
    pitch = side + 2 * count + HIGH + 2
    return [(pitch * i + chance.randrange(HIGH), pitch * j + chance.randrange(HIGH)) for i in range(across) for j in range(down)]


def try_many_bricks(tally, files):
    """Planes of copies of a soup, which become copies of what the soup becomes, and nothing else: one cell is another of the last copy."""
    for name, side, across, down, count in MANY_BRICKS:
        chance = random.Random(side)
        places = copied(chance, side, across, down, count)
        if "B" in name:
            states, kind = 2, name
            # a cell in sixteen is live
            soup = rows.Rows(0, 0, tuple(functools.reduce(operator.and_, (chance.getrandbits(side) for _ in range(4))) for _ in range(side)))
            cells, later = (dict.fromkeys(it.cells(), 1) for it in (soup, soup.after(kind, count)))
        else:
            kind = AgeingRule.of(name)
            states = kind.states
            cells = {(x, y): chance.randrange(1, states) for x in range(side) for y in range(side) if chance.random() < 0.4}
            later = ageing.after(cells, kind, count)
        text, before, after = ClaimText(files), *(Packed.of(it, states) for it in (cells, later))
        changed = Packed.of(small_planes.one_changed(chance, later, states), states)
        copies = [(after, place) for place in places]
        for of, content in (("soups", [(before, place) for place in places]), ("later", copies), ("other", [*copies[:-1], (changed, places[-1])])):
            text.load(of, text_of_copies(name, states, content))
        text.claim(f"becomes soups {count} later", "yes")
        text.claim(f"becomes soups {count} other", f"no, cells differ after {count}")
        wide, high = ((max(it) - min(it) + side) for it in zip(*places))
        small_planes.judge(tally, f"{(wide + WIDE - 1) // WIDE * ((high + HIGH - 1) // HIGH)} bricks of {name}", text)


def try_beside_far_cells(tally, files):
    """A soup is stepped in a store that has the squares of cells far away, and then in one that hasn't."""
    rule, side, count = BESIDE
    soup = rows.soup(random.Random(side), side, side)
    text = ClaimText(files)
    text.load("soup", rows.text_of(rule, soup))
    text.load("far", far_cells(FAR_CELLS, rule))
    text.load("later", rows.text_of(rule, soup.after(rule, count)))
    text.claim(f"becomes soup {count} far", f"no, cells differ after {count}")
    text.claim(f"becomes soup {count} later", "yes")
    small_planes.judge(tally, f"a soup beside {FAR_CELLS} cells far apart", text)


def try_golly(tally, files):
    """Soups of 100 by 100 cells have as many live cells as Golly tells, and these take as many columns and rows."""
    for rule, count, population, wide, high in GOLLY:
        path = files.path("golly.rle", rows.text_of(rule, rows.soup(random.Random(100), 100, 100)))
        came = run(["show", "--after", str(count), path]).printed.decode().splitlines()
        told = [*(line.split() for line in came if line.startswith(("cells", "box")))]
        wanted = [["cells", str(population)], [str(wide), str(high)]]
        tally.tell(f"as Golly: {rule} by {count}", [] if told and [told[0], told[-1][-2:]] == wanted else [f"wanted {wanted}, got {came}"])


def aged_soup(chance, side, states):
    """A square of cells, of which two fifths aren't dead: half of them live, half of any state."""
    return {(x, y): 1 if chance.random() < 0.5 else chance.randrange(1, states) for x in range(side) for y in range(side) if chance.random() < 0.4}


def claim_all(text, chance, rule, cells, generations):
    """Claims what the cells become after each number of generations."""
    later, done = cells, 0
    for count in generations:
        later, done = ageing.after(later, rule, count - done), count
        if later:
            text.becomes(chance, cells, rule, count, later)


def try_aged_rules(tally, files):
    """Soups under each rule, at random places, by each number of generations."""
    for name, side, generations in AGED_RULES:
        chance, rule, text = random.Random(side), AgeingRule.of(name), small_planes.Text(files)
        claim_all(text, chance, rule, moved(aged_soup(chance, side, rule.states), (chance.randint(-200, 100), chance.randint(-200, 100))), generations)
        small_planes.judge(tally, f"{side} by {side} cells, {name}", text)


def try_aged_places(tally, files):
    """Soups at all corners."""
    for name, count in AGED_PLACED:
        chance, rule, text = random.Random(count), AgeingRule.of(name), small_planes.Text(files)
        cells = aged_soup(chance, 60, rule.states)
        later = ageing.after(cells, rule, count)
        for corner in AGED_CORNERS:
            text.becomes(chance, moved(cells, corner), rule, count, moved(later, corner))
        small_planes.judge(tally, f"soups at all places, {name} by {count}", text)


def try_aged_edges(tally, files):
    """Soups beside cells that die and live at the edges and corners of bricks."""
    for name in ("345/2/4", "23/3/8", "/2/256"):
        chance, rule, text = random.Random(7), AgeingRule.of(name), small_planes.Text(files)
        for _ in range(6):
            cells = moved(aged_soup(chance, 60, rule.states), (-300, -100))
            lines = [(x, y) for i in range(-2, 6) for j in range(-4, 9) for x in (WIDE * i - 1, WIDE * i) for y in (HIGH * j - 1, HIGH * j)]
            cells |= {at: chance.randrange(1, rule.states) for at in lines if chance.random() < 0.9}
            claim_all(text, chance, rule, cells, (32, 35, 70))
        small_planes.judge(tally, f"cells at edges of bricks, {name}", text)


def try_dying(tally, files):
    """Planes of which all cells are dying: they are dead after as many generations as the youngest has left, and none of them gives birth."""
    for name in ("345/2/4", "2/2/100", "23/3/256", "/2/256"):
        chance, rule, text = random.Random(5), AgeingRule.of(name), small_planes.Text(files)
        text.lines.append(b"claims 2")
        for side in (1, 17, 90):
            cells = {(x, y): chance.randrange(2, rule.states) for x in range(side) for y in range(side) if side == 1 or chance.random() < 0.6}
            left = rule.states - min(cells.values())
            for count in sorted({1, 31, 32, 33, left - 1} & {*range(1, left)}):
                text.becomes(chance, cells, rule, count, ageing.after(cells, rule, count))
            number = f"d{len(text.lines)}"
            text.plane(number, cells, rule)
            text.claim(f"dies {number} {left}", "yes")
            text.claim(f"dies {number} {left + 40}", f"no, empty after {left}")
        small_planes.judge(tally, f"dying cells alone, {name}", text)


def try_aged_rest(tally, files):
    """Blocks, which rest, and dying cells beside them that go on to be dead."""
    chance, rule, text = random.Random(3), AgeingRule.of("23/3/200"), small_planes.Text(files)
    blocks = {(8 * i + x, 8 * j + y): 1 for i in range(20) for j in range(20) for x in (0, 1) for y in (0, 1)}
    dying = {(8 * i + 4, 8 * j + 4): chance.randrange(2, 200) for i in range(20) for j in range(20) if chance.random() < 0.7}
    claim_all(text, chance, rule, blocks | dying, (1, 32, 33, 150, 197, 198, 199, 250, AT_A_TIME + 7))
    small_planes.judge(tally, "blocks beside dying cells", text)


def try_aged_golly(tally, files):
    """Soups have as many cells that aren't dead as Golly tells."""
    if not golly.BGOLLY:
        return
    for name, count in (("23/3/8", 1025), ("345/2/4", 300), ("/2/3", 200), ("345/2/16", 400), ("/2/256", 300)):
        rule = AgeingRule.of(name)
        path = files.path("golly.rle", rle.tidy(aged_soup(random.Random(4), 80, rule.states), name, 0, rule.states))
        output = files.path("golly.mc")
        golly.save_aged(path, count, output)
        wanted, came = (re.findall(rb"cells +\d+", run(words).printed) for words in (["show", output], ["show", "--after", str(count), path]))
        tally.tell(f"as Golly: {name} by {count}", [] if wanted and wanted == came else [f"wanted {wanted}, got {came}"])


if __name__ == "__main__":
    try_all(try_rules, try_places, try_rest, try_busy, try_waking, try_gliders, try_deaths, try_apart, try_large, try_many_bricks, try_beside_far_cells,
            try_golly, try_aged_rules, try_aged_places, try_aged_edges, try_dying, try_aged_rest, try_aged_golly)
