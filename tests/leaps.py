#!/usr/bin/env -S python3 -B
"""Claims of many generations, of planes that are stepped, and of more cells than memory holds.

Each run has to end within some seconds of a processor, bounded beside those of known work. What the patterns of leaps/ become was computed by Golly
(leaps/README.md says how). The other verdicts are known from what the patterns are made of.
"""
import itertools
import math
import os
import random
import resource

from lib import macrocell, rle
from lib.claim_text import ClaimText, outcome
from lib.golly import AFTER, LEAPS
from lib.planes import distinct_squares, far_cells
from lib.parts import over, try_all
from lib.program import ROOT, Folder, contents
from lib.rows import Rows, text_of
from lib.rule_table import RINGS
from lib.work import excess, timed

# How many times the known work a run may take, and one that mostly waits for memory, which a busy machine makes slower than all else.
BOUND, WAITING = 400, 1000

# The bytes of address space that a run has which is to want memory.
SPACE = 25_000_000

# How many cells lie far apart.
CELLS = 160000

# The most generations of `becomes`, and the longest period. Cells of files lie from -FAR to FAR - 1.
FAR, LONGEST = 1 << 60, (1 << 32) - 1

# Patterns that come back, each with its period and the vector by which it is moved meanwhile.
RETURNS = (
    ("examples/glider.rle", 4, 1, 1),
    ("tests/files/lwss.rle", 4, -2, 0),
    ("tests/files/copperhead.rle", 10, 0, -1),
    ("tests/files/period_162_ship.rle", 162, 0, -10),
    ("examples/blinker.rle", 2, 0, 0),
    ("tests/files/pentadecathlon.rle", 15, 0, 0),
    ("tests/files/queen_bee_shuttle.rle", 30, 0, 0),
    ("tests/files/period_840.rle", 840, 0, 0),
)

# How many times over a period is claimed: by a prime, by powers of one, by several, and by large ones.
TIMES = (2, 3, 4, 6, 8, 9, 30, 49, 65521, 65537)

# How many states the largest circle has.
CIRCLES = 20

# Squares of 8 by 8 cells, repeated over a square of any level.
BLOCKS = "**..**..$**..**..$$$**..**..$**..**..$"

BLINKERS, UPRIGHT = "$$$..***$", "$$...*$...*$...*$"
FULL = "********$" * 8


def tiled(leaf, level):
    """A macrocell of a square of this level, made of one square of 8 by 8 cells."""
    return "\n".join(["[M2]", leaf, *(f"{up} {up - 3} {up - 3} {up - 3} {up - 3}" for up in range(4, level + 1)), ""])


def a_live_cell(tree, chance):
    """The place and state of a live cell of a tree, one among all of them."""
    square, level = tree.root, tree.level
    x = y = -(1 << (level - 1))
    while level:
        level -= 1
        at = chance.choice([at for at, part in enumerate(tree.squares.parts[square]) if part])
        square = tree.squares.parts[square][at]
        x, y = x + (at % 2 << level), y + (at // 2 << level)
    return (x, y), square


def with_state(tree, place, state):
    """The tree with another state at a place of its square."""
    x, y = (number + (1 << (tree.level - 1)) for number in place)

    def changed(square, level):
        if not level:
            return state
        parts = list(tree.squares.parts[square])
        at = (x >> (level - 1) & 1) + 2 * (y >> (level - 1) & 1)
        parts[at] = changed(parts[at], level - 1)
        return tree.squares.join(level, parts)

    return macrocell.Tree(tree.squares, changed(tree.root, tree.level), tree.level)


def without_a_cell(text, chance):
    """A macrocell without one of its live cells, the place of that cell, and its state."""
    pattern = macrocell.read(text)
    place, state = a_live_cell(pattern.tree, chance)
    left = macrocell.Pattern(with_state(pattern.tree, place, 0), pattern.rule, pattern.generation)
    return macrocell.tidy(left, max(2, 1 + pattern.tree.highest_state())), place, state


def generations(count):
    """A number of generations in words."""
    return f"{count} generation{'s' * (count != 1)}"


class Claims:
    """Claim texts in a folder of their own, and runs over them that have to end within their bounds."""

    def __init__(self, tally, folder):
        self.tally, self.files = tally, Folder(folder)

    def text(self):
        """A new claim text."""
        return ClaimText(self.files)

    def judge(self, name, text, explained=False, most=BOUND, **how):
        """Expects the verdicts of a text, and its notes where they are explained, within `most` times the known work. It answers the seconds of a processor
        that were taken."""
        came, seconds = timed(["verify", *["--explain"] * explained, text.write()], **how)
        wanted = outcome(text.answers, explained)
        complaints = [] if came == wanted else [f"wanted: {wanted}", f"got:    {came}"]
        self.tally.tell(f"{name}: {seconds:.2f} s", complaints + excess(seconds, most))
        return seconds


def judge_after(claims, name, before, rule, count):
    """A pattern is what Golly made of it, and not where one cell is another."""
    after = f"{LEAPS}/{name}_after.mc"
    changed, (x, y), state = without_a_cell(contents(os.path.join(ROOT, after)), random.Random(name))
    for other, verdict in (("after", "yes"), ("changed", f"no, cells differ after {count}")):
        text = claims.text()
        if rule:
            text.rule_path(rule)
        text.load_path("before", before)
        if other == "after":
            text.load_path(other, after)
        else:
            text.load(other, changed)
        note = f"before at {x},{y}: {state} after {generations(count)}, claimed 0" if other == "changed" else ""
        text.claim(f"becomes before {count} {other}", verdict, note)
        claims.judge(f"{name} after {count}, {other}", text, explained=True)


def claim_of(name, period, times, dx, dy):
    """The claim that a pattern is back after `times` periods."""
    if dx or dy:
        return f"spaceship {name} {period * times} {dx * times} {dy * times}"
    return f"oscillator {name} {period * times}"


def judge_returns(claims, path, period, dx, dy):
    """Multiples of a period, up to the longest, fifty-four claims about one file."""
    text = claims.text()
    text.load_path("p", path)
    again = f"no, the same after {period}, shifted by {dx},{dy}"
    most = LONGEST // period
    text.claim(claim_of("p", period, 1, dx, dy), "yes")
    chance = random.Random(period)
    for times in (*TIMES, 1 << (most.bit_length() - 1), most, *(chance.randrange(5, most) for _ in range(14))):
        text.claim(claim_of("p", period, times, dx, dy), again)
        other = f"spaceship p {period * times} {dx * times + 1} {dy * times}" if (dx, dy) != (0, 0) else f"oscillator p {period * times - 1}"
        text.claim(other, f"no, cells differ after {period * times - (not dx and not dy)}")
    text.claim("becomes p 0 p", "yes")
    claims.judge(f"{path}, {len(text.answers)} claims", text)


@over(Claims)
def try_after(claims):
    """What Golly made of patterns."""
    for it in AFTER:
        judge_after(claims, *it)


@over(Claims)
def try_returns(claims):
    """Patterns that come back."""
    for it in RETURNS:
        judge_returns(claims, *it)


@over(Claims)
def try_circles(claims):
    """Cells that go round circles of 1 to 20 states, one or two of them: a multiple of their period is that of it alone, and no other number is one."""
    first, turns, starts = 1, [], {}
    for length in range(1, CIRCLES + 1):
        starts[length] = first
        turns += [f"{first + step},0,0,0,0,{first + (step + 1) % length}" for step in range(length)]
        first += length
    text = claims.text()
    text.rule(f"@RULE Turns\n@TABLE\nn_states:{first}\nneighborhood:vonNeumann\nsymmetries:none\n" + "\n".join([*turns, ""]))
    for pair in itertools.combinations_with_replacement(starts, 2):
        name, period = "c{}_{}".format(*pair), math.lcm(*pair)
        text.load(name, rle.tidy({(3 * at, 0): starts[length] for at, length in enumerate(pair)}, "Turns", 0, first))
        for count in sorted({max(2, period), *(period * times for times in TIMES), period + 1, 2 * period + 1}):
            verdict = "yes" if count == period else f"no, the same after {period}, shifted by 0,0" if count % period == 0 else f"no, cells differ after {count}"
            text.claim(f"oscillator {name} {count}", verdict)
    claims.judge(f"circles of states, {len(text.answers)} claims", text)


def glider_at(x, y):
    """A glider with this corner."""
    return f"#CXRLE Pos={x},{y}\nx = 3, y = 3, rule = B3/S23\nbo$2bo$3o!\n"


@over(Claims)
def try_far_gliders(claims):
    """A glider after every power of four generations and more, and beyond the places that files have."""
    text = claims.text()
    text.load_path("glider", "examples/glider.rle")
    for power in range(2, 61, 2):
        count = 1 << power
        text.load(f"g{power}", glider_at(count >> 2, count >> 2))
        text.load(f"h{power}", glider_at((count >> 2) - 1, count >> 2))
        text.claim(f"becomes glider {count} g{power}", "yes")
        text.claim(f"becomes glider {count} h{power}", f"no, cells differ after {count}")
        text.claim(f"becomes glider {count - 4} g{power}", f"no, cells differ after {count - 4}")
    claims.judge("gliders from 4 generations to 2^60", text)
    text = claims.text()
    text.load_path("edge", "tests/files/edge/south_east_glider.rle")
    text.load_path("glider", "examples/glider.rle")
    text.load_path("empty", "examples/empty.rle")
    for other in ("edge", "glider", "empty"):
        text.claim(f"becomes edge {FAR} {other}", f"no, cells differ after {FAR}")
    text.claim(f"spaceship edge {LONGEST - 3} {LONGEST // 4} {LONGEST // 4}", "no, the same after 4, shifted by 1,1")
    text.claim(f"becomes empty {FAR} empty", "yes")
    text.claim(f"becomes empty {FAR} glider", f"no, cells differ after {FAR}")
    claims.judge("a glider that leaves the places of files", text)


@over(Claims)
def try_squares(claims):
    """Squares of more cells than memory holds: still lifes, oscillators, and planes that are others."""
    for level in (25, 40, 61):
        text = claims.text()
        for name, leaf in (("blocks", BLOCKS), ("lying", BLINKERS), ("upright", UPRIGHT), ("full", FULL)):
            text.load(name, tiled(leaf, level))
        text.claim("still blocks", "yes")
        text.claim("oscillator blocks 4294967295", "no, the same after 1, shifted by 0,0")
        text.claim(f"becomes blocks {FAR} blocks", "yes")
        text.claim("oscillator lying 2", "yes")
        text.claim(f"oscillator upright {LONGEST - 1}", "no, the same after 2, shifted by 0,0")
        text.claim(f"oscillator upright {LONGEST}", f"no, cells differ after {LONGEST}")
        text.claim(f"becomes lying {FAR} lying", "yes")
        text.claim(f"becomes lying {FAR - 1} upright", "yes")
        text.claim(f"becomes lying {FAR} upright", f"no, cells differ after {FAR}")
        text.claim("becomes full 0 full", "yes")
        text.claim("becomes full 0 blocks", "no, cells differ after 0")
        text.claim("still full", "no, cells differ after 1")
        text.claim("oscillator full 7", "no, cells differ after 7")
        for name in ("blocks", "lying", "full"):
            text.claim(f"spaceship {name} 4 1 1", "refused, too many cells")
        claims.judge(f"squares of level {level}", text)


@over(Claims)
def try_one_cell(claims):
    """One cell of a square of level 61 is another: it is found wherever it is, after any number of generations."""
    chance = random.Random(61)
    for leaf, name in ((BLOCKS, "blocks"), (FULL, "full")):
        changed, (x, y), state = without_a_cell(tiled(leaf, 61).encode(), chance)
        text = claims.text()
        text.load("whole", tiled(leaf, 61))
        text.load("changed", changed)
        text.claim("becomes whole 0 changed", "no, cells differ after 0", f"whole at {x},{y}: {state} after 0 generations, claimed 0")
        text.claim("becomes changed 0 whole", "no, cells differ after 0", f"changed at {x},{y}: 0 after 0 generations, claimed {state}")
        if name == "blocks":
            count = 1000000
            # a block without a cell is whole again after one generation
            text.claim(f"becomes changed {count} whole", "yes")
            text.claim("still changed", "no, cells differ after 1", f"changed at {x},{y}: 1 after 1 generation, claimed 0")
            note = f"changed at {x},{y}: 1 after {generations(count)}, claimed 0"
            text.claim(f"becomes changed {count} changed", f"no, cells differ after {count}", note)
        claims.judge(f"a cell of {name} at {x},{y}", text, explained=True)


@over(Claims)
def try_most_cells(claims):
    """A spaceship claim takes 16777216 live cells, and no more."""
    nodes = ["********$", *(f"{up} {up - 3} {up - 3} 0 0" for up in range(4, 25))]
    row = ["[M2]", *nodes, "25 0 0 0 22", ""]
    more = ["[M2]", *nodes, "*$", *(f"{up} {up + 19} 0 0 0" for up in range(4, 25)), "25 0 44 0 22", ""]
    text = claims.text()
    text.load("row", "\n".join(row))
    text.load("more", "\n".join(more))
    text.claim("spaceship row 1 1 0", "no, cells differ after 1")
    text.claim("spaceship more 1 1 0", "refused, too many cells")
    for name in ("row", "more"):
        text.claim(f"still {name}", "no, cells differ after 1")
        text.claim(f"oscillator {name} 1000", "no, cells differ after 1000")
        text.claim(f"becomes {name} 0 {name}", "yes")
    text.claim("becomes row 0 more", "no, cells differ after 0")
    claims.judge("rows of 16777216 cells and of one more", text)


@over(Claims)
def try_slides(claims):
    """Cells that move one place each generation, as far as they can: under a table whose cells take the state of the cell to the west."""
    slide = "@RULE Slide\n@TABLE\nn_states:3\nneighborhood:oneDimensional\nsymmetries:none\n" + "".join(
        f"{cell},{west},{east},{west}\n" for cell, west, east in itertools.product(range(3), repeat=3))
    text = claims.text()
    text.rule(slide)
    for name, x in (("west", -FAR), ("middle", 0), ("other", 1), ("east", FAR - 1)):
        text.load(name, f"#CXRLE Pos={x},-7\nx = 1, y = 1, rule = Slide\nB!\n")
    text.claim(f"becomes west {FAR} middle", "yes")
    text.claim(f"becomes west {FAR} other", f"no, cells differ after {FAR}")
    text.claim(f"becomes west {FAR - 1} middle", f"no, cells differ after {FAR - 1}")
    text.claim(f"becomes other {FAR - 2} east", "yes")
    text.claim(f"becomes east {FAR} east", f"no, cells differ after {FAR}")
    text.claim("spaceship east 1 1 0", "yes")
    text.claim(f"spaceship west {LONGEST} {LONGEST} 0", "no, the same after 1, shifted by 1,0")
    claims.judge("cells that slide as far as they can", text)


EIGHT, FOUR, SIX = RINGS["Moore"], RINGS["vonNeumann"], RINGS["hexagonal"]

# The places of the neighbours of a cell, of which a cell under a rule of odd counts takes the parity; the side of a soup, generations, few
# beside it and many, and how far west and north of the origin the soup begins.
PARITIES = (
    ("B1357/S1357", EIGHT, 500, 511, 0),
    ("B1357/S1357", EIGHT, 300, 65, 0),
    ("B1357/S1357", EIGHT, 301, 130, 147),
    ("B1357/S1357", EIGHT, 60, 1023, 0),
    ("B13/S13V", FOUR, 160, 255, 0),
    ("B13/S13V", FOUR, 60, 1023, 40),
    ("B135/S135H", SIX, 160, 255, 0),
    ("B135/S135H", SIX, 61, 513, 147),
)


def parity_after(rows, places, generations):
    """The rows of a plane under a rule of odd counts, each a number whose bit x is the cell at x: after 2^j generations a cell is the parity of those 2^j
    places away. The planes lie `generations` cells from the edge."""
    for j in range(generations.bit_length()):
        if not generations >> j & 1:
            continue
        after = [0] * len(rows)
        for x, y in places:
            for row, cells in enumerate(rows):
                if cells:
                    after[row + (y << j)] ^= cells << (x << j) if x >= 0 else cells >> (-x << j)
        rows = after
    return rows


@over(Claims)
def try_many_squares(claims):
    """Planes without order, of some hundred thousand squares and more: what becomes of them is known, since each generation is a sum."""
    for rule, places, side, generations, before in PARITIES:
        chance = random.Random(side)
        rows = [0] * generations + [chance.getrandbits(side) << generations for _ in range(side)] + [0] * generations
        text, corner = claims.text(), -generations - before
        text.load("soup", text_of(rule, Rows(corner, corner, rows)))
        text.load("later", text_of(rule, Rows(corner, corner, parity_after(rows, places, generations))))
        text.claim(f"becomes soup {generations} later", "yes")
        text.claim(f"becomes soup {generations - 1} later", f"no, cells differ after {generations - 1}")
        claims.judge(f"{side} by {side} cells without order, {rule}", text)


# Planes whose squares of 16 by 16 cells are all different: how many leaves each part of these may be. Their levels are 8 to 12, and the
# times of their claims are up to four times their side. One of level 14 has more than a million squares, and some millions of cells.
DENSE = ((4, 4, 4, 4), (8, 8, 4, 4), (8, 8, 8, 8), (16, 16, 8, 8), (16, 16, 16, 16))

LARGE = (32, 32, 32, 32)


@over(Claims)
def try_stepped(claims):
    """Large planes that are stepped, of which it is known what becomes: all cells die, or all stay."""
    for counts in DENSE:
        content, level = distinct_squares(counts, "B/S")
        text, longest = claims.text(), 4 << level
        text.load("plane", content)
        text.load("nothing", "x = 1, y = 1, rule = B/S\n!")
        for count in (1, 32, longest - 1, longest, longest + 1):
            text.claim(f"becomes plane {count} nothing", "yes")
        claims.judge(f"cells that die, level {level}", text)
    for counts in DENSE[:3]:
        content, level = distinct_squares(counts, "B/S012345678")
        text, longest = claims.text(), 4 << level
        text.load("plane", content)
        text.claim(f"becomes plane {longest} plane", "yes")
        text.claim(f"oscillator plane {longest - 1}", "no, the same after 1, shifted by 0,0")
        claims.judge(f"cells that stay, level {level}", text)


@over(Claims)
def try_a_million_squares(claims):
    """A plane of more than a million squares that are all different."""
    content, _ = distinct_squares(LARGE, "B/S")
    text = claims.text()
    text.load("plane", content)
    text.load("nothing", "x = 1, y = 1, rule = B/S\n!")
    text.claim("becomes plane 32 nothing", "yes")
    claims.judge("a plane of 1398132 squares", text, most=WAITING)


@over(Claims)
def try_beside_many_squares(claims):
    """A small pattern is leapt in a store that has the squares of a large one: some 7 million, of cells far apart, each of which takes 44."""
    count = 1 << 20
    text = claims.text()
    text.load_path("gun", "examples/gun.rle")
    text.load("far", far_cells(CELLS))
    text.claim(f"becomes gun {count} far", f"no, cells differ after {count}")
    claims.judge("a gun beside cells far apart", text, most=WAITING)


@over(Claims)
def try_dense_beside_sparse(claims):
    """Far gliders are leapt over, however few the generations are beside the side of their square: stepped cell by cell they take a thousand times as long."""
    text = claims.text()
    for name, dx in (("before", -20000), ("after", -10000)):
        text.load(name, f"#CXRLE Pos={dx},{dx}\nx = 1, y = 1, rule = B3/S23\nbo39998bo$2bo39998bo$3o39996b3o!\n")
    text.claim("becomes before 40000 after", "yes")
    text.claim("becomes before 39999 after", "no, cells differ after 39999")
    claims.judge("two far gliders", text, most=5)


@over(Claims)
def try_settled(claims):
    """A dense plane that doesn't change takes a small part of the time of one that goes on changing."""
    seconds = {}
    for name, rule in (("all cells stay", "B/S012345678"), ("without end", "B1357/S1357")):
        content, _ = distinct_squares((8, 8, 8, 8), rule)
        text = claims.text()
        text.load("plane", content)
        text.load("nothing", f"x = 1, y = 1, rule = {rule}\n!")
        text.claim("becomes plane 960 nothing", "no, cells differ after 960")
        seconds[name] = claims.judge(f"a dense plane, {name}", text)
    claims.tally.tell("settled beside changing", [] if seconds["all cells stay"] < 0.15 * seconds["without end"] else [str(seconds)])


@over(Claims)
def try_want_of_memory(claims):
    """A plane that grows without order, of which no memory holds the generations: its claim is refused alone."""
    chance = random.Random(2)
    rows = ["".join(chance.choice("bbo") for _ in range(60)) for _ in range(60)]
    text = claims.text()
    text.load("soup", f"x = 60, y = 60, rule = B2/S\n{'$'.join(rows)}!\n")
    text.load_path("block", "examples/block.rle")
    for claim, verdict in (("still block", "yes"), (f"becomes soup {FAR} soup", "refused, memory"), (f"becomes block {FAR} block", "yes"),
                           (f"oscillator soup {LONGEST}", "refused, memory"), (f"spaceship soup {LONGEST} 1 1", "refused, memory"), ("still block", "yes")):
        text.claim(claim, verdict)
    claims.judge("want of memory", text, most=WAITING, preexec_fn=lambda: resource.setrlimit(resource.RLIMIT_AS, (SPACE, SPACE)))


if __name__ == "__main__":
    try_all(try_after, try_returns, try_circles, try_far_gliders, try_squares, try_one_cell, try_most_cells, try_slides, try_many_squares, try_stepped,
            try_a_million_squares, try_beside_many_squares, try_dense_beside_sparse, try_settled, try_want_of_memory)
