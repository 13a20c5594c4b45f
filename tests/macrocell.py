#!/usr/bin/env -S python3 -B
"""Macrocell files, shown, converted and judged: small texts, faulty and good, random planes, and texts of millions of nodes.

What is wrong with each faulty text was computed by hand, and so were the cells of the good ones. What random planes come to is given by the naive reader and
writer of tests/lib/macrocell.py. Large texts have to be shown, converted or refused within some seconds of a processor, bounded beside those of known work, and
what is converted has to come back byte for byte.
"""
import os
import random
import re

from lib import macrocell, rle, steps
from lib.claim_table import ClaimTable
from lib.macrocell import EDGE
from lib.macrocell_texts import CELL, FAULTS, FOURFOLD, FULL_LEAF, FULL_SQUARE, NORTH_EAST, NORTH_WEST, SOUTH_EAST, TWO_BY_TWO, Sloppy, chain, header
from lib.planes import distinct_leaves
from lib.parts import over, try_all
from lib.program import MAX_FILE, Folder, Runs, ample, fault, figures, lines_outcome, run
from lib.work import excess, timed


def at(corner, *places):
    """Live cells at these places, from a corner."""
    return {(corner[0] + x, corner[1] + y): 1 for x, y in places}


BLOCK = {(0, 0): 1, (1, 0): 1, (0, 1): 1, (1, 1): 1}

# Whole texts, and their live cells, generation and printed rule where it isn't B3/S23.
GOOD = (
    ("[M2]", {}, 0), ("[M2]\n", {}, 0), ("[M2]x = 3, y = 3\n", {}, 0), ("[M2] (golly 4.2)\r\n", {}, 0), ("[M2]4 0 0 0\n\n \t\n\r\n", {}, 0),
    ("[M2]\n120 0 0 0 0", {}, 0), ("[M2]\n2 0 0 0 0\n3 1 1 1 1\n", {}, 0), ("[M2]\n.", {}, 0), ("[M2]\n$", {}, 0), ("[M2]\n1 0 0 0 0", {}, 0),
    ("[M2]\n........$\n4 1 1 1 1\n", {}, 0), ("[M2]\n$$$$$$$$\n", {}, 0),
    # comments
    ("[M2]\n#\n#C c\n##FRAMES 2\n# FRAMES 2\n#FRAM\n#frames\n#Cfoo\n#r 1/2\n#CXRLE Pos=9,9 Gen=9\n", {}, 0),
    ("[M2]\n#R\n#R \n#Rfoo\n#RB2/S\n#r B2/S\n#R\t\r\n", {}, 0), ("[M2]\n#G\n#Gx\n#G4\n#g 4\n#G \t\n", {}, 0),
    # later values, and what follows the rule
    ("[M2]\n#R B2/S\n#R B3/S23 and more\n#G 4\n#G 7\n#R\n#G\n", {}, 7), ("[M2]\n#R B3/S23\n*$\n #R\t23/36\t#\n", at((-4, -4), (0, 0)), 0, "B36/S23"),
    ("[M2]\n#G 9223372036854775807\n", {}, 9223372036854775807), ("[M2]\n#G 00000000000000000000000000000000000000000000000000000000000000000007\n", {}, 7),
    ("[M2]\n#G 9\n#G 000\n", {}, 0), ("[M2]\n#R s23b3\n#R S32/B33\n", {}, 0),
    # a leaf is a root of level 3: its upper left cell is at -4,-4
    ("[M2]\n*", at((-4, -4), (0, 0)), 0), ("[M2]\n*$\n", at((-4, -4), (0, 0)), 0), ("[M2]\n*$$$$$$$$", at((-4, -4), (0, 0)), 0),
    ("[M2]\n.......*\n", at((-4, -4), (7, 0)), 0), ("[M2]\n$$$$$$$.......*$\n", at((-4, -4), (7, 7)), 0),
    ("[M2]\n$$$$$$$.......*", at((-4, -4), (7, 7)), 0),
    ("[M2]\n$$*.*.....$$\n", at((-4, -4), (0, 2), (2, 2)), 0), ("[M2]\n  *.*\t \r\n", at((-4, -4), (0, 0), (2, 0)), 0),
    ("[M2]\n$$$$....**$....**$\n", BLOCK, 0),
    ("[M2]\n" + "********$" * 8, {(x, y): 1 for x in range(-4, 4) for y in range(-4, 4)}, 0),
    # a square of level 1 has four states, of which the first is at -1,-1
    ("[M2]\n1 1 0 0 0", {(-1, -1): 1}, 0), ("[M2]\n1 0 1 0 0", {(0, -1): 1}, 0), ("[M2]\n1 0 0 1 0", {(-1, 0): 1}, 0), ("[M2]\n1 0 0 0 1", {(0, 0): 1}, 0),
    ("[M2]\n0001 0 00 000 0001\n", {(0, 0): 1}, 0), ("[M2]\n \t1\t0\r0  0 1\r \r\n", {(0, 0): 1}, 0), ("[M2]\n1 0 0 0 1\r\r\r\n", {(0, 0): 1}, 0),
    ("[M2]\n1 1 1 1 1\n2 0 0 0 1\n", BLOCK, 0), ("[M2]\n1 1 1 1 1\n2 1 0 0 0\n", at((-2, -2), *BLOCK), 0),
    ("[M2]\n1 1 1 1 1\n2 0 1 0 0\n", at((0, -2), *BLOCK), 0),
    ("[M2]\n1 1 1 1 1\n2 0 0 1 0\n", at((-2, 0), *BLOCK), 0),
    # comments and blank lines have no number, and empty squares have one
    ("[M2]\n#C 1\n1 0 0 0 0\n\n#C 2\n1 0 0 0 1\n#C 3\n2 0 0 0 2\n", {(1, 1): 1}, 0),
    # nodes that the root doesn't reach, and a root that stands twice
    ("[M2]\n1 0 0 0 1\n1 0 0 0 200\n*$\n2 1 0 0 0\n", {(-1, -1): 1}, 0), ("[M2]\n1 0 0 0 1\n1 0 0 0 1\n", {(0, 0): 1}, 0),
    (f"[M2]\n{FULL_SQUARE}62 59 59 59 59\n*$\n", at((-4, -4), (0, 0)), 0), ("[M2]\n*$\n4 0 0 0 0\n", {}, 0),
    # at the edge of the range, and high roots
    (f"[M2]\n{NORTH_WEST}61 58 0 0 0\n", {(-EDGE, -EDGE): 1}, 0), (f"[M2]\n{NORTH_EAST}61 0 0 0 58\n", {(EDGE - 1, 0): 1}, 0),
    (f"[M2]\n{SOUTH_EAST}61 0 0 0 58\n", {(EDGE - 1, EDGE - 1): 1}, 0), (f"[M2]\n{SOUTH_EAST}61 58 0 0 0\n62 0 0 0 59\n", {(EDGE - 1, EDGE - 1): 1}, 0),
    (f"[M2]\n{SOUTH_EAST}61 0 58 0 0\n", {(EDGE - 1, -1): 1}, 0), (f"[M2]\n{SOUTH_EAST}61 0 0 0 58\n62 59 0 0 0\n", {(-1, -1): 1}, 0),
    (f"[M2]\n{chain(('*$', 3), '{} 0 0 0', 119, '')}120 0 0 0 117\n", {(0, 0): 1}, 0),
    (f"[M2]\n{chain(('$$$$$$$.......*$', 3), '0 0 0 {}', 119, '')}120 117 0 0 0\n", {(-1, -1): 1}, 0),
)

# A text, cut after each of its bytes.
GLIDER = b"[M2] (cafile)\n#R B3/S23\n.*$..*$***$$$$$$\n4 0 0 0 1\n"

# The tables of random planes' rules: name and states.
TABLES = {"Two": 2, "Three": 3, "Wide": 256}

# Rule texts, their printed form, and the file and states of tables.
RULES = (("B3/S23", "B3/S23", None, 2), ("s6/b5h", "B5/S6H", None, 2), ("23/3", "B3/S23", None, 2),
         *((name, name, name, states) for name, states in TABLES.items()))

# How many times the known work a run may take.
MOST_WORK = 400


def two_patterns(to):
    """Two squares of each level, each made of both of the level below: those of 2 by 2 have two cells each."""
    lines = ["[M2]", "1 1 0 0 1", "1 0 1 1 0"]
    for level in range(2, to + 1):
        one = 2 * level - 3
        lines += [f"{level} {one} {one + 1} {one + 1} {one}", f"{level} {one + 1} {one} {one} {one + 1}"]
    return "\n".join(lines) + "\n"


def deep_two():
    """A square of level 61 in which one cell is of state 2, and each other of state 1."""
    lines = ["[M2]", "1 1 1 1 1", "1 1 2 1 1"]
    for level in range(2, 62):
        one = 2 * level - 3
        lines += [f"{level} {one} {one} {one} {one}", f"{level} {one} {one} {one + 1} {one}"]
    return "\n".join(lines) + "\n"


def all_fours(states):
    """As many different squares of four live cells as a file has room for, and a square of level 2 whose last part is the last of them."""
    tails = [f"{sw} {se}\n" for sw in range(1, states) for se in range(1, states)]
    pieces, size, count = [f"[M2]\n#R /2/{states}\n"], 100, 0
    for heads in (f"1 {nw} {ne} " for nw in range(1, states) for ne in range(1, states)):
        pieces.append(heads + heads.join(tails))
        size, count = size + len(pieces[-1]), count + len(tails)
        if size + len(pieces[-1]) > MAX_FILE:
            break
    return "".join([*pieces, f"2 0 0 0 {count}\n"])


def bad(kind):
    """The outcome of a faulty macrocell."""
    return fault(f"bad pattern: macrocell {kind}")


ONE_LEAF = figures(0, 1, "-4 -4 1 1")
ALL = f"-{EDGE} -{EDGE} {2 * EDGE} {2 * EDGE}"
TOO_MANY = fault("too many cells")

# Texts, and what `show` comes to.
LARGE_TEXTS = (
    ("a million leaves", lambda: "[M2]\n" + "*.*$\n" * 1000000, figures(0, 2, "-4 -4 3 1")),
    ("a million full leaves", lambda: "[M2]\n" + ("********$" * 8 + "\n") * 900000, figures(0, 64, "-4 -4 8 8")),
    ("22 million leaves", lambda: "[M2]\n" + "*$\n" * (MAX_FILE // 3 - 2), ONE_LEAF),
    ("5 million squares of four cells, all different", lambda: all_fours(50), figures(0, 4, "0 0 2 2", rule="/2/50")),
    ("6 million squares of level 2", lambda: "[M2]\n1 1 0 0 0\n" + "2 1 0 0 0\n" * (MAX_FILE // 10 - 2), figures(0, 1, "-2 -2 1 1")),
    ("a million squares of one level", lambda: "[M2]\n" + "*$\n" + "4 1 1 1 1\n" * 1000000, figures(0, 4, "-8 -8 9 9")),
    ("a million empty squares", lambda: "[M2]\n" + "120 0 0 0 0\n" * 1000000, figures(0, 0, "none")),
    ("one cell at level 119, the root at 120", lambda: chain(CELL, "{} 0 0 0", 119) + "120 0 0 0 117\n", figures(0, 1, "0 0 1 1")),
    ("the full square of level 61", lambda: chain(FULL_LEAF, FOURFOLD, 61), figures(0, 4 * EDGE * EDGE, ALL)),
    ("the full square of level 61, from 2 by 2 on", lambda: chain(TWO_BY_TWO, FOURFOLD, 61), figures(0, 4 * EDGE * EDGE, ALL)),
    ("the full square of level 62", lambda: chain(FULL_LEAF, FOURFOLD, 62), bad("range")),
    ("the full square of level 120", lambda: chain(FULL_LEAF, FOURFOLD, 120), bad("range")),
    ("the full square of level 121", lambda: chain(FULL_LEAF, FOURFOLD, 121), bad("level")),
    ("a diagonal of 2^61 cells", lambda: chain(("1 1 0 0 1", 1), "{0} 0 0 {0}", 61), figures(0, 2 * EDGE, ALL)),
    ("a diagonal of 2^120 cells", lambda: chain(("1 1 0 0 1", 1), "{0} 0 0 {0}", 120), bad("range")),
    ("two squares of each level to 61", lambda: two_patterns(61), figures(0, 2 * EDGE * EDGE, ALL)),
    ("two squares of each level to 120", lambda: two_patterns(120), bad("range")),
    ("states of 2 everywhere", lambda: chain(("1 2 2 2 2", 1), FOURFOLD, 61), fault("state too large")),
    ("one state of 2 among 2^122 cells", deep_two, fault("state too large")),
    ("a node number of 40 digits", lambda: "[M2]\n*$\n4 0 0 0 " + "9" * 40, bad("forward")),
    ("a node number of a million digits", lambda: "[M2]\n*$\n4 0 0 0 1" + "0" * 1000000, bad("forward")),
    ("a node number after a million zeros", lambda: "[M2]\n*$\n4 0 0 0 " + "0" * 1000000 + "1", figures(0, 1, "0 0 1 1")),
    ("a level of a million digits", lambda: "[M2]\n" + "4" * 1000000 + " 0 0 0 0", bad("level")),
    ("a level after a million zeros", lambda: "[M2]\n*$\n" + "0" * 1000000 + "4 0 0 0 1", figures(0, 1, "0 0 1 1")),
    ("a state of a million digits", lambda: "[M2]\n1 0 0 0 " + "1" * 1000000, bad("syntax")),
    ("a generation of a million digits", lambda: "[M2]\n*$\n#G " + "1" * 1000000, bad("gen too large")),
    ("a generation after a million zeros", lambda: "[M2]\n*$\n#G " + "0" * 1000000 + "7", figures(7, 1, "-4 -4 1 1")),
    ("a million numbers in a line", lambda: "[M2]\n*$\n" + "1 " * 1000000, bad("syntax")),
    ("a leaf of a million cells", lambda: "[M2]\n" + "*" * 1000000, bad("leaf size")),
    ("a leaf of a million rows", lambda: "[M2]\n" + "$" * 1000000, bad("leaf size")),
    ("a leaf between a million blanks each", lambda: "[M2]\n" + " " * 1000000 + "*$" + "\t" * 1000000 + "\r\n", ONE_LEAF),
    ("a word of a million bytes", lambda: "[M2]\n" + "x" * 1000000, bad("syntax")),
    ("a million comments", lambda: "[M2]\n*$\n" + "#C a comment\n" * 1000000, ONE_LEAF),
    ("a comment of ten million bytes", lambda: "[M2]\n*$\n#" + "#" * 10000000, ONE_LEAF),
    ("ten million empty lines", lambda: "[M2]\n*$\n" + "\n" * 10000000, ONE_LEAF),
    ("a million rules and generations", lambda: "[M2]\n*$\n" + "#R Life\n#G 7\n" * 1000000 + "#R 23/3\n", figures(7, 1, "-4 -4 1 1")),
    ("a rule of a million digits", lambda: "[M2]\n*$\n#R B" + "3" * 1000000 + "/S23", ONE_LEAF),
    ("a rule of a million bytes", lambda: "[M2]\n*$\n#R " + "L" * 1000000, fault("bad rule: unknown")),
    ("a first line of 67108800 bytes", lambda: "[M2]" + "*" * 67108796 + "\n*$\n", ONE_LEAF),
    ("a fault after a million nodes", lambda: "[M2]\n" + "*$\n" * 1000000 + "4 1 1 1 1000001\n", bad("forward")),
    ("the last of a million nodes", lambda: "[M2]\n" + "*$\n" * 1000000 + "4 0 0 0 1000000\n", figures(0, 1, "0 0 1 1")),
    ("a node number and 2^32 or 2^64 more", lambda: "[M2]\n" + "*$\n" * 70000 + "4 0 0 0 65536\n4 0 0 0 18446744073709551617\n", bad("forward")),
)


class FileRuns(Runs):
    """Runs over a file that is written for them, which is FILE in their words."""

    def of(self, text, words, wanted, name="plane"):
        """Runs the program over a file of this text, and expects this."""
        path = self.path(name, text)
        self.expect(repr(text[:1500]), [path if word == "FILE" else word for word in words], wanted)


def try_faults(tally, files):
    """Texts with a fault, shown, converted and judged."""
    runs, table = FileRuns(files.folder), ClaimTable(files.folder)
    for kind, bodies in FAULTS.items():
        for body in bodies:
            text = b"[M2]\n" + body.encode("latin-1")
            runs.of(text, ["show", "FILE"], fault(f"bad pattern: macrocell {kind}"))
            table.still(text, f"refused, bad pattern: macrocell {kind}")
            try:
                macrocell.read(text)
                tally.tell(f"the naive reader, of {body!r}", ["it found no fault"])
            except macrocell.Fault as it:
                if it.kind != kind:
                    tally.tell(f"the naive reader, of {body!r}", [f"it found {it.kind} in place of {kind}"])
    runs.tell(tally, "faulty macrocell texts, shown")
    table.judge(tally, "faulty macrocell texts, judged")


def try_good(tally, files):
    """Texts without a fault: their figures, and both formats of their planes."""
    runs = FileRuns(files.folder)
    for text, cells, generation, *rule in GOOD:
        pattern = macrocell.Pattern(macrocell.tree_of(cells), *(rule or ["B3/S23"]), generation)
        runs.of(text.encode(), ["show", "FILE"], ample(pattern.shown()))
        runs.of(text.encode(), ["convert", "FILE", "--to", "rle"], ample(rle.tidy(cells, pattern.rule, generation, 2)))
        runs.of(text.encode(), ["convert", "FILE", "--to", "mc"], ample(macrocell.tidy(pattern, 2)))
    runs.tell(tally, "macrocell texts without a fault")


def cut_glider(length):
    """What `show` comes to, of the glider's text cut to this length; computed by hand."""
    if length < 4:
        return fault("bad pattern: rle header")
    if 42 <= length <= 49:
        return fault("bad pattern: macrocell syntax")
    # a rule text that is cut: B, B3, B3/
    if 18 <= length <= 20:
        return fault("bad rule: unknown")
    rule = {21: "B3/S", 22: "B3/S2"}.get(length, "B3/S23")
    count = next(count for least, count in ((34, 5), (33, 4), (32, 3), (30, 2), (26, 1), (0, 0)) if length >= least)
    # a leaf without the line after it is a root by itself
    corner = (0, 0) if length >= 50 else (-4, -4)
    box = {0: "none", 1: "1 0 1 1", 2: "1 0 2 2", 3: "0 0 3 3", 4: "0 0 3 3", 5: "0 0 3 3"}[count]
    if count:
        x, y, *size = map(int, box.split())
        box = " ".join(map(str, (x + corner[0], y + corner[1], *size)))
    return figures(0, count, box, rule=rule)


def try_cut_texts(tally, files):
    """A macrocell and an RLE cut after each byte, and RLE bodies of one byte and an end."""
    runs = FileRuns(files.folder)
    for length in range(len(GLIDER) + 1):
        runs.of(GLIDER[:length], ["show", "FILE"], cut_glider(length))
    runs.tell(tally, "a macrocell text cut short")
    text = b"x = 3, y = 3, rule = B3/S23\nb2o$2o$bo!"
    for length in range(len(text)):
        told = "no end" if length == 12 or length >= 20 else "header"
        runs.of(text[:length], ["show", "FILE"], fault(f"bad pattern: rle {told}"))
    runs.of(text, ["show", "FILE"], figures(0, 5, "0 0 3 3", "rle"))
    runs.tell(tally, "an RLE text cut short")
    wide = runs.path("Wide", table_file("Wide"))
    for byte in range(256):
        wanted = fault("bad pattern: rle syntax")
        if byte in b"b.o$! \t\r\nABCDEFGHIJKLMNOPQRSTUVWX":
            is_live = byte in b"oABCDEFGHIJKLMNOPQRSTUVWX"
            wanted = figures(0, int(is_live), "0 0 1 1" if is_live else "none", "rle", "Wide")
        elif byte in b"#":
            wanted = fault("bad pattern: rle no end")
        runs.of(b"x = 3, y = 3, rule = Wide\n" + bytes([byte]) + b"!", ["show", "FILE", "--rule", wide], wanted)
    runs.tell(tally, "RLE bodies of one byte")


def table_file(name):
    """The rule file of a table in which nothing changes."""
    return f"@RULE {name}\n@TABLE\nn_states:{TABLES[name]}\nneighborhood:Moore\nsymmetries:none\n".encode()


def random_cells(chance, states):
    """Live cells near each other and far, in few places and many, up to the edge of the range."""
    cells = {}
    for _ in range(chance.choice((0, 1, 1, 2, 3, 5))):
        reach = 1 << chance.choice((0, 1, 2, 3, 4, 6, 9, 20, 45, 60))
        x, y = (max(-EDGE, min(EDGE - 1, chance.choice((0, -EDGE, EDGE - 1, chance.randrange(-reach, reach))))) for _ in "xy")
        side = chance.choice((1, 2, 4, 8, 9, 20))
        share = chance.choice((0.05, 0.3, 0.6, 1))
        few = chance.choice((1, 2, states - 1))
        for place in ((x + dx, y + dy) for dx in range(side) for dy in range(side)):
            if max(place) < EDGE and chance.random() < share:
                cells[place] = chance.randrange(1, min(few, states - 1) + 1) if few < states - 1 else chance.randrange(1, states)
    return cells


def sloppy_items(chance, text, rule):
    """An RLE text of the same plane as this tidy one: with runs that are cut, other tags, white space and comments, and numbers that bound nothing."""
    corner, _, *lines = text.decode("latin-1").split("\n")
    written = [chance.choice(("", "#N a plane\r\n", " #CXRLE Pos=5,-5\n\n")), corner, f"\nx=0 , y = 7,rule={rule} or another\n"]
    for count, tag in re.findall(r"(\d*)([p-y]?[A-X]|[b.o$!])", "".join(lines)):
        left = int(count or 1)
        while left:
            part = chance.randrange(1, left + 1) if chance.random() < 0.3 else left
            left -= part
            for it in ("" if tag == "!" or (part == 1 and chance.random() < 0.9) else f"{chance.choice(('', '', '00'))}{part}", tag):
                written += [chance.choice(("",) * 12 + ("\n", " ", "\r\n", "\n #C 3o!\n", "\t\n#CXRLE Pos=9,9\r\n")), it]
        if tag in "b.oA":
            written[-1] = chance.choice("b." if tag in "b." else "oA")
    return ("".join(written) + chance.choice(("", "\n", "o!", "\n0\n"))).encode("latin-1")


def claim_of(table, chance, pattern, text):
    """Claims of a text that its plane is the pattern's, isn't one of a cell less, and becomes what naive steps come to."""
    cells, rule = pattern.tree.cells(), pattern.rule
    table.becomes(text, 0, rle.tidy(cells, rule, 0, 2))
    later = steps.steps(cells, steps.Counting(rule), 2)
    if all(-EDGE <= it < EDGE for place in later for it in place):
        table.becomes(text, 2, rle.tidy(later, rule, 0, 2))
    if cells:
        lost = chance.choice(list(cells))
        table.becomes(text, 0, rle.tidy({place: 1 for place in cells if place != lost}, rule, 0, 2), "no, cells differ after 0")


def try_random_planes(tally, files):
    """Random planes: shown, converted each way, and back again, and judged."""
    chance, runs, table_of_claims = random.Random(1), FileRuns(files.folder), ClaimTable(files.folder)
    for name in TABLES:
        runs.path(name, table_file(name))
    for _ in range(100):
        rule, printed, table, states = chance.choice(RULES)
        cells = random_cells(chance, states)
        pattern = macrocell.Pattern(macrocell.tree_of(cells), printed, chance.choice((0, 0, 1, 77, (1 << 63) - 1)))
        more = ["--rule", os.path.join(files.folder, table)] if table else []
        level = min(macrocell.HIGHEST_LEVEL, max(1, pattern.tree.level) + chance.choice((0, 0, 1, 2, 7, 59)))
        sloppy = Sloppy(chance, pattern.tree.squares).text(pattern.tree.fitted(level), rule, pattern.generation)
        tidy, items = macrocell.tidy(pattern, states), rle.tidy(cells, pattern.rule, pattern.generation, states)
        if not table:
            claim_of(table_of_claims, chance, pattern, sloppy)
        for text, kind in ((sloppy, "macrocell"), (tidy, "macrocell"), (sloppy_items(chance, items, rule), "rle"), (items, "rle")):
            runs.of(text, ["show", "FILE", *more], ample(pattern.shown(kind=kind)))
            runs.of(text, ["convert", "FILE", "--to", "mc", *more], ample(tidy))
            runs.of(text, ["convert", "FILE", "--to", "rle", *more], ample(items))
    runs.tell(tally, "random planes, shown and converted")
    table_of_claims.judge(tally, "random planes, judged")


def mutilated(chance, text):
    """The text with a small change or two after its first line."""
    for _ in range(chance.randint(1, 2)):
        numbers = list(re.compile("[0-9]+").finditer(text, text.index("\n")))
        if numbers and chance.random() < 0.5:
            number = chance.choice(numbers)
            text = text[: number.start()] + str(chance.choice((0, 1, 2, 3, 4, 5, 120, 121, 255, 256, int(number[0]) + 1))) + text[number.end() :]
            continue
        place = chance.randrange(text.index("\n") + 1, len(text) + 1)
        pieces = [*"0011223456789.*$$ #\n\t\r", "\n#G 4", "\n#FRAME", "00", "99999999999999999999", "\n1 0 1 0 0", "\n*$", "x", "-", "", "", ""]
        piece = chance.choice(pieces)
        text = text[:place] + piece + text[place + chance.choice((0, 1, 1, 1, 3, 12)) :]
    lines = text.split("\n")
    if chance.random() < 0.2 and len(lines) > 3:
        one, other = chance.randrange(1, len(lines)), chance.randrange(1, len(lines))
        lines[one], lines[other] = lines[other], lines[one]
    return "\n".join(lines)


def try_mutilated_texts(tally, files):
    """Texts with random changes: the program has to tell what the naive reader tells."""
    chance, runs, kinds = random.Random(2), FileRuns(files.folder), {}
    while sum(kinds.values()) < 400:
        tree = macrocell.tree_of(random_cells(chance, 2))
        text = Sloppy(chance, tree.squares).text(tree.fitted(tree.level + chance.randrange(3)), "B3/S23", 0).decode()
        if len(text) > 3000:
            continue
        text = mutilated(chance, text).encode()
        try:
            pattern = macrocell.read(text)
            kind, wanted = "good", ample(pattern.shown())
            if pattern.rule != "B3/S23":
                continue
            if pattern.tree.highest_state() > 1:
                kind, wanted = "state too large", fault("state too large")
        except macrocell.Fault as it:
            kind, wanted = it.kind, fault(f"bad pattern: macrocell {it.kind}")
        runs.of(text, ["show", "FILE"], wanted)
        kinds[kind] = kinds.get(kind, 0) + 1
    told = ", ".join(f"{number} {kind}" for kind, number in sorted(kinds.items()))
    runs.tell(tally, f"mutilated macrocell texts ({told})")


class LargeTexts(Folder):
    """Files in a folder of their own, and runs over them that have to end within the bound."""

    def __init__(self, tally, folder):
        super().__init__(folder)
        self.tally = tally

    def expect(self, name, words, wanted):
        """Runs the program. It fails the test too where it takes longer than the bound."""
        outcome, seconds = timed(words)
        complaints = [] if outcome == wanted else [f"wanted: {wanted}", f"got:    {outcome}"]
        self.tally.tell(f"{name}, {words[0]}: {seconds:.2f} s", complaints + excess(seconds, MOST_WORK))
        return outcome.printed

    def shown(self, name, text, wanted):
        """Expects this of `show`."""
        self.expect(name, ["show", self.path("shown", text)], wanted)

    def converted(self, name, text, kind, wanted):
        """Expects this text of `convert`."""
        return self.expect(f"{name}, to {kind}", ["convert", self.path("converted", text), "--to", kind], wanted)

    def round_trip(self, name, text, kind, cells, box):
        """Converts a tidy text of this kind to the other and back, and to its own; and compares the figures of each."""
        other = "rle" if kind == "mc" else "mc"
        self.converted(name, text, kind, ample(text))
        path = self.path("there", text)
        between = run(["convert", path, "--to", other])
        self.tally.tell(f"{name}, to {other}", [] if (between.complaint, between.status) == (b"", 0) else [str(between)])
        self.converted(f"{name}, and back", between.printed, kind, ample(text))
        for it, words in ((text, kind), (between.printed, other)):
            self.shown(f"{name}, {words}", it, figures(0, cells, box, "rle" if words == "rle" else "macrocell"))
        loads = f"load a {path}\nload b {self.path('back', between.printed)}\n"
        self.expect(f"{name}, in both formats", ["verify", self.path("text.claims", loads + "becomes a 0 b\n")], lines_outcome([(3, "yes")]))


@over(LargeTexts)
def try_large_texts(texts):
    """Texts of many squares, many levels and long lines."""
    for name, text, wanted in LARGE_TEXTS:
        texts.shown(name, text(), wanted)


@over(LargeTexts)
def try_after(texts):
    """A generation of a square among 5 million others, which its end is copied from. The lower two of its cells have the last state and die; the others age."""
    path = texts.path("after", all_fours(50))
    texts.expect("5 million squares of four cells, after a generation", ["show", path, "--after", "1"], figures(1, 2, "0 0 2 1", rule="/2/50"))


@over(LargeTexts)
def try_far_cells(texts):
    """Cells at both ends of the range, and long diagonals and squares, of as many cells as an RLE may have and of more."""
    lines = []
    for first, parts in (("*$$$$$$$$", "{} 0 0 0"), (".......*$$$$$$$$", "0 {} 0 0"), ("$$$$$$$*$", "0 0 {} 0"), ("$$$$$$$.......*$", "0 0 0 {}")):
        lines += [first, *(f"{level} {parts.format(len(lines) + level - 3)}" for level in range(4, 61))]
    corners = header("mc") + "\n".join([*lines, "61 58 116 174 232\n"]).encode()
    items = header("rle", -EDGE, -EDGE, 2 * EDGE, 2 * EDGE) + f"o{2 * EDGE - 2}bo{2 * EDGE - 1}$o{2 * EDGE - 2}bo!\n".encode()
    texts.round_trip("cells at the corners of the range", corners, "mc", 4, ALL)
    texts.converted("cells at the corners of the range", corners, "rle", ample(items))
    side = 1 << 20
    items = [item for y in range(side) for item in ((f"{y}b" if y > 1 else "b" * y), "o", "$")]
    diagonal = header("rle", -side // 2, -side // 2, side, side) + rle.folded([*filter(None, items[:-1]), "!"]).encode() + b"\n"
    texts.converted("a diagonal of 2^20 cells", chain(("1 1 0 0 1", 1), "{0} 0 0 {0}", 20), "rle", ample(diagonal))
    square = header("rle", -2048, -2048, 4096, 4096) + rle.folded(["4096o", "$"] * 4095 + ["4096o", "!"]).encode() + b"\n"
    tree = header("mc") + chain(FULL_LEAF, FOURFOLD, 12, "").encode()
    texts.converted("a square of 16777216 cells", square, "mc", ample(tree))
    texts.converted("a square of 16777216 cells", tree, "rle", ample(square))
    for level in (13, 24, 25, 61):
        texts.converted(f"a full square of level {level}", chain(FULL_LEAF, FOURFOLD, level), "rle", TOO_MANY)
    full = header("mc") + chain(FULL_LEAF, FOURFOLD, 61, "").encode()
    texts.converted("the full square of level 61", full, "mc", ample(full))
    texts.converted("a diagonal of 2^61 cells", chain(("1 1 0 0 1", 1), "{0} 0 0 {0}", 61), "rle", TOO_MANY)


@over(LargeTexts)
def try_rows(texts):
    """A row of 16777216 cells, and one of a cell more."""
    count = 1 << 24
    row = header("mc") + chain(("********$$$$$$$$", 3), "{0} {0} 0 0", 24, "").encode()
    items = header("rle", 0, 0, count, 1) + b"16777216o!\n"
    texts.converted("a row of 16777216 cells", items, "mc", ample(row + b"25 0 0 0 22\n"))
    texts.converted("a row of 16777216 cells", row + b"25 0 0 0 22\n", "rle", ample(items))
    more = row + b"*$\n" + "".join(f"{level} {level + 19} 0 0 0\n" for level in range(4, 25)).encode() + b"25 0 44 0 22\n"
    texts.shown("a cell more", more, figures(0, count + 1, f"0 -{count} {count} {count + 1}"))
    texts.converted("a cell more", more, "rle", TOO_MANY)
    loads = f"load more {texts.path('more.mc', more)}\nload block examples/block.rle\n"
    texts.expect("a cell more", ["verify", texts.path("text.claims", loads + "spaceship more 1 1 0\nbecomes block 0 more\nstill block\n")],
                 lines_outcome([(3, "refused, too many cells"), (4, "no, cells differ after 0"), (5, "yes")]))


@over(LargeTexts)
def try_many_nodes(texts):
    """Files of 100000 and 500000 nodes, all different, with millions of cells."""
    # The upper left quarter of the root, and a fourth or a half of its upper right one; right-most and lowest leaves are those of all ones.
    for count, level, across, down in ((81920, 12, 384, 256), (393216, 13, 1024, 512)):
        lines, cells = distinct_leaves(count, level)
        half, width, height = 1 << (level - 1), 8 * (across - 1) + 6, 8 * (down - 1) + 4
        text = header("mc") + ("\n".join(lines) + "\n").encode()
        texts.round_trip(f"{len(lines)} nodes and {cells} cells", text, "mc", cells, f"-{half} -{half} {width} {height}")


@over(LargeTexts)
def try_soups(texts):
    """A random plane of 3 million cells, and one of 256 states."""
    chance = random.Random(3)
    rows = ["o" + "".join(chance.choices("bo", (1, 3), k=1998)) + "o" for _ in range(2000)]
    text = header("rle", 0, 0, 2000, 2000) + rle.folded(rle.items_of("$".join(rows) + "!")).encode() + b"\n"
    texts.round_trip("a random plane", text, "rle", sum(row.count("o") for row in rows), "0 0 2000 2000")
    table = texts.path("Wide", "@RULE Wide\n@TABLE\nn_states:256\nneighborhood:Moore\nsymmetries:none\n")
    cells = {(x, y): chance.randrange(1, 256) for x in range(500) for y in range(500) if chance.random() < 0.8}
    text = rle.tidy(cells, "Wide", 5, 256)
    there = run(["convert", texts.path("wide.rle", text), "--to", "mc", "--rule", table])
    texts.expect("a random plane of 256 states, and back", ["convert", texts.path("wide.mc", there.printed), "--to", "rle", "--rule", table],
                 ample(text))


if __name__ == "__main__":
    try_all(try_faults, try_good, try_cut_texts, try_random_planes, try_mutilated_texts, try_large_texts, try_after, try_far_cells, try_rows,
            try_many_nodes, try_soups)
