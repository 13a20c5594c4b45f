#!/usr/bin/env -S python3 -B
"""The command `census`: censuses that are known, and those of random soups, found apart from the program (tests/lib/census.py).

    tests/census.py [--count N] [--seed S] [PART..]
"""
import random
import re
import sys
from collections import Counter

from lib import census
from lib.parts import as_one_test, try_all
from lib.program import MOST_SECONDS, Runs, allow_seconds, ample, run
from lib.rle import tidy

# Patterns whose censuses are on their pages of LifeWiki: what they settle into, and after how many generations.
KNOWN = {
    "r_pentomino": (".oo\noo.\n.o.", 1103, {"xs4_33": 8, "xq4_153": 6, "xs6_696": 4, "xp2_7": 4, "xs5_253": 1, "xs6_356": 1, "xs7_2596": 1}),
    "pi_heptomino": ("ooo\no.o\no.o", 173, {"xs4_33": 6, "xp2_7": 5, "xs8_6996": 2}),
    "b_heptomino": ("o.oo\nooo.\n.o..", 148, {"xs4_33": 3, "xq4_153": 2, "xs6_356": 1}),
    "diehard": ("......o.\noo......\n.o...ooo", 130, {}),
    "acorn": (".o.....\n...o...\noo..ooo", 5206, {"xp2_7": 41, "xs4_33": 34, "xs6_696": 30, "xq4_153": 13, "xs5_253": 8, "xs7_2596": 5, "xs6_356": 3,
                                                  "xs6_25a4": 2, "xs8_6996": 2, "xs8_69ic": 1}),
}

# How many live cells an object has.
CELLS = {"xs4_33": 4, "xq4_153": 5, "xs6_696": 6, "xp2_7": 3, "xs5_253": 5, "xs6_356": 6, "xs7_2596": 7, "xs8_6996": 8, "xs6_25a4": 6, "xs8_69ic": 8}


def number_of(option, usual):
    """The number behind an option, both of which are taken out of the script's words, or else the usual one."""
    if option not in sys.argv:
        return usual
    at = sys.argv.index(option)
    number = int(sys.argv[at + 1])
    del sys.argv[at:at + 2]
    return number


# How many soups are tried, from which seed, and the seconds of a processor in which one is found to settle, or not to.
SOUPS, SEED, SECONDS = number_of("--count", 10), number_of("--seed", 16), 30


def cells_of(picture):
    """The live cells of a picture."""
    return {(x, y) for y, row in enumerate(picture.splitlines()) for x, cell in enumerate(row) if cell == "o"}


def rle_of(cells):
    """An RLE of some cells."""
    return tidy({place: 1 for place in cells}, "B3/S23", 0, 2)


@as_one_test(Runs, "known censuses")
def try_known(runs):
    """Patterns with known censuses, one by one, all in one run, and from a later generation on."""
    texts = []
    for name, (picture, first, counted) in KNOWN.items():
        cells = sum(CELLS[code] * count for code, count in counted.items())
        text = census.census_text(name, first, Counter(counted), cells)
        path = runs.path(f"{name}.rle", rle_of(cells_of(picture)))
        runs.expect(name, ["census", path], ample(text))
        texts.append((path, text))
        later = text.replace(f"# {name}: settles after {first} generations".encode(), f"# {name} after 100 generations: settles after {first - 100} generations".encode())
        runs.expect(name, ["census", "--after", "100", path], ample(later))
    # Rabbits: 17331 generations, and 1744 cells then (LifeWiki), of these objects as tests/lib/census.py finds them, in half a minute.
    rabbits = {"xp2_7": 136, "xs4_33": 109, "xs6_696": 65, "xq4_153": 40, "xs5_253": 18, "xs7_2596": 18, "xs6_356": 7, "xs4_252": 4, "xs8_6996": 3, "xp2_7e": 2}
    path = runs.path("rabbits.rle", rle_of(cells_of("o...ooo\nooo..o.\n.o.....")))
    runs.expect("rabbits", ["census", path], ample(census.census_text("rabbits", 17331, Counter(rabbits), 1744)))
    runs.expect("all", ["census", *(path for path, _ in texts)], ample(b"".join(text for _, text in texts)))


@as_one_test(Runs, "soups")
def try_soups(runs):
    """Soups of 16 by 16 cells, half of them live."""
    chance, wanted, paths = random.Random(SEED), [], []
    while len(wanted) < SOUPS:
        cells = {(x, y) for x in range(16) for y in range(16) if chance.randrange(2)}
        found = census.settles(cells)
        if found:
            name = f"soup{len(wanted)}"
            paths.append(runs.path(f"{name}.rle", rle_of(cells)))
            wanted.append(census.census_text(name, *found))
    came = run(["census", *paths])
    got = re.split(rb"(?m)^(?=#)", came.printed)[1:]
    runs.count += len(wanted)
    runs.complaints += [f"wanted {it}, got {other}" for it, other in zip(wanted, got) if it != other]
    runs.complaints += [] if len(got) == len(wanted) and (came.complaint, came.status) == (b"", 0) else [f"{len(got)} of {len(wanted)} soups: {came}"]


@as_one_test(Runs, "lists of objects")
def try_lists(runs):
    """Objects side by side, in the order of places, with what each is; one that is no object alone; and rules without codes."""
    glider, block, blinker = cells_of(".o.\n..o\nooo"), cells_of("oo\noo"), cells_of("ooo")
    cells = glider | {(x + 20, y) for x, y in block} | {(x - 10, y + 9) for x, y in blinker}
    text = b"# three: settles after 0 generations: 3 objects, 12 cells\nxq4_153 spaceship 4 1 1 at 0,0: 5 cells\nxs4_33 still life at 20,0: 4 cells\n" \
           b"xp2_7 oscillator 2 at -10,9: 3 cells\n"
    path = runs.path("three.rle", rle_of(cells))
    runs.expect("three", ["census", "--list", path], ample(text))
    runs.expect("three", ["census", path], ample(b"# three: settles after 0 generations: 3 objects, 12 cells\n1 xp2_7\n1 xq4_153\n1 xs4_33\n"))
    one = runs.path("one.rle", "x = 1, y = 1, rule = 23/3/3\no!\n")
    runs.expect("a dying cell", ["census", one], ample(b"# one: settles after 2 generations: 0 objects, 0 cells\n"))
    still = runs.path("still.rle", "x = 2, y = 2, rule = 23/3/3\n2o$2o!\n")
    runs.expect("no codes", ["census", still], ample(b"# still: settles after 0 generations: 1 object, 4 cells\n1 still life of 4 cells\n"))
    runs.expect("no codes", ["census", "--list", still], ample(b"# still: settles after 0 generations: 1 object, 4 cells\nstill life at 0,0: 4 cells\n"))
    empty = runs.path("empty.rle", "x = 0, y = 0, rule = B3/S23\n!\n")
    runs.expect("empty", ["census", empty], ample(b"# empty: settles after 0 generations: 0 objects, 0 cells\n"))


def generations(cells, count):
    """The cells of a plane in so many generations."""
    planes = [census.plane_of(cells)]
    while len(planes) < count:
        planes.append(planes[-1].next())
    return [it.cells() for it in planes]


def pairs(one, other):
    """The planes in which one object sees the other and none changes the other, whose planes over 7 generations these are, that go round in 6."""
    for right, down in ((x, y) for x in range(-16, 17) for y in range(-16, 17)):
        each = [{(x + right, y + down) for x, y in cells} for cells in other]
        both = one[0] | each[0]
        if not census.are_apart(one[0], each[0]) and len(both) == len(one[0]) + len(each[0]):
            if all(a | b == whole and len(whole) == len(a) + len(b) for a, b, whole in zip(one, each, generations(both, 7))):
                yield both


@as_one_test(Runs, "objects beside one another")
def try_beside(runs):
    """Blocks, blinkers, beacons and a pulsar that see a beacon and don't change it, in each of its generations, in one of which its cells are two islands."""
    beacon, code = generations(cells_of("oo\no\n...o\n..oo"), 8), "xp2_318c"
    quarter = {(2, 1), (3, 1), (4, 1), (1, 2), (1, 3), (1, 4), (6, 2), (6, 3), (6, 4), (2, 6), (3, 6), (4, 6)}
    pulsar = {(x * right, y * down) for x, y in quarter for right in (-1, 1) for down in (-1, 1)}
    texts = []
    for other, its in (("oo\noo", "xs4_33"), ("ooo", "xp2_7"), ("oo\no\n...o\n..oo", code), (pulsar, "xp3_co9nas0san9oczgoldlo0oldlogz1047210127401")):
        others = generations(cells_of(other) if isinstance(other, str) else other, 7)
        for cells in (it for first in (0, 1) for it in pairs(beacon[first:first + 7], others)):
            name = f"pair{len(texts)}"
            texts.append((runs.path(f"{name}.rle", rle_of(cells)), census.census_text(name, 0, Counter([code, its]), len(cells))))
    runs.expect("all", ["census", *(path for path, _ in texts)], ample(b"".join(text for _, text in texts)))
    runs.complaints += [] if len(texts) == 76 else [f"{len(texts)} pairs"]


@as_one_test(Runs, "parts that meet")
def try_meetings(runs):
    """Gliders that meet head on, that never do, and one behind another; a spark that dies alone; a limit that is too early; and a gun."""
    down, up = cells_of(".o.\n..o\nooo"), cells_of("ooo\no..\n.o.")
    passing = down | {(x + 40, y) for x, y in up}
    runs.expect("passing", ["census", runs.path("passing.rle", rle_of(passing))], ample(b"# passing: settles after 0 generations: 2 objects, 10 cells\n2 xq4_153\n"))
    behind = down | {(x - 9, y - 9) for x, y in down}
    runs.expect("behind", ["census", runs.path("behind.rle", rle_of(behind))], ample(b"# behind: settles after 0 generations: 2 objects, 10 cells\n2 xq4_153\n"))
    near = {it: down | {(x + it, y + it) for x, y in up} for it in (20, 400)}
    first, counted, count = census.settles(near[20])
    for far, meeting in near.items():
        # Two gliders come nearer by a cell in both directions in two generations.
        text = census.census_text("meeting", first + 2 * (far - 20), counted, count)
        runs.expect("head on", ["census", runs.path("meeting.rle", rle_of(meeting))], ample(text))
    path = runs.path("r.rle", rle_of(cells_of(KNOWN["r_pentomino"][0])))
    runs.expect("early", ["census", "--limit", "1000", path], ample(b"# r: not found to settle within 1000 generations\n"))
    runs.expect("gun", ["census", "examples/gun.rle"], ample(b"# gun: not found to settle within 65536 generations\n"))


@as_one_test(Runs, "many objects")
def try_many(runs):
    """2500 blocks and blinkers side by side, and 5000 blocks in a row, which see one another but change nothing, in a file that no claim text can name."""
    cells = {(9 * column + x, 9 * row + y) for column in range(50) for row in range(50) for x, y in cells_of("oo\noo" if (column + row) % 2 else "ooo")}
    text = b"# many: settles after 0 generations: 2500 objects, 8750 cells\n1250 xp2_7\n1250 xs4_33\n"
    runs.expect("many", ["census", runs.path("many.rle", rle_of(cells))], ample(text))
    row = {(3 * x + u, v) for x in range(5000) for u, v in cells_of("oo\noo")}
    runs.expect("a row", ["census", runs.path("a row.rle", rle_of(row))], ample(b"# a_row: settles after 0 generations: 5000 objects, 20000 cells\n5000 xs4_33\n"))


@as_one_test(Runs, "files that are refused")
def try_refused(runs):
    """Files that aren't there or are faulty, beside one that is good."""
    bad = runs.path("bad.rle", "x = 3, y = 1, rule = B3/S23\n3o\n")
    block = runs.path("block.rle", "x = 2, y = 2, rule = B3/S23\n2o$2o!\n")
    came = run(["census", bad, block])
    text = f"# bad: {bad}: bad pattern: rle no end, line 2\n# block: settles after 0 generations: 1 object, 4 cells\n1 xs4_33\n".encode()
    runs.count += 1
    runs.complaints += [] if (came.printed, came.status) == (text, 2) else [str(came)]
    none = run(["census", "tests/none at all.rle"])
    runs.count += 1
    runs.complaints += [] if (none.printed, none.status) == (b"# none_at_all: tests/none at all.rle: no file\n", 2) else [str(none)]
    tired = run(["census", "--work", "1", "examples/r_pentomino.rle"])
    runs.count += 1
    runs.complaints += [] if (tired.printed, tired.status) == (b"# r_pentomino: examples/r_pentomino.rle: work\n", 2) else [str(tired)]


if __name__ == "__main__":
    allow_seconds(MOST_SECONDS + SECONDS * SOUPS)
    try_all(try_known, try_soups, try_lists, try_beside, try_meetings, try_many, try_refused)
