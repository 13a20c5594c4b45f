#!/usr/bin/env -S python3 -B
"""Apgcodes, as `import` reads them and `identify --apgcode` writes them: published ones, in each turn and reflection, and those of pictures.

Codes and pictures are those of tests/lib/code_texts.py. Under B/S012345678 any cells are a still life, so each picture has a code: the least text of its eight
turns and reflections. Random pictures are compared with the naive writer of tests/lib/apgcode.py.
"""
import os
import random
import re

from lib import apgcode
from lib.code_texts import BLANK, FILES, NONE_OF_ANY, OSCILLATORS, PHASES, PICTURES, SPACESHIPS, STILL_LIFES
from lib.parts import as_one_test, try_all
from lib.program import ROOT, Runs, ample, contents, fault, run
from lib.rle import tidy

# A rule under which nothing changes.
STILL = "B/S012345678"

# The level of the macrocell that has all places where a file may have cells.
MOST_LEVEL = 61


def cells_of(rows):
    """The live cells of a picture, from 0,0."""
    return {(x, y) for y, row in enumerate(rows) for x, cell in enumerate(row) if cell == "*"}


def moved(cells):
    """The cells, moved so that their smallest box has its corner at 0,0."""
    left, top = apgcode.box(cells)[:2]
    return {(x - left, y - top) for x, y in cells}


def orientations_of(cells):
    """The cells in all eight turns and reflections, from 0,0."""
    return [moved({turn(x, y) for x, y in cells}) for turn in apgcode.ORIENTATIONS]


def rle_of(cells, rule="B3/S23"):
    """An RLE of some cells."""
    return tidy({place: 1 for place in cells}, rule, 0, 2)


class Codes(Runs):
    """Runs that read and write codes."""

    def read(self, code, cells):
        """Expects that these cells are read from the code."""
        self.expect("a code", ["import", "-"], ample(rle_of(cells)), input=code.encode())

    def write(self, wanted, limit=100):
        """Expects the code of each of some texts of files, or none, in one run that looks as far as this limit."""
        paths = [self.path(f"{number}.rle", text) for number, (text, _) in enumerate(wanted)]
        came = run(["identify", "--apgcode", "--limit", str(limit), *paths])
        found = dict(re.findall(r"^# (\d+): ((?:x[spq]\d+|ov)_\S+)$", came.printed.decode(), re.MULTILINE))
        codes = [(code, found.get(str(number))) for number, (_, code) in enumerate(wanted)]
        self.count += 1
        self.complaints += [str(came)] if came.status or came.complaint else []
        self.complaints += [f"file {number}: {got}, wanted {code}" for number, (code, got) in enumerate(codes) if got != code]


@as_one_test(Codes, "published codes of phases")
def try_phases(codes):
    """Pictures of phases of objects whose codes are published: they are written and read so."""
    for code, rows in PHASES.items():
        codes.read(code, cells_of(rows))
    codes.write([(rle_of(cells_of(rows)), code) for code, rows in PHASES.items()])


@as_one_test(Codes, "published codes in each turn and reflection")
def try_objects(codes):
    """Objects whose codes are published: what is read of the code has it again, turned and reflected in each way."""
    wanted = []
    for code in (*STILL_LIFES, *OSCILLATORS, *SPACESHIPS):
        cells = apgcode.read_representation(code.partition("_")[2])
        codes.read(code, cells)
        wanted += [(rle_of(it), code) for it in orientations_of(cells)]
    codes.write(wanted)


@as_one_test(Codes, "codes of pictures, worked out by hand")
def try_pictures(codes):
    """Pictures: each is read of its text, and in each turn and reflection the least of their texts is written."""
    wanted = []
    for rows, text, least in PICTURES:
        cells = cells_of(rows)
        codes.read(f"xs{len(cells)}_{text}", cells)
        wanted += [(rle_of(it, STILL), f"xs{len(cells)}_{least}") for it in orientations_of(cells)]
    codes.write(wanted)


@as_one_test(Codes, "codes of random pictures")
def try_random_pictures(codes):
    """Random pictures, dense and sparse, of boxes up to the largest and a little more."""
    chance, wanted = random.Random(5), []
    for _ in range(400):
        wide, high = (chance.choice((1, 2, 3, 5, 6, 9, 11, 20, 39, 40, 41)) for _ in range(2))
        count = chance.choice((1, 2, 5, wide * high // 2))
        cells = {(chance.randrange(wide), chance.randrange(high)) for _ in range(count + 1)}
        wanted.append((rle_of(cells, STILL), apgcode.code(cells, "s", 1)))
    codes.write(wanted)


@as_one_test(Codes, "codes of files")
def try_files(codes):
    """Files that have a code or none, oscillators far apart with a long period, and a still life of all cells that a file may have."""
    codes.write(FILES)
    codes.write([(contents(os.path.join(ROOT, "examples", "period_57960.rle")), "ov_p57960")], 65536)
    full = "".join(f"{level} {level - 3} {level - 3} {level - 3} {level - 3}\n" for level in range(4, MOST_LEVEL + 1))
    most = f"[M2] (cafile)\n#R {STILL}\n" + "********$" * 8 + "\n" + full
    codes.write([(most, f"ov_s{4 ** MOST_LEVEL}")])


@as_one_test(Codes, "texts that are no representations")
def try_refused(codes):
    """Texts that are the representation of no cells, and those that no code has."""
    for text in (*NONE_OF_ANY, *BLANK):
        codes.expect(f"{text!r}", ["import", "-"], fault("unknown format" if text in BLANK else "import line 1: syntax"), input=b"xs4_" + text)


if __name__ == "__main__":
    try_all(try_phases, try_objects, try_pictures, try_random_pictures, try_files, try_refused)
