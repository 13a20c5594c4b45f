"""Large planes of squares that don't repeat, of macrocells and of cells that lie far apart."""
import math
import random
from dataclasses import dataclass

from lib import rle
from lib.macrocell import EDGE
from lib.rows import Rows, text_of

# The rule of a plane that grows in all directions.
GROWING = "B2/S"

# A glider that goes down and to the right, and the generations that far gliders go.
GLIDER, FLIGHT = Rows(0, 0, (0b010, 0b100, 0b111)), 15


def leaves(count):
    """So many different squares of 8 by 8 cells, each a line."""
    chance, found = random.Random(count), {}
    while len(found) < count:
        lines = ("".join(chance.choices(".*", (3, 1), k=8)).rstrip(".") for _ in range(8))
        found["".join(f"{row}$" for row in lines)] = True
    return list(found)


def distinct_squares(counts, rule):
    """A plane whose squares of 16 by 16 cells are all different: each of their four parts is one of as many leaves as its count, in every
    choice. The product of the counts is a power of four. Also its level."""
    number = max(counts)
    west, east = ([f"{one} {other}" for one in range(1, first + 1) for other in range(1, second + 1)] for first, second in (counts[:2], counts[2:]))
    lines = ["[M2]", f"#R {rule}", *leaves(number), *(f"4 {one} {other}" for one in west for other in east)]
    first, count, level = number + 1, math.prod(counts), 4
    while count > 1:
        level += 1
        lines += [f"{level} {at} {at + 1} {at + 2} {at + 3}" for at in range(first, first + count, 4)]
        first, count = first + count, count // 4
    return "\n".join([*lines, ""]), level


def distinct_leaves(count, level):
    """The nodes of a square of this level, of which the first leaves, from nw to se, are all different: leaf i has a cell at the beginning of each of its
    first four rows, and i's bits after them, five a row."""
    rows = ["*" + "".join(".*"[bits >> at & 1] for at in range(5)).rstrip(".") + "$" for bits in range(32)]
    lines = []

    def build(first, level):
        if first >= count:
            return 0
        if level == 3:
            lines.append(f"{rows[first & 31]}{rows[first >> 5 & 31]}{rows[first >> 10 & 31]}{rows[first >> 15]}$$$$")
        else:
            parts = [build(first + (at << (2 * level - 8)), level - 1) for at in range(4)]
            lines.append(f"{level} {parts[0]} {parts[1]} {parts[2]} {parts[3]}")
        return len(lines)

    build(0, level)
    return lines, sum(4 + bin(it).count("1") for it in range(count))


def explosion():
    """A random square of 8 by 8 cells, which grows in all directions, and a pair of cells far from it, so that the first tree is large."""
    chance = random.Random(1)
    square = tuple(chance.getrandbits(8) for _ in range(8))
    return Rows(0, 0, (square[0] | 3 << 600, *square[1:]))


@dataclass(frozen=True)
class Packed:
    """The rows of some cells as items of RLE: for each its place, that of its first cell, the items, and the place after its last cell."""

    rows: tuple

    @staticmethod
    def of(cells, states):
        """The rows of cells that are given by their states at places, under a rule of so many states."""
        by_rows = {}
        for (x, y), state in cells.items():
            by_rows.setdefault(y, []).append((x, state))
        return Packed(tuple((y, min(row)[0], "".join(rle.row_items(sorted(row), min(row)[0], states)), max(row)[0] + 1) for y, row in by_rows.items()))


def text_of_copies(rule, states, copies):
    """An RLE text of packed cells, each moved by its vector, none of which overlaps another one's columns in a row: of more cells than can be listed."""
    dead, lines = "b" if states == 2 else ".", {}
    for packed, (dx, dy) in copies:
        for y, first, items, end in packed.rows:
            lines.setdefault(y + dy, []).append((first + dx, items, end + dx))
    left, top = min(row[0] for line in lines.values() for row in line), min(lines)
    written, above = [], top
    for y in sorted(lines):
        written.append(rle.counted(y - above, "$") if y > above else "")
        at, above = left, y
        for first, items, end in sorted(lines[y]):
            written += [rle.counted(first - at, dead) if first > at else "", items]
            at = end
        written.append("\n")
    return f"#CXRLE Pos={left},{top}\nx = 1, y = 1, rule = {rule}\n{''.join(written)}!\n"


def far_cells(count, rule="B3/S23"):
    """An RLE text of so many cells far from each other, each of which takes 44 squares."""
    chance = random.Random(1)
    cells = "".join(f"{chance.randrange(2 * EDGE)}bo{chance.randrange(1, 2 * EDGE // count)}$" for _ in range(count))
    return f"#CXRLE Pos={-EDGE},{-EDGE}\nx = 1, y = 1, rule = {rule}\n{cells}!\n"


def far_gliders(count):
    """A claim text's two patterns of `count` gliders far from each other: as they are, and the same after FLIGHT generations."""
    chance = random.Random(count)
    places = [(chance.randrange(-EDGE // 2, EDGE // 2), chance.randrange(-EDGE // 2, EDGE // 2)) for _ in range(count)]
    return [text_of("B3/S23", *(it.moved(*place) for place in places)) for it in (GLIDER, GLIDER.after("B3/S23", FLIGHT))]
