"""Planes of two states under B/S rules, stepped naively and apart from the program. The rows of a plane are big numbers; to be stepped they lie one behind
another in a single one, so that each sum of its bits is one of all cells."""
import re
from dataclasses import dataclass

# For how many generations a plane gets a margin of dead cells.
AT_A_TIME = 16

# The tags of RLE for the digits of a row.
TAGS = str.maketrans("01", "bo")


@dataclass(frozen=True)
class Rows:
    """A plane: the place of its upper left corner, and for each row a number whose bit x is the cell x columns further right."""

    x: int
    y: int
    rows: tuple

    def width(self):
        """How many columns the rows take."""
        return max((row.bit_length() for row in self.rows), default=0)

    def population(self):
        """The number of live cells."""
        return sum(f"{row:b}".count("1") for row in self.rows)

    def cells(self):
        """The places of the live cells."""
        return [(self.x + it.start(), y) for y, row in enumerate(self.rows, self.y) for it in re.finditer("1", f"{row:b}"[::-1])]

    def moved(self, x, y):
        """The plane, moved."""
        return Rows(self.x + x, self.y + y, self.rows)

    def turned(self, x, y):
        """The plane with its columns in the other order where x is -1, and its rows where y is."""
        wide = self.width()
        return Rows(self.x, self.y, tuple(int(f"{row:0{wide}b}"[::x], 2) for row in self.rows[::y]))

    def roomy(self, margin):
        """The same plane with `margin` dead rows and columns more on each side."""
        blank = (0,) * margin
        return Rows(self.x - margin, self.y - margin, (*blank, *(row << margin for row in self.rows), *blank))

    def fitted(self):
        """The same plane without dead rows and columns on any side."""
        live = [at for at, row in enumerate(self.rows) if row]
        if not live:
            return Rows(self.x, self.y, ())
        rows = self.rows[live[0]:live[-1] + 1]
        left = min((row & -row).bit_length() - 1 for row in rows if row)
        return Rows(self.x + left, self.y + live[0], tuple(row >> left for row in rows))

    def with_changed(self, x, y):
        """The plane with another cell at a place of these rows or right beside them, and the cell that it had there."""
        whole = self.roomy(1)
        column, lines = x - whole.x, [*whole.rows]
        lines[y - whole.y] ^= 1 << column
        return Rows(whole.x, whole.y, tuple(lines)).fitted(), whole.rows[y - whole.y] >> column & 1

    def after(self, rule, generations):
        """The plane after these generations under a rule's text."""
        plane = self.fitted()
        while generations and plane.rows:
            count = min(generations, AT_A_TIME)
            plane, generations = stepped(plane.roomy(count), Rule.of(rule), count).fitted(), generations - count
        return plane


# The neighbours that a rule counts, by the suffix of its text: how many columns and rows away they lie. Each counts with the one opposite.
NEIGHBOURS = {"": ((1, 0), (-1, 1), (0, 1), (1, 1)), "V": ((1, 0), (0, 1)), "H": ((1, 0), (0, 1), (1, 1))}


@dataclass(frozen=True)
class Rule:
    """The numbers of live neighbours with which a cell is born, those with which it survives, and half of the neighbours."""

    birth: frozenset
    survival: frozenset
    neighbours: tuple

    @staticmethod
    def of(text):
        """The rule of a text."""
        birth, survival, suffix = re.fullmatch(r"B(\d*)/S(\d*)([VH]?)", text).groups()
        return Rule(frozenset(map(int, birth)), frozenset(map(int, survival)), NEIGHBOURS[suffix])


def stepped(plane, rule, generations):
    """The plane after so few generations that no live cell comes to an edge of its rows."""
    wide, high = (plane.width() + generations + 7) // 8 * 8, len(plane.rows)
    cells = int.from_bytes(b"".join(row.to_bytes(wide // 8, "little") for row in plane.rows), "little")
    for _ in range(generations):
        cells = next_cells(cells, wide, (1 << (wide * high)) - 1, rule)
    content = cells.to_bytes(wide * high // 8, "little")
    return Rows(plane.x, plane.y, tuple(int.from_bytes(content[at:at + wide // 8], "little") for at in range(0, len(content), wide // 8)))


def next_cells(cells, wide, every, rule):
    """The cells one generation later, where a row has `wide` columns. `every` has all places."""
    binary = [0, 0, 0, 0]
    for across, down in rule.neighbours:
        distance = wide * down + across
        for carry in (cells << distance, cells >> distance):
            for digit in range(4):
                binary[digit], carry = binary[digit] ^ carry, binary[digit] & carry
    birth, survival = (places_with(numbers, binary, every) for numbers in (rule.birth, rule.survival))
    return (birth & (cells ^ every)) | (survival & cells)


def places_with(numbers, binary, every):
    """The places where the number that has these four binary digits is one of the numbers."""
    found = 0
    for number in numbers:
        places = every
        for digit, bits in enumerate(binary):
            places &= bits if number >> digit & 1 else bits ^ every
        found |= places
    return found


def soup(chance, wide, high):
    """A plane at the origin of `wide` by `high` cells, half of them live."""
    return Rows(0, 0, tuple(chance.getrandbits(wide) for _ in range(high)))


def united(planes):
    """The live cells of all these planes, which lie near each other."""
    left, top = min(it.x for it in planes), min(it.y for it in planes)
    lines = [0] * (max(it.y + len(it.rows) for it in planes) - top)
    for it in planes:
        for at, row in enumerate(it.rows, it.y - top):
            lines[at] |= row << (it.x - left)
    return Rows(left, top, tuple(lines))


def text_of(rule, *planes):
    """An RLE text of planes under a rule, however far they lie from each other, where no row of one overlaps one of another."""
    left, lines = min(it.x for it in planes), {}
    for it in planes:
        for y, row in enumerate(it.rows, it.y):
            if row:
                lines.setdefault(y, []).append((it.x, row))
    top = min(lines, default=0)
    items, above = [], top
    for y in sorted(lines):
        items.append(f"{y - above}$" * (y > above))
        end = left
        for x, row in sorted(lines[y]):
            items += [f"{x - end}b" * (x > end), f"{row:b}"[::-1].translate(TAGS)]
            end = x + row.bit_length()
        above = y
    return f"#CXRLE Pos={left},{top}\nx = 1, y = 1, rule = {rule}\n{''.join(items)}!\n"
