"""Macrocell texts, read and written as docs/FORMATS.md says: naive, apart from the program, and the source of what tests expect of it."""
from dataclasses import dataclass

# 2^60: the cells of files lie from -EDGE to EDGE - 1, both ways.
EDGE = 1 << 60

GENERATIONS = 1 << 63
HIGHEST_LEVEL = 120
BLANKS = b" \t\r"


class Fault(Exception):
    """What is wrong with a text, as it is printed."""

    def __init__(self, kind):
        super().__init__(kind)
        self.kind = kind


class Squares:
    """Squares of cells, each kept once. Square 0 is the empty one, of every level. Any other has a level and four parts, from nw to se: states at
    level 1, and squares of one level less above that."""

    def __init__(self):
        self.levels, self.parts, self.numbers = [0], [(0, 0, 0, 0)], {}

    def join(self, level, parts):
        """The square of these parts."""
        if not any(parts):
            return 0
        key = (level, *parts)
        if key not in self.numbers:
            self.numbers[key] = len(self.parts)
            self.levels.append(level)
            self.parts.append(tuple(parts))
        return self.numbers[key]


@dataclass
class Tree:
    """A square round the centre: of level k it covers -2^(k - 1) to 2^(k - 1) - 1 both ways."""

    squares: Squares
    root: int
    level: int

    def under(self):
        """The squares that the root reaches, the lower ones first."""
        found, waiting = {self.root} - {0}, [self.root] if self.root else []
        while waiting:
            square = waiting.pop()
            if self.squares.levels[square] > 1:
                new = set(self.squares.parts[square]) - found - {0}
                found |= new
                waiting += new
        return sorted(found, key=lambda square: self.squares.levels[square])

    def summed(self, of_states, of_parts):
        """What comes of the root where `of_states` tells of four states, and `of_parts` of the side of a part and what came of four."""
        known = {0: None}
        for square in self.under():
            parts, level = self.squares.parts[square], self.squares.levels[square]
            known[square] = of_states(parts) if level == 1 else of_parts(1 << (level - 1), [known[part] for part in parts])
        return known[self.root]

    def population(self):
        """The number of live cells."""
        return self.summed(lambda states: sum(map(bool, states)), lambda _, parts: sum(part or 0 for part in parts)) or 0

    def highest_state(self):
        """The highest state of a cell."""
        return self.summed(max, lambda _, parts: max(part or 0 for part in parts)) or 0

    def box(self):
        """The corner, width and height of the smallest box round the live cells; None where there are none."""
        def around(side, boxes):
            moved = [(x0 + at % 2 * side, y0 + at // 2 * side, x1 + at % 2 * side, y1 + at // 2 * side)
                     for at, it in enumerate(boxes) if it for x0, y0, x1, y1 in (it,)]
            return tuple(least(sides) for least, sides in zip((min, min, max, max), zip(*moved)))

        found = self.summed(lambda states: around(1, [(0, 0, 0, 0) if state else None for state in states]), around)
        if found is None:
            return None
        half, (x0, y0, x1, y1) = 1 << (self.level - 1), found
        return x0 - half, y0 - half, x1 - x0 + 1, y1 - y0 + 1

    def cells(self):
        """The live cells' states, by their places."""
        cells, half = {}, 1 << (self.level - 1)
        waiting = [(self.root, -half, -half)] if self.root else []
        while waiting:
            square, x, y = waiting.pop()
            level = self.squares.levels[square]
            for at, part in enumerate(self.squares.parts[square]):
                if part:
                    place = x + (at % 2 << (level - 1)), y + (at // 2 << (level - 1))
                    if level == 1:
                        cells[place] = part
                    else:
                        waiting.append((part, *place))
        return cells

    def fitted(self, lowest):
        """The tree of the same cells with the smallest level that holds them, but at least `lowest`."""
        root, level, parts = self.root, self.level, self.squares.parts
        while level > 1:
            inner = [parts[part][3 - at] for at, part in enumerate(parts[root])]
            if any(part and any(parts[part][at] for at in range(4) if at != 3 - corner) for corner, part in enumerate(parts[root])):
                break
            level -= 1
            root = self.squares.join(level, inner)
        while level < lowest:
            corners = [self.squares.join(level, [part if at == 3 - corner else 0 for at in range(4)]) for corner, part in enumerate(parts[root])]
            level += 1
            root = self.squares.join(level, corners)
        return Tree(self.squares, root, level)


def tree_of(cells):
    """The tree of these cells, of the smallest level that holds them."""
    squares, level = Squares(), 1
    while any(not -(1 << (level - 1)) <= number < 1 << (level - 1) for place in cells for number in place):
        level += 1
    half = 1 << (level - 1)
    row = {(x + half, y + half): state for (x, y), state in cells.items() if state}
    for height in range(1, level + 1):
        fours = {}
        for (x, y), it in row.items():
            fours.setdefault((x >> 1, y >> 1), [0] * 4)[y % 2 * 2 + x % 2] = it
        row = {place: squares.join(height, parts) for place, parts in fours.items()}
    return Tree(squares, row.get((0, 0), 0), level)


@dataclass
class Pattern:
    """What a text holds."""

    tree: Tree
    rule: str
    generation: int

    def shown(self, rule=None, kind="macrocell"):
        """What `show` prints of it, with the printed form of its rule where that is another."""
        box = self.tree.box()
        lines = (f"format {kind}", f"rule {rule or self.rule}", f"gen {self.generation}", f"cells {self.tree.population()}",
                 f"box {' '.join(map(str, box)) if box else 'none'}")
        return "".join(f"{line}\n" for line in lines).encode()


def number(word):
    """The number that a word spells, or one beyond every limit in its place; None where it spells none."""
    if not word.isdigit():
        return None
    digits = word.lstrip(b"0")
    return int(digits or b"0") if len(digits) < 40 else 10**40


class Reader:
    """The nodes, rule text and generation of the lines read so far."""

    def __init__(self):
        self.squares, self.nodes, self.rule, self.generation = Squares(), [], "B3/S23", 0

    def line(self, line):
        """Reads a line, whose blanks at its ends are dropped."""
        if line.startswith(b"#FRAME"):
            raise Fault("timeline")
        if line.startswith(b"#"):
            self.remark(line.translate(bytes.maketrans(BLANKS, b"   ")).split(b" "))
        elif line[:1] in (b".", b"*", b"$"):
            self.nodes.append((3, self.leaf(line)))
        elif line:
            words = [it for it in line.translate(bytes.maketrans(BLANKS, b"   ")).split(b" ") if it]
            self.nodes.append(self.numbers([number(it) for it in words]))

    def remark(self, words):
        """Reads a line that begins with `#`."""
        words = [words[0], *filter(None, words[1:])]
        if words[0] == b"#R" and len(words) > 1:
            self.rule = words[1].decode("latin-1")
        if words[0] == b"#G" and len(words) > 1:
            generation = number(words[1])
            if generation is None or len(words) > 2:
                raise Fault("syntax")
            if generation >= GENERATIONS:
                raise Fault("gen too large")
            self.generation = generation

    def leaf(self, line):
        """The square of a leaf's line."""
        rows, ended = [[]], 0
        for byte in line:
            if byte not in b".*$":
                raise Fault("syntax")
            if ended == 8 or (byte != ord("$") and len(rows[-1]) == 8):
                raise Fault("leaf size")
            if byte == ord("$"):
                ended += 1
                rows.append([])
            else:
                rows[-1].append(int(byte == ord("*")))
        row = {(x, y): state for y, states in enumerate(rows) for x, state in enumerate(states)}
        for level in (1, 2, 3):
            places = [(x, y) for x in range(8 >> level) for y in range(8 >> level)]
            row = {(x, y): self.squares.join(level, [row.get((2 * x + at % 2, 2 * y + at // 2), 0) for at in range(4)]) for x, y in places}
        return row[0, 0]

    def numbers(self, numbers):
        """The level and square of a line of numbers."""
        if len(numbers) != 5 or None in numbers:
            raise Fault("syntax")
        level, *parts = numbers
        if not 1 <= level <= HIGHEST_LEVEL:
            raise Fault("level")
        if level == 1:
            if max(parts) > 255:
                raise Fault("syntax")
            return 1, self.squares.join(1, parts)
        for part in parts:
            if part > len(self.nodes):
                raise Fault("forward")
            if part and self.nodes[part - 1][0] != level - 1:
                raise Fault("level")
        return level, self.squares.join(level, [part and self.nodes[part - 1][1] for part in parts])


def read(text):
    """The pattern of a text, or its fault is raised."""
    if not text.startswith(b"[M2]"):
        raise Fault("not macro")
    reader = Reader()
    for line in text.split(b"\n")[1:]:
        reader.line(line.strip(BLANKS))
    level, root = reader.nodes[-1] if reader.nodes else (1, 0)
    tree = Tree(reader.squares, root, level)
    box = tree.box()
    if box and (min(box[:2]) < -EDGE or max(box[0] + box[2], box[1] + box[3]) > EDGE):
        raise Fault("range")
    return Pattern(tree, reader.rule, reader.generation)


def faulty_line(text):
    """The number of the first faulty line of a text that begins with [M2], counted from 1; None where each line reads."""
    reader = Reader()
    for at, line in enumerate(text.split(b"\n")[1:], 2):
        try:
            reader.line(line.strip(BLANKS))
        except Fault:
            return at
    return None


def leaf_text(squares, square):
    """A square of level 3 as a leaf, without dead cells at the ends of rows."""
    cells = Tree(squares, square, 3).cells()
    rows = ("".join(".*"[cells.get((x, y), 0)] for x in range(-4, 4)).rstrip(".") for y in range(-4, 4))
    return "".join(f"{row}$" for row in rows)


def tidy(pattern, states):
    """The tidy text of a pattern, under a rule of `states` states."""
    tree = pattern.tree.fitted(4 if states == 2 else 1)
    squares, numbers = tree.squares, {0: 0}
    lines = ["[M2] (cafile)", f"#R {pattern.rule}", *([f"#G {pattern.generation}"] if pattern.generation else [])]

    def write(square):
        if square in numbers:
            return
        level, parts = squares.levels[square], squares.parts[square]
        if states == 2 and level == 3:
            lines.append(leaf_text(squares, square))
        else:
            if level > 1:
                for part in parts:
                    write(part)
                parts = [numbers[part] for part in parts]
            lines.append(" ".join(map(str, (level, *parts))))
        numbers[square] = len(numbers)

    write(tree.root)
    if not tree.root:
        lines.append(f"{tree.level} 0 0 0 0")
    return "".join(f"{line}\n" for line in lines).encode("latin-1")
