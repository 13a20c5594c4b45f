"""Macrocell texts that are put together here: of few squares and many levels, faulty ones, and such as no program would write."""
from lib import macrocell


def chain(first, parts, to, head="[M2]\n"):
    """A text of a node, given by its line and level, and of one for each level above: `parts` gives the parts, by the number of the node before."""
    line, level = first
    return head + "\n".join([line, *(f"{up} {parts.format(up - level)}" for up in range(level + 1, to + 1))]) + "\n"


def header(kind, *corner_and_size):
    """The lines before a tidy text's nodes or items."""
    if kind == "mc":
        return b"[M2] (cafile)\n#R B3/S23\n"
    x, y, width, height = corner_and_size
    return f"#CXRLE Pos={x},{y}\nx = {width}, y = {height}, rule = B3/S23\n".encode()


# Leaves and a square of level 1, each with its level, and the parts of a square that is one of a level less, four times.
CELL, FULL_LEAF, TWO_BY_TWO = ("*$", 3), ("********$" * 8, 3), ("1 1 1 1 1", 1)

FOURFOLD = "{0} {0} {0} {0}"

# One live cell in a corner of a square of level 60, which is node 58.
NORTH_WEST, NORTH_EAST, SOUTH_EAST = chain(CELL, "{} 0 0 0", 60, ""), chain((".......*$", 3), "0 {} 0 0", 60, ""), chain(("$$$$$$$.......*$", 3), "0 0 0 {}", 60, "")

# All cells of a square of level 61, which is node 59.
FULL_SQUARE = chain(FULL_LEAF, FOURFOLD, 61, "")

# By the fault: what follows a line [M2].
FAULTS = {
    "timeline": (
        "#FRAMES 2 0 1", "#FRAMES 2", "#FRAME", "#FRAMEx", " \t#FRAMES 2", "#FRAME\r", "*$\n#FRAMES 2", "#FRAMES 2\n4 0 0 0", "#FRAMES 2\n#G x",
        "1 0 0 0 1\n\n#C c\n#FRAMES 2\n*********$",
    ),
    "syntax": (
        "1 0 0 0 256", "1 256 0 0 0", "1 0 0 99999999999999999999999999999999999999999 0", "1 0 0 0 4294967296", "1 0 0 0 18446744073709551616",
        "4 0 0 0", "4 0 0 0 0 0", "4", "0", "0 0 0 0", "121 0 0 0", "4 9 9 9", "4 0 0 0 9 9",
        "x", "4 0 0 0 x", "4 0 0 0 -1", "4 0 0 0 -0", "4 0 0 0 +0", "-4 0 0 0 0", "0 0 0 0 x", "4,0,0,0,0", "4 0 0 0 0,", "4 0 0 0 0 # c", "4 0 0 0 0x",
        "0x4 0 0 0 0", "4 0 0 0 .", "4. 0 0 0 0", "4 0 0\x0b0 0", "\x00", "\x0c", "\xff", "[M2]", "@", "bo$", "o$", "x = 3, y = 3", "B3/S23",
        "**a$", "* *$", "*\t$", "*\r*$", "** # c", "*#", "*$x", "$o", "$ $", ".0", "*1 0 0 0 0", "$$$$$$$$x", "********x", "*$*$*$*$*$*$*$*$ .", "*\x00",
        "#G -4", "#G +4", "#G 4x", "#G x", "#G 4 5", "#G 4,5", "#G 0x4", "#G 9223372036854775808 1", "#G 9223372036854775808x", "  #G  4 x ", "#G 4 # c",
        "#G 1\n#G x", "#G x\n#G 1", "1 0 0 0 256\n4 0 0 0 9", "*$\n4 0 0 0\n5 0 0 0 1",
    ),
    "gen too large": (
        "#G 9223372036854775808", "#G 18446744073709551616", "#G 99999999999999999999999999999999999999999", "#G 0009223372036854775808",
        "#G 9223372036854775808\n#G 1", "#G 1\n\t#G\t9223372036854775808 \n4 0 0 0",
    ),
    "level": (
        "0 0 0 0 0", "000 0 0 0 0", "0 1 2 3 4", "121 0 0 0 0", "256 0 0 0 0", "257 0 0 0 0", "4294967300 0 0 0 0", "18446744073709551620 0 0 0 0",
        "99999999999999999999999999999999999999999 0 0 0 0", "121 9 0 0 0", "0 0 0 0 256",
        "*$\n5 0 0 0 1", "*$\n3 0 0 0 1", "*$\n2 1 0 0 0", "1 1 0 0 0\n3 0 0 0 1", "1 1 0 0 0\n4 0 0 0 1", "1 1 0 0 0\n2 1 0 0 0\n2 1 0 0 2",
        "*$\n4 1 0 0 0\n5 1 2 0 0", "*$\n4 1 0 0 0\n5 2 2 2 1", "*$\n5 1 9 0 0", "*$\n120 1 0 0 0", "*$\n119 1 0 0 0",
        # an empty square that is written has its level too
        "$\n5 0 0 0 1", "7 0 0 0 0\n7 0 0 0 1", "120 0 0 0 0\n120 0 0 0 1", "120 0 0 0 0\n121 0 0 0 1",
    ),
    "forward": (
        "4 0 0 0 1", "4 0 0 0 2", "4 1 0 0 0", "2 1 0 0 0", "*$\n4 0 0 0 2", "*$\n4 2 0 0 0", "*$\n4 3 0 0 0", "*$\n4 0 0 9 0", "*$\n5 9 1 0 0",
        "*$\n4 0 9 0 0\n*$", "*$\n4 0 0 0 257", "*$\n4 0 0 0 65537", "*$\n4 0 0 0 4294967297", "*$\n4 0 0 0 18446744073709551617",
        "*$\n4 0 340282366920938463463374607431768211457 0 0", "*$\n5 2 1 0 0", "#C 1\n\n4 0 0 0 1", "4 0 0 1 0\n4 0 0 0",
    ),
    "leaf size": (
        "*********", "*********$", ".........$", "........*", "********.", "*********x", "$$$$$$$$$", "$$$$$$$$.", "$$$$$$$$*", "$$$$$$$$.x", "$$$$$$$$$x",
        "*$*$*$*$*$*$*$*$*", "$$.........$x", "*$\n*********", " *********", "*********\n4 0 0 0",
    ),
    "range": (
        FULL_SQUARE + "62 59 59 59 59\n", FULL_SQUARE + "62 0 0 0 59\n", FULL_SQUARE + "62 59 0 0 0\n",
        # a live cell at 2^60,0, at 0,2^60, at -2^60-1,-1 and at -1,-2^60-1
        NORTH_WEST + "61 0 58 0 0\n62 0 0 0 59\n", NORTH_WEST + "61 0 0 58 0\n62 0 0 0 59\n", SOUTH_EAST + "61 0 0 58 0\n62 59 0 0 0\n",
        SOUTH_EAST + "61 0 58 0 0\n62 59 0 0 0\n",
        chain(CELL, "{} 0 0 0", 120, ""), chain(CELL, "0 0 0 {}", 120, ""), "1 9 0 0 0\n" + "".join(f"{level} {level - 1} 0 0 0\n" for level in range(2, 63)),
    ),
}


def faulty_macrocells():
    """Macrocell texts, their faults, and the lines on which these stand, as a naive reader finds them."""
    for told, bodies in FAULTS.items():
        for body in bodies:
            text = b"[M2]\n" + body.encode("latin-1")
            yield text, told, macrocell.faulty_line(text)


class Sloppy:
    """A text of a tree's nodes, in any order that is allowed, some of them twice, unused or empty, and in both kinds of leaves."""

    def __init__(self, chance, squares):
        self.chance, self.squares, self.lines, self.count, self.known = chance, squares, [], 0, {}

    def add(self, line):
        """Adds a node's line, perhaps with blanks round it or comments before it, and gives its number."""
        blank = self.chance.choice(("",) * 20 + (" ", "\t", " \r ", "\r"))
        if self.chance.random() < 0.1:
            self.lines.append(self.chance.choice(("", "#C c", " ", "#", "#G", "#R", "# 4 0 0 0 0", "\t#Cfoo", "##FRAMES", "#Gee 4")))
        self.lines.append(blank + (line if line[0] in ".*$" else line.replace(" ", self.chance.choice((" ", " ", "  ", "\t", " \r"))) + blank))
        self.count += 1
        return self.count

    def leaf(self, square):
        """A leaf's line, of which dead cells, rows and the last `$` may be left out or not."""
        rows = macrocell.leaf_text(self.squares, square).split("$")[:8]
        rows = [row + "." * self.chance.randrange(9 - len(row)) if self.chance.random() < 0.3 else row for row in rows]
        while rows and not rows[-1] and self.chance.random() < 0.7:
            rows.pop()
        text = "$".join(rows) + self.chance.choice(("$", ""))
        return text or "$"

    def unused(self):
        """Adds a node that nothing reaches."""
        number = self.chance.randrange(self.count + 1)
        if self.chance.random() < 0.5 or not self.known:
            self.add(self.chance.choice(("1 0 0 0 255", "**$**$", "$", "1 1 2 3 4", "120 0 0 0 0", f"{number % 119 + 2} 0 0 0 0")))
        else:
            (_, level), numbers = self.chance.choice(list(self.known.items()))
            self.add(f"{level + 1} {numbers[0]} 0 {numbers[-1]} {numbers[0]}")

    def node(self, square, level, root=False):
        """The number of a node for a square, which is added where it has none, and now and then where it has one."""
        if not root and not square and self.chance.random() < 0.95:
            return 0
        if not root and (square, level) in self.known and self.chance.random() < 0.9:
            return self.chance.choice(self.known[square, level])
        if self.chance.random() < 0.05:
            self.unused()
        parts = self.squares.parts[square]
        if level == 1:
            line = " ".join(map(str, (1, *parts)))
        elif level == 3 and macrocell.Tree(self.squares, square, 3).highest_state() < 2 and self.chance.random() < 0.7:
            line = self.leaf(square)
        else:
            numbers = {}
            for corner in self.chance.sample(range(4), 4):
                numbers[corner] = self.node(parts[corner], level - 1)
            line = f"{level} {numbers[0]} {numbers[1]} {numbers[2]} {numbers[3]}"
        number = self.add(line)
        self.known.setdefault((square, level), []).append(number)
        return number

    def text(self, tree, rule, generation):
        """The text of a tree."""
        self.node(tree.root, tree.level, True)
        for wrong, right, is_usual in (
            ("#R Other", (f"#R {rule}", f"\t#R  {rule} more"), rule == "B3/S23"),
            ("#G 12", (f"#G {generation}", f"#G\t000{generation} "), generation == 0),
        ):
            said = [wrong] * self.chance.randrange(3)
            if said or not is_usual or self.chance.random() < 0.5:
                said.append(self.chance.choice(right))
            places = sorted(self.chance.randrange(len(self.lines) + 1) for _ in said)
            for place, line in reversed(list(zip(places, said))):
                self.lines.insert(place, line)
        end = self.chance.choice(("\n", "\n", "\r\n"))
        head = self.chance.choice(("[M2] (golly 4.2)", "[M2]", "[M2] 4 0 0 0", "[M2]#FRAMES"))
        return (end.join([head, *self.lines]) + self.chance.choice((end, ""))).encode()
