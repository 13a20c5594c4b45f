"""Small pattern files and rule files, good and faulty, and what is reported of them."""
from lib import macrocell, rle
from lib.macrocell import EDGE
from lib.macrocell_texts import FOURFOLD, FULL_LEAF, chain
from lib.pictures import drawn

HEADER = "x = 1, y = 1, rule = B3/S23\n"
DOT = HEADER + "o!\n"

SPREAD = "@RULE Spread\n@TABLE\nn_states:3\nneighborhood:vonNeumann\nsymmetries:rotate4\nvar a={1,2}\n0,a,0,0,0,a\n"

# All cells of a square of level 61, and what has to be said of states that its rule doesn't have.
FULL, FULL_OF_TWOS = chain(FULL_LEAF, FOURFOLD, 61), chain(("1 2 2 2 2", 1), FOURFOLD, 61, "[M2]\n#R Life\n")

# Files, and their faults in the order in which they are reported: that the file doesn't read, its rule, a state, and too many cells in RLE.
PATTERNS = {
    "no_end": ("x = 1, y = 1, rule = Life\n3o", "bad pattern: rle no end"),
    "first_fault": ("[M2]\n#R Life\n1 2 0 0 0\n4 9 0 0 0\n#FRAMES 2\n", "bad pattern: macrocell forward"),
    "beyond": (FULL.replace("[M2]", "[M2]\n#R Life") + "62 59 59 59 59\n", "bad pattern: macrocell range"),
    "too_many": ("x = 1, y = 1, rule = Life\n16777217o!\n", "bad pattern: rle too many cells"),
    "unknown": ("x = 1, y = 1, rule = Life\nB!\n", "bad rule: unknown"),
    "unknown_mc": ("[M2]\n#R Life\n1 2 0 0 0\n", "bad rule: unknown"),
    "unknown_full": (FULL_OF_TWOS, "bad rule: unknown"),
    "wakes": ("x = 1, y = 1, rule = B03/S23\nB!\n", "bad rule: wakes"),
    "wakes_mc": ("[M2]\n#R /0\n1 2 0 0 0\n", "bad rule: wakes"),
    "bounded": ("x = 1, y = 1, rule = B3/S23:T30,20\nB!\n", "bad rule: bounded"),
    "bounded_mc": ("[M2]\n#R Spread:P8\n1 9 0 0 0\n", "bad rule: bounded"),
    "state": ("x = 1, y = 1, rule = B3/S23\noB!\n", "state too large"),
    "state_mc": ("[M2]\n1 0 0 0 2\n", "state too large"),
    "state_table": ("x = 1, y = 1, rule = Spread\n2BC!\n", "state too large"),
    "state_full": (FULL_OF_TWOS.replace("Life", "B3/S23"), "state too large"),
    "state_255": ("[M2]\n#R Spread\n1 255 0 0 0\n**$**\n4 0 0 0 2\n1 255 0 0 0\n2 1 4 0 0\n", "state too large"),
}

# Files without a fault: their format, printed rule and states, and cells.
GOOD = {
    "spread": ("x = 2, y = 1, rule = Spread\nB.A!\n", "rle", "Spread", 3, {(0, 0): 2, (2, 0): 1}),
    "spread_mc": ("[M2]\n#R Spread\n1 2 0 0 1\n", "macrocell", "Spread", 3, {(-1, -1): 2, (0, 0): 1}),
    "spread_leaf": ("[M2]\n#R Spread\n*\n", "macrocell", "Spread", 3, {(-4, -4): 1}),
    "life": ("x = 1, y = 1, rule = 23/3\nA!\n", "rle", "B3/S23", 2, {(0, 0): 1}),
    "life_mc": ("[M2]\n#R s23b3\n1 1 0 0 0\n", "macrocell", "B3/S23", 2, {(-1, -1): 1}),
    "other_way": ("[M2]\n#R S32/B33\n**\n", "macrocell", "B3/S23", 2, {(-4, -4): 1, (-3, -4): 1}),
    "hexagonal": ("x = 1, y = 1, rule = 43/2h\no!\n", "rle", "B2/S34H", 2, {(0, 0): 1}),
    "nothing": ("x = 0, y = 0, rule = /v\n!\n", "rle", "B/SV", 2, {}),
}

# Rule files and their faults.
TABLES = {
    "no_rule_line": (SPREAD.replace("@RULE", "@RUL"), "line 1 no rule line"),
    "no_table": (SPREAD.replace("@TABLE", "@TABLES"), "line 7 no table"),
    "states": (SPREAD.replace("n_states:3", "n_states:1"), "line 6 states"),
    "neighborhood": (SPREAD.replace("vonNeumann", "Margolus"), "line 6 neighborhood"),
    "symmetries": (SPREAD.replace("rotate4", "rotate8"), "line 6 symmetries"),
    "variable": (SPREAD.replace("0,a,0,0,0,a", "0,c,0,0,0,1"), "line 7 variable"),
    "unbound": (SPREAD.replace("0,a,0,0,0,a", "0,1,0,0,0,a"), "line 7 unbound"),
    "wakes": (SPREAD.replace("0,a,0,0,0,a", "0,0,0,0,0,1"), "line 7 wakes"),
    "syntax": (SPREAD.replace("0,a,0,0,0,a", "0,1,0,0,1"), "line 7 syntax"),
    "empty": ("", "line 1 no rule line"),
}

# The commands that take a pattern, but for its path.
COMMANDS = (("show",), ("convert", "--to", "mc"), ("convert", "--to", "rle"), ("draw",))

# RLE texts, their faults, and the lines on which these stand; none where only a limit is passed.
BAD_RLES = (
    ("", "header", 1), ("\n\n", "header", 2), ("#C c", "header", 1), ("#C c\n#C d\n", "header", 2), ("#C c\nbo$!\n", "header", 2),
    ("x = 3, y = 3,\n3o!\n", "header", 1), ("#C c\n\nx = 3\ny = 3\n3o!", "header", 3), ("\ufeff" + DOT, "header", 1),
    ("#CXRLE Pos=1\n" + DOT, "syntax", 1), ("#C c\n#CXRLE Gen=1\n#CXRLE Gen=-1\n" + DOT, "syntax", 3), ("#C c\n#CXRLE Pos=+1,1\nbo$!", "syntax", 2),
    ("#C c\n#CXRLE Gen=9223372036854775808\n" + DOT, "gen too large", 2),
    # the fault of XLife's rule stands at the header that has none
    ("#r 23/3\n#C c\nx = 1, y = 1\no!", "xlife rule", 3), ("#C c\n#r 23/3\nx = 1, y = 1,\no!", "header", 3),
    (HEADER + "0o!", "syntax", 2), (HEADER + "2o$\n2oz!", "syntax", 3), (HEADER + "2o$\n\n\n2!", "syntax", 5), (HEADER + "o\r\nz!", "syntax", 3),
    (HEADER + "o\n# z\nz!", "syntax", 4), (HEADER + "o\n   3\tz!", "syntax", 3), (HEADER + "oz\n$!", "syntax", 2), (HEADER + "o $ o   \n  p A!", "syntax", 3),
    (HEADER + "99999999999999999999b\n0b!", "syntax", 3),
    (HEADER + "o\nyP!", "bad state", 3), (HEADER + "yX\n!", "bad state", 2),
    # what is missing at the end is missing on the line of the last byte
    (HEADER + "3o", "no end", 2), (HEADER + "3o\n", "no end", 2), (HEADER + "3o\n\n\n", "no end", 4), (HEADER + "3o$\n3o$\n", "no end", 3),
    (HEADER.strip(), "no end", 1), (HEADER, "no end", 1), (HEADER + "o\n# o!", "no end", 3), (HEADER + "o\n3", "no end", 3),
    (HEADER + "o\n3\n\n\n", "no end", 3), (HEADER + "o$\np", "no end", 3),
    (HEADER + "4611686018427387905b!", "range", None), (f"#CXRLE Pos={EDGE},0\n" + HEADER + "!", "range", None),
    (HEADER + "16777217o!", "too many cells", None),
)


def printed_by_commands(kind, rule, states, cells, generation=0):
    """What each of these commands prints of a file of this kind with these cells."""
    pattern = macrocell.Pattern(macrocell.tree_of(cells), rule, generation)
    return pattern.shown(kind=kind), macrocell.tidy(pattern, states), rle.tidy(cells, rule, generation, states), drawn(cells, states)


def with_file(command, path, *more):
    """The words of a command over a file."""
    return [command[0], path, *command[1:], *more]


def where(path, line):
    """A file, and its faulty line where there is one."""
    return path if line is None else b"%s, line %d" % (path, line)
