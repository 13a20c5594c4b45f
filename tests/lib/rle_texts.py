"""RLE texts: the cells of some, computed by hand, and what is wrong with others."""
from lib.macrocell import EDGE

HEADER = "x = 3, y = 3, rule = B3/S23\n"

# Bodies after a usual header, and their live cells.
BODIES = (
    ("2o$2o!", [(0, 0), (1, 0), (0, 1), (1, 1)]),
    ("bo$2bo$3o!\n", [(1, 0), (2, 1), (0, 2), (1, 2), (2, 2)]),
    ("3$o!", [(0, 3)]),
    ("o!zzz", [(0, 0)]),
    ("!", []),
    (".A2.A$A!", [(1, 0), (4, 0), (0, 1)]),
    ("3\n# c, 2o!\no!", [(0, 0), (1, 0), (2, 0)]),
    ("\r\n \t#CXRLE Pos=9,9\r\n\r\n3 \r\n o\r\n#r 1/2\n!", [(0, 0), (1, 0), (2, 0)]),
    ("  3o!", [(0, 0), (1, 0), (2, 0)]),
    ("003o!", [(0, 0), (1, 0), (2, 0)]),
    # Each count is 2^62, and together they are more than 2^64.
    (f"{4 * EDGE}b{4 * EDGE}b{4 * EDGE}b\n{4 * EDGE}b{4 * EDGE}b$o${4 * EDGE}b!", [(0, 1)]),
    (f"o{4 * EDGE}${4 * EDGE}${4 * EDGE}$\n{4 * EDGE}${4 * EDGE}$!", [(0, 0)]),
    (f"{4 * EDGE}${4 * EDGE}$!", []),
    (f"o{4 * EDGE}b$o!", [(0, 0), (0, 1)]),
)

# Whole files, and their live cells.
FILES = (
    ("#N R-pentomino\r\n#C a comment\r\n#CXRLE Pos=-1,-1 Gen=7\r\nx = 3, y = 3, rule = B3/S23\r\nb2o$2o$bo!\r\n", [(0, -1), (1, -1), (-1, 0), (0, 0), (0, 1)]),
    ("#N Glider\n#CXRLE Pos=-3,4 Gen=7\nx = 3, y = 3, rule = B3/S23\n3o!\n", [(-3, 4), (-2, 4), (-1, 4)]),
    ("#CXRLE Pos=-2,7\nx = 3, y = 3\nbo$2bo$3o!", [(-1, 7), (0, 8), (-2, 9), (-1, 9), (0, 9)]),
    ("#CXRLE Pos=1,2 Gen=5 Pos=-3,-0\n  #CXRLE Gen=9223372036854775807\r\nx = 1, y = 1\no!", [(-3, 0)]),
    ("x=0,y=0\no!", [(0, 0)]),
    (" x  = 00 ,\ty = 0 \no!", [(0, 0)]),
    ("\n \nx = 1, y = 1, rule =\no!", [(0, 0)]),
    ("#r\r\nx = 1, y = 1, rule = \no!", [(0, 0)]),
    ("x = 1, y = 1, rule = \t\no!", [(0, 0)]),
    ("#CXRLEPos=1\n # Pos=2\nx = 1, y = 1\no!", [(0, 0)]),
    ("#CXRLE pos=1 Pos Gen:3\nx = 1, y = 1\no!", [(0, 0)]),
    ("#CXRLE Gen=0000000000000000000000000000001\nx = 9999999999999999999999999999999999999999, y = 1\no!", [(0, 0)]),
    ("x=0,y=0,rule=23/3\no!", [(0, 0)]),
    (f"#CXRLE Pos={EDGE - 1},0\n{HEADER}o!", [(EDGE - 1, 0)]),
    (f"#CXRLE Pos={EDGE - 1},{EDGE - 1}\n{HEADER}o9b$9b$!", [(EDGE - 1, EDGE - 1)]),
    (f"#CXRLE Pos=-{EDGE},{EDGE - 1}\n{HEADER}o!", [(-EDGE, EDGE - 1)]),
    (f"#CXRLE Pos=-{EDGE},-{EDGE}\n{HEADER}{EDGE}${EDGE}bo!", [(0, 0)]),
)

# Bodies after a usual header, and what is wrong with them.
BAD_BODIES = (
    ("3o", "no end"), ("3", "no end"), ("p", "no end"), ("op", "no end"), ("# o!", "no end"), ("o\n# o!", "no end"), ("2o$2o", "no end"),
    ("0", "syntax"), ("0!", "syntax"), ("0b!", "syntax"), ("00b!", "syntax"), ("0o!", "syntax"), ("2!", "syntax"), ("3!", "syntax"), ("z!", "syntax"),
    ("1 2o!", "syntax"), ("3 4o!", "syntax"), ("p A!", "syntax"), ("o#!", "syntax"), ("o # o!", "syntax"), ("0yP!", "syntax"),
    ("99999999999999999999b2!", "syntax"), ("99999999999999999999999999999999999999999o?", "syntax"),
    ("yP!", "bad state"), ("yX!", "bad state"),
    ("9999999999999999999b!", "range"), ("99999999999999999999999999999999999999999b!", "range"), (f"{4 * EDGE + 1}b!", "range"),
    (f"{4 * EDGE + 1}$!", "range"),
    (f"{EDGE}bo!", "range"), (f"{4 * EDGE}$o!", "range"), (f"{4 * EDGE}${4 * EDGE}$o!", "range"), (f"{EDGE + 1}o!", "range"),
    ("16777217o!", "too many cells"), (f"{EDGE}o!", "too many cells"),
)

# Whole files, and what is wrong with them.
BAD_FILES = (
    ("", "header"), ("#C only a comment", "header"), ("#C only a comment\n", "header"), (" [M2]\n", "header"), ("[M1]\n", "header"), ("[M2", "header"),
    ("bo$!", "header"), ("bo$2bo$3o!", "header"),
    ("\ufeffx = 1, y = 1\no!", "header"), ("x = 3, y = 3,\n3o!", "header"), ("x = 3, y = 3, rules = B3/S23\no!", "header"), ("X = 3, y = 3\n3o!", "header"),
    ("x = -3, y = 3\n3o!", "header"), ("x = 3, y = \n3o!", "header"), ("x = 3\ny = 3\n3o!", "header"), ("#r 23/3\nx = 1, y = 1,\no!", "header"),
    ("#r 23/3\nx = 1, y = 1\no!", "xlife rule"), ("#r 23/3\nx = 1, y = 1\n0o!", "xlife rule"), (" #r\t\n# c\nx = 1, y = 1, rule =\no!", "xlife rule"),
    ("#CXRLE Gen=9223372036854775808\nx = 1, y = 1\no!", "gen too large"), ("#CXRLE Gen=9223372036854775808 Gen=1\nx = 1, y = 1\no!", "gen too large"),
    ("#CXRLE Gen=9223372036854775808 Gen=1 Pos=1\nx = 1, y = 1", "gen too large"),
    ("#CXRLE Pos=1\nx = 1, y = 1\no!", "syntax"), ("#CXRLE Pos=1,\nx = 1, y = 1\no!", "syntax"), ("#CXRLE Pos=+1,1\nx = 1, y = 1\no!", "syntax"),
    ("#CXRLE Pos=1,2,3\nx = 1, y = 1\no!", "syntax"), ("#CXRLE Pos=1, 2\nx = 1, y = 1\no!", "syntax"), ("#CXRLE Gen=-1\nx = 1, y = 1\no!", "syntax"),
    ("#CXRLE Gen=-1 Gen=9223372036854775808\nx = 1, y = 1\no!", "syntax"), ("#CXRLE Gen=", "syntax"),
    ("x = 3, y = 3", "no end"), (f"#CXRLE Pos={EDGE},0\nx = 1, y = 1", "no end"), (f"#CXRLE Pos=0,-{EDGE + 1}\nx = 1, y = 1\n", "no end"),
    # The pattern is read before its rule.
    ("x = 2, y = 2, rule = Life\n2o$2o", "no end"),
    (f"#CXRLE Pos={EDGE},0\n{HEADER}o!", "range"), (f"#CXRLE Pos={EDGE},0\n{HEADER}!", "range"), (f"#CXRLE Pos=0,-{EDGE + 1}\n{HEADER}!", "range"),
    (f"#CXRLE Pos=0,-{EDGE + 1}\n{HEADER}$o!", "range"), (f"#CXRLE Pos={EDGE - 1},0\n{HEADER}2o!", "range"),
    (f"#CXRLE Pos={EDGE - 1},{EDGE - 1}\n{HEADER}2o!", "range"),
    (f"#CXRLE Pos={EDGE - 1},{EDGE - 1}\n{HEADER}$o!", "range"), ("#CXRLE Pos=0,-99999999999999999999999\nx = 1, y = 1\no!", "range"),
)
