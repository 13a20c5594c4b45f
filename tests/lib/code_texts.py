"""Apgcodes and the cells that they stand for: of known objects, as Catagolue and LifeWiki have them, and of pictures whose codes were worked out by hand as
LifeWiki's page "Apgcode" says. Texts that are the representation of no cells, too.

A picture is rows with a `*` for each live cell.
"""

# Codes of Catagolue and LifeWiki, whose representations are those of a phase of the object.
STILL_LIFES = (
    "xs4_33", "xs4_252", "xs5_253", "xs6_696", "xs6_356", "xs6_bd", "xs6_25a4", "xs6_39c", "xs7_2596", "xs7_178c", "xs7_25ac", "xs7_3lo", "xs8_6996",
    "xs8_69ic", "xs8_35ac", "xs8_178k8", "xs8_25ak8", "xs8_312ko", "xs8_3pm", "xs9_4aar", "xs9_178ko", "xs9_25ako", "xs9_31ego", "xs10_g8o652z01",
    "xs11_g8o652z11", "xs12_g8o653z11", "xs14_g88m952z121", "xs16_g88m996z1221",
)
OSCILLATORS = (
    "xp2_7", "xp2_7e", "xp2_318c", "xp2_2a54", "xp3_695qc8zx33", "xp3_co9nas0san9oczgoldlo0oldlogz1047210127401", "xp4_37bkic", "xp5_idiidiz01w1",
    "xp5_3pmwmp3zx11", "xp6_ccb7w66z066", "xp14_j9d0d9j", "xp15_4r4z4r4", "xp30_w33z8kqrqk8zzzx33", "xp46_330279cx1aad3y833zx4e93x855bc",
)
SPACESHIPS = ("xq4_153", "xq4_6frc", "xq4_27dee6", "xq4_27deee6", "xq7_3nw17862z6952")

# Pictures of the phases whose representations Catagolue has.
PHASES = {
    "xs4_33": ("**", "**"),
    "xs6_696": (".*.", "*.*", "*.*", ".*."),
    "xs5_253": (".**", "*.*", ".*."),
    "xs4_252": (".*.", "*.*", ".*."),
    "xp2_7": ("*", "*", "*"),
    "xq4_153": ("***", "..*", ".*."),
    "xq4_6frc": (".**.", "***.", "**.*", ".***", "..*."),
    "xp15_4r4z4r4": (".*.", ".*.", "*.*", ".*.", ".*.", ".*.", ".*.", "*.*", ".*.", ".*."),
    "xp3_co9nas0san9oczgoldlo0oldlogz1047210127401": (
        "..**.....**..", "...**...**...", "*..*.*.*.*..*", "***.**.**.***", ".*.*.*.*.*.*.", "..***...***..", ".............", "..***...***..", ".*.*.*.*.*.*.",
        "***.**.**.***", "*..*.*.*.*..*", "...**...**...", "..**.....**..",
    ),
}

WEST, EAST, DEAD = ("*" + "." * 39,), ("." * 39 + "*",), ("." * 40,)

# Pictures, the representation of each, and the least representation of its eight turns and reflections.
PICTURES = (
    (("*",), "1", "1"),
    # one, two, three, four and five columns without cells; the least ones are those of columns of cells
    (("*.*",), "101", "5"),
    (("*..*",), "1w1", "9"),
    (("*...*",), "1x1", "h"),
    (("*....*",), "1y01", "1z1"),
    (("*.....*",), "1y11", "1z2"),
    # fourteen and fifteen, whose digits are `a` and `b`
    (("*" + "." * 14 + "*",), "1ya1", "1ya1"),
    (("*" + "." * 15 + "*",), "1yb1", "1yb1"),
    # five rows, and six
    (("*",) * 5, "v", "v"),
    (("*",) * 6, "vz1", "vz1"),
    # a strip without cells
    (("*", *"." * 9, "*"), "1zz1", "1y51"),
    # columns without cells at the end of a strip, which aren't written, and at its beginning, which are
    (("*.", "..", "..", "..", "..", ".*"), "1z01", "01z1"),
    ((".*", "..", "..", "..", "..", "*."), "01z1", "01z1"),
    (("*..*", "....", "....", "....", "....", ".*.."), "1w1z01", "2y09"),
    # two corners of the largest box, with 39 columns without cells beside them
    ((*WEST, *DEAD * 38, *EAST), "1zzzzzzzyzg", "1zzzzzzzyzg"),
    ((*EAST, *DEAD * 38, *WEST), "yz1zzzzzzzg", "1zzzzzzzyzg"),
    # the largest box, full
    (("*" * 40,) * 40, "v" * 40 + ("z" + "v" * 40) * 7, "v" * 40 + ("z" + "v" * 40) * 7),
    # columns of five cells with columns without cells between them: on their side they take five characters or more
    *((("*" + "." * gap + "*",) * 5, f"v{text}v", f"v{text}v") for gap, text in (
        (1, "0"), (2, "w"), (3, "x"), (4, "y0"), (5, "y1"), (13, "y9"), (14, "ya"), (15, "yb"), (38, "yy"))),
    # of mirrored texts the one whose first other character is less: `w` before `x`, `0` before `w`, `9` before `a`, and the last one alone
    (("*...*..*",) * 5, "vxvwv", "vwvxv"),
    (("*..*.*",) * 5, "vwv0v", "v0vwv"),
    ((".**", "**.", ".*.", "***", ".*."), "av9", "9va"),
    ((".*.", ".**", "**.", ".*.", ".**"), "4vi", "4v9"),
)

# Texts that are the representation of no cells in their smallest box.
NONE_OF_ANY = (
    # no cells
    b"", b"0", b"z", b"zz",
    # cells that don't begin in the west, or in the north
    b"033", b"w33", b"x33", b"y033", b"66", b"g", b"z33",
    # columns without cells at the end, written all the same
    b"330", b"33w", b"33x", b"33y0", b"10z1",
    # a strip without cells at the end
    b"33z", b"1zz",
    # columns without cells that are written in two parts, or not as they should be
    b"1001", b"10001", b"10w1", b"1wx1", b"1x01", b"1y1", b"1y",
    # more than 40 columns, or rows
    b"1yz1", b"11yz1", b"1yzzyz1", b"1zzzzzzzz1", b"vzvzvzvzvzvzvzvzv",
    # no digits
    b"33A", b"3\x003", b"3_3", b"1yA1", b"3/3", b"3:3", b"3`3", b"3{3",
    # bytes from 128 onwards
    b"\x80", b"3\x803", b"1y\xb01", b"\xb33", b"3\xff",
    # whole codes
    b"xs4_33", b"xq4_153",
)

# Texts with a blank, which no code has.
BLANK = (b"3 3", b" 33", b"1y 1")

# Files, and the codes of their patterns, or none.
FILES = (
    ("x = 3, y = 1\n3o!", "xp2_7"),
    ("x = 3, y = 3\nbo$2bo$3o!", "xq4_153"),
    # the block, with eight neighbours and with four
    ("x = 2, y = 2, rule = B36/S23\n2o$2o!", "xs4_33"),
    ("x = 2, y = 2, rule = B/S2V\n2o$2o!", "xs4_33"),
    # no code, with six neighbours or three states
    ("x = 2, y = 2, rule = B/S23H\n2o$2o!", None),
    ("x = 2, y = 2, rule = 23/3/3\n2o$2o!", None),
    # no code of what dies, or is empty
    ("x = 1, y = 1\no!", None),
    ("x = 0, y = 0\n!", None),
    # two blinkers, of which one phase fits into 40 by 40 cells, and none
    ("x = 40, y = 3\no38bo$o38bo$o38bo!", "xp2_7yy7"),
    ("x = 42, y = 1\n3o36b3o!", "xp2_7yy7"),
    ("x = 41, y = 3\no39bo$o39bo$o39bo!", "ov_p2"),
    # two blocks, and two gliders
    ("x = 40, y = 2\n2o36b2o$2o36b2o!", "xs8_33yw33"),
    ("x = 41, y = 2\n2o37b2o$2o37b2o!", "ov_s8"),
    ("x = 103, y = 3\nbo99bo$2bo99bo$3o97b3o!", "ov_q4"),
)
