#!/usr/bin/env -S python3 -B
"""`cafile import`: Life 1.06, Life 1.05, plaintext and apgcodes, translated into RLE and macrocell, and what is wrong with such texts.

    tests/imports.py [--count N] [--seed S]

What the examples come to was computed by hand, and codes of known objects are those of LifeWiki: their cells are a phase of the object. N mutated texts of each
format are compared with a reader in Python (lib/other_formats.py), and what is printed is read again by `show`. The same seed and count give the same texts.
"""
import argparse
import os
import random
import tempfile

from lib import apgcode, macrocell, other_formats
from lib.other_formats import EDGE
from lib.program import ROOT, Outcome, Runs, Tally, ample, fault, run
from lib.rle import cells_and_rule, tidy
from lib.rle_reader import Fault
from lib.steps import next_live

GLIDER = {(1, 0): 1, (2, 1): 1, (0, 2): 1, (1, 2): 1, (2, 2): 1}

# Texts, their cells, and the rule that they name.
TEXTS = (
    ("#Life 1.06\n1 0\n2 1\n0 2\n1 2\n2 2\n", GLIDER, None),
    ("#Life 1.06\r\n# a remark\r\n\r\n 2\t2 \r\n1 2\r\n0 2\r\n2 1\r\n1 0\r\n1 0\r\n", GLIDER, None),
    (f"#Life 1.06\n-{EDGE} {EDGE - 1}\n00 -0\n", {(-EDGE, EDGE - 1): 1, (0, 0): 1}, None),
    ("#Life 1.06", {}, None),
    ("#Life 1.05\n#D Glider\n#N\n#P 0 0\n.*.\n..*\n***\n", GLIDER, "B3/S23"),
    ("#Life 1.05\n#R 23/36\n#P 1 0\n*\n.*\n\n#P 0 2\n***\n", GLIDER, "B36/S23"),
    ("#Life 1.05\n#C no place\n#P\n.*\n..*\n***", GLIDER, None),
    ("#Life 1.05\n#P -3 -2\n**\n#P -2 -2\n**\n", {(-3, -2): 1, (-2, -2): 1, (-1, -2): 1}, None),
    ("#Life 1.05\n#R 23/3\n#R 125/36\n#P 5 -7\n*\n", {(5, -7): 1}, "B36/S125"),
    ("!Name: Glider\n!\n.O\n..O\nOOO\n", GLIDER, None),
    ("!\n.O\n\n..*\r\nO*O.. \n", {(1, 0): 1, (2, 2): 1, (0, 3): 1, (1, 3): 1, (2, 3): 1}, None),
    ("\n.O\n..O\nOOO", {(x, y + 1): 1 for x, y in GLIDER}, None),
    ("...", {}, None),
    ("xs4_33", {(0, 0): 1, (1, 0): 1, (0, 1): 1, (1, 1): 1}, None),
    ("\n\r\n\t xp2_7 \r\n", {(0, 0): 1, (0, 1): 1, (0, 2): 1}, None),
    ("xq4_153\n", {(0, 0): 1, (1, 0): 1, (2, 0): 1, (2, 1): 1, (1, 2): 1}, None),
    ("xs7_25ac\n", {(1, 0): 1, (0, 1): 1, (2, 1): 1, (1, 2): 1, (3, 2): 1, (2, 3): 1, (3, 3): 1}, None),
    ("xp15_4r4z4r4", {**{(1, y): 1 for y in (0, 1, 3, 4, 5, 6, 8, 9)}, **{(x, y): 1 for x in (0, 2) for y in (2, 7)}}, None),
    ("xp0099_33", {(0, 0): 1, (1, 0): 1, (0, 1): 1, (1, 1): 1}, None),
    ("xq1_1yy1", {(0, 0): 1, (39, 0): 1}, None),
    ("xq1_1zzzzzzzg", {(0, 0): 1, (0, 39): 1}, None),
    ("xs1_" + "v" * 40 + ("z" + "v" * 40) * 7, {(x, y): 1 for x in range(40) for y in range(40)}, None),
    ("xp9_101w1x1y01", {(x, 0): 1 for x in (0, 2, 5, 9, 14)}, None),
)

# Texts that are refused, and their faults.
REFUSED = (
    ("", "unknown format"), ("\n\n", "unknown format"), ("x = 3, y = 3\n3o!\n", "unknown format"), ("[M2]\n", "unknown format"), ("glider", "unknown format"),
    ("#Life 1.07\n0 0\n", "unknown format"), ("#Life 1.06 x\n0 0\n", "unknown format"),
    ("#Life 1.06\n0 0\n1\n", "import line 3: syntax"), ("#Life 1.06\n0 0 0\n", "import line 2: syntax"), ("#Life 1.06\n+1 0\n", "import line 2: syntax"),
    ("#Life 1.06\n1 x\n", "import line 2: syntax"), (f"#Life 1.06\n0 0\n{EDGE} 0\n", "import line 3: range"), (f"#Life 1.06\n0 -{EDGE + 1}\n", "import line 2: range"),
    (f"#Life 1.06\n{10 ** 40} 0\n", "import line 2: range"),
    ("#Life 1.05\n*\n", "import line 2: no corner"), ("#Life 1.05\n#P 0\n*\n", "import line 2: syntax"), ("#Life 1.05\n#P 0 0\n*o\n", "import line 3: syntax"), ("#Life 1.05\n#R 23/3/4\n", "import line 2: syntax"),
    ("#Life 1.05\n#R\n", "import line 2: syntax"), ("#Life 1.05\n#R /0\n", "import line 2: syntax"), ("#Life 1.05\n#R 23/3 x\n", "import line 2: syntax"),
    (f"#Life 1.05\n#P {EDGE} 0\n*\n", "import line 2: range"), (f"#Life 1.05\n#P {EDGE - 1} 0\n**\n", "import line 3: range"),
    (f"#Life 1.05\n#P 0 {EDGE - 1}\n*\n*\n", "import line 4: range"),
    ("!\n.O\n.o\n", "import line 3: syntax"), (".O\n!ok\n O\n", "import line 3: syntax"),
    *((text, "unknown format") for text in ("xq4_153 x", "xq4_153\nxp2_7", "#C\nxq4_153", "ov_p57960", "yl384_1_59_7aeec03defdb8c1f8c8d9d3fbb1a1c0a", "zz_LINEAR", "xs4", "xs4-33", "xs_33",
                                           "x4_33", "xr4_33", "Xs4_33", "xS4_33", "_33", "xs4 _33", "xs4\n_33")),
    *((text, "import line 1: syntax") for text in ("xs4_", "xs4_33_", "xs4__33", "xs0_0", "xs4_330", "xs4_33z", "xs4_33w", "xs4_033", "xs4_z33", "xs4_3A", "xs4_3y", "xs4_200333", "xs4_3.3",
                                                  "xs2_1x01", "xs2_1yz1", "xs2_1zzzzzzzz1", "xs4_2", "xs4_66", "xs4_w", "xp2_7xs4_33", "xs4_3\x003", "xs4_33\xe9")),
    ("\n\n \r\n xq4_15z", "import line 4: syntax"), ("xq4_15Z\n\n", "import line 1: syntax"),
)

# Words for the rule, and what is written, or the fault.
RULES = (
    (None, "B3/S23", 2), ("s23b36", "B36/S23", 2), ("B2/S34h", "B2/S34H", 2), ("345/2/4", "345/2/4", 4), ("B2-a/S12", "B2-a/S12", 2), ("WireWorld", "WireWorld", 2),
)
BAD_RULES = (("B0/S23", "bad rule: wakes"), ("B3/S23:T9,9", "bad rule: bounded"))

PIECES = (b"\n", b"\r\n", b" ", b"\t", b"#", b"-", b"0", b"1", b"*", b".", b"O", b"!", b"#P", b"#P 1 2\n", b"#R 23/3\n", b"#N\n", b"#D\n", b"-1 2\n", b"x", b"\x00", b"\xff", b"y", b"z", b"w", b"_", b"xs4_", b"%d" % EDGE, b"-%d" % (EDGE + 1))


def good_text(chance, kind):
    """A text of a format."""
    if kind == 3:
        wide, high = (chance.choice((1, 3, 9, 40, 41)) for _ in range(2))
        soup = {(chance.randrange(wide), chance.randrange(high)) for _ in range(chance.choice((1, 4, 30)))}
        return chance.choice(("", "\n", " \r\n")) + f"x{chance.choice('spq')}{chance.randint(0, 99)}_{apgcode.representation(soup)}" + chance.choice(("", "\n", " \r\n"))
    cells = sorted({(chance.randint(-4, 9), chance.randint(-4, 9)) for _ in range(chance.randint(0, 12))}, key=lambda _: chance.random())
    if kind == 0:
        return "#Life 1.06\n" + "".join(f"{x} {y}\n" for x, y in cells)
    rows = [["".join(chance.choice(".*" if kind == 1 else ".*O") for _ in range(chance.randint(kind == 1, 7))) for _ in range(chance.randint(0, 5))] for _ in range(3)]
    if kind == 1:
        return "#Life 1.05\n" + "".join(f"#P {chance.randint(-9, 9)} {chance.randint(-9, 9)}\n" + "".join(f"{it}\n" for it in block) for block in rows)
    return "!Name\n" + "".join(f"{it}\n" for it in rows[0])


def mutated(chance, text):
    """The text with a few pieces put in, left out or exchanged."""
    for _ in range(chance.choice((0, 0, 1, 1, 2, 4))):
        at, end = sorted(chance.randint(0, len(text)) for _ in range(2))
        text = text[:at] + chance.choice(PIECES) + text[chance.choice((at, at + 1, end if end - at < 6 else at)):]
    return text


def wanted_of(text):
    """What is printed of a text."""
    try:
        return ample(other_formats.rle_of(text))
    except Fault as it:
        return fault(f"import line {it.line}: {it.kind}" if it.line else it.kind)


def check_examples(runs, tally):
    """Texts of all formats, as RLE and as macrocell."""
    for at, (text, cells, rule) in enumerate(TEXTS):
        path = runs.path(f"{at}.txt", text)
        rle = tidy(cells, rule or "B3/S23", 0, 2)
        runs.expect("a text", ["import", path], ample(rle))
        runs.expect("from standard input", ["import", "-"], ample(rle), input=text.encode())
        runs.expect("to rle", ["import", path, "--to", "rle"], ample(rle))
        tree = macrocell.tidy(macrocell.Pattern(macrocell.tree_of(cells), rule or "B3/S23", 0), 2)
        runs.expect("to mc", ["import", path, "--to", "mc"], ample(tree))
        back = runs.path(f"{at}.mc", tree)
        runs.expect("read again", ["convert", back, "--to", "rle"], ample(rle))
    runs.tell(tally, "texts of all formats")


def check_refused(runs, tally):
    """Texts that are refused."""
    for at, (text, told) in enumerate(REFUSED):
        path = runs.path(f"{at}.bad", text)
        runs.expect("a refused text", ["import", path], fault(told))
        runs.expect("as macrocell", ["import", path, "--to", "mc"], fault(told))
    lost = runs.path("lost.lif")
    runs.expect("a lost file", ["import", lost], fault(f"cannot read {lost}"))
    runs.tell(tally, "texts that are refused")


def check_rules(runs, tally):
    """The rule of texts that name none."""
    path, own = runs.path("glider.cells", "!\n.O\n..O\nOOO\n"), runs.path("own.lif", "#Life 1.05\n#R 23/36\n#P\n.*\n..*\n***\n")
    for word, rule, states in RULES:
        words = ["--rule", word] if word else []
        runs.expect("a rule", ["import", path, *words], ample(tidy(GLIDER, rule, 0, states)))
        runs.expect("a rule of its own", ["import", own, *words], ample(tidy(GLIDER, "B36/S23", 0, 2)))
        tree = macrocell.tidy(macrocell.Pattern(macrocell.tree_of(GLIDER), rule, 0), states)
        runs.expect("a rule in macrocell", ["import", path, "--to", "mc", *words], ample(tree))
    for word, told in BAD_RULES:
        runs.expect("a bad rule", ["import", path, "--rule", word], fault(told))
    runs.tell(tally, "rules")


def check_large(runs, tally):
    """Many cells, in any order, and the most that an RLE may have."""
    cells = [(x * 7919 % 1000, y) for y in range(100) for x in range(1000) if (x * y) % 3]
    random.Random(1).shuffle(cells)
    path = runs.path("large.lif", "#Life 1.06\n" + "".join(f"{x} {y}\n" for x, y in cells))
    runs.expect("many cells", ["import", path], ample(tidy({it: 1 for it in cells}, "B3/S23", 0, 2)))
    full = runs.path("full.cells", "O" * 4096 + ("\n" + "O" * 4096) * 4095)
    got = run(["import", full])
    wanted = b"#CXRLE Pos=0,0\nx = 4096, y = 4096, rule = B3/S23\n" + "\n".join(("4096o$" * 11, "4096o$" * 10)[:1]).encode()
    runs.count += 1
    if got.status or not got.printed.startswith(wanted):
        runs.complaints.append(f"16777216 cells: {Outcome(got.printed[:100], got.complaint, got.status)}")
    over = runs.path("over.cells", "O" * 4096 + ("\n" + "O" * 4096) * 4095 + "\nO")
    runs.expect("one cell more", ["import", over], fault("import line 4097: too many cells"))
    chance = random.Random(2)
    soup = {(x, y): 1 for y in range(1000) for x in range(1700) if chance.random() < 0.5}
    path = runs.path("soup.cells", "\n".join("".join(".O"[(x, y) in soup] for x in range(1700)) for y in range(1000)))
    texts = tidy(soup, "B3/S23", 0, 2), macrocell.tidy(macrocell.Pattern(macrocell.tree_of(soup), "B3/S23", 0), 2)
    runs.expect("much that is written", ["import", path], ample(texts[0]))
    runs.expect("much that is written to mc", ["import", path, "--to", "mc"], ample(texts[1]))
    if min(map(len, texts)) < 1 << 20:
        runs.complaints.append(f"only {[len(it) for it in texts]} bytes are written")
    runs.tell(tally, "many cells, and much that is written")


def check_long(runs, tally):
    """Texts of many lines, of which each may be read."""
    places = [(at * 7919 % 101, at // 7 % 100) for at in range(1000000)]
    square = {it: 1 for it in places}
    tree = macrocell.tidy(macrocell.Pattern(macrocell.tree_of(square), "B3/S23", 0), 2)
    corner = {(0, 300000): 1}
    deep = macrocell.tidy(macrocell.Pattern(macrocell.tree_of(corner), "B3/S23", 0), 2)
    texts = (("#Life 1.06\n" + "".join(f"{x} {y}\n" for x, y in places), square, tree),
             ("#Life 1.05\n" + "".join(f"#P {x} {y}\n*\n" for x, y in places), square, tree),
             ("!\n" * 300000 + ".\n" * 300000 + "O", corner, deep),
             ("\n" * 1000000 + "xs" + "1" * 1000000 + "_1" + " \r\n" * 1000000, {(0, 0): 1}, macrocell.tidy(macrocell.Pattern(macrocell.tree_of({(0, 0): 1}), "B3/S23", 0), 2)))
    for at, (text, cells, macro) in enumerate(texts):
        path = runs.path(f"long{at}.txt", text)
        runs.expect("a long text", ["import", path], ample(tidy(cells, "B3/S23", 0, 2)))
        runs.expect("a long text to mc", ["import", path, "--to", "mc"], ample(macro))
    for text, line in (("\n" * 1000000 + "xs4_" + "3" * 1000000, 1000001), ("xs4_3" + "z" * 1000000 + "3", 1)):
        path = runs.path("long.txt", text)
        runs.expect("a long code", ["import", path], fault(f"import line {line}: syntax"))
    runs.tell(tally, "long texts")


def phases_of(cells, period):
    """The phases of an object in all eight orientations, each from 0,0."""
    for _ in range(period):
        for turn in apgcode.ORIENTATIONS:
            turned = {turn(x, y) for x, y in cells}
            left, top = apgcode.box(turned)[:2]
            yield {(x - left, y - top) for x, y in turned}
        cells = next_live(cells, {3}, {2, 3})


def check_known(runs, tally):
    """Codes of known objects: what is imported is a phase of the object, and has this code."""
    for path, code in apgcode.KNOWN.items():
        with open(os.path.join(ROOT, path), encoding="utf-8") as file:
            known = set(cells_and_rule(file.read())[0])
        got = run(["import", "-"], input=code.encode())
        cells = set(cells_and_rule(got.printed.decode())[0])
        runs.count += 1
        if cells not in phases_of(known, 1 if code[1] == "s" else int(code[2:code.index("_")])):
            runs.complaints.append(f"{code}: {got} isn't a phase of {path}")
        file = runs.path(f"{code}.rle", got.printed.decode())
        named = run(["identify", "--apgcode", file])
        runs.count += 1
        if not named.printed.endswith(f": {code}\n".encode()):
            runs.complaints.append(f"{code}: identified as {named}")
    runs.tell(tally, "codes of known objects")


def check_largest(runs, tally):
    """Codes of the largest boxes, 40 by 40 cells and such rows and columns: full, at random, and with cells in the corners alone."""
    chance = random.Random(40)
    for wide, high in ((40, 40), (40, 1), (1, 40), (40, 39), (39, 40)):
        places = [(x, y) for x in range(wide) for y in range(high)]
        corners = {(x, y) for x in (0, wide - 1) for y in (0, high - 1)}
        for cells in (set(places), corners, corners | {it for it in places if chance.random() < 0.5}):
            text = f"xs0_{apgcode.representation(cells)}"
            runs.expect("a code of a large box", ["import", "-"], ample(tidy({it: 1 for it in cells}, "B3/S23", 0, 2)), input=text.encode())
    for text in ("xs0_y" + "z" * 2 + "1", "xs0_" + "z" * 8 + "1", "xs0_" + "1" * 41):
        runs.expect("a code of a box that is too large", ["import", "-"], fault("import line 1: syntax"), input=text.encode())
    runs.tell(tally, "codes of the largest boxes")


def check_mutated(runs, tally, count, seed):
    """Mutated texts."""
    chance = random.Random(seed)
    for at in range(count):
        text = mutated(chance, good_text(chance, at % 4).encode())
        wanted = wanted_of(text)
        runs.expect(f"text {at}, {text!r}", ["import", "-"], wanted, input=text)
        if wanted.status == 0 and at % 10 < 4:
            runs.expect("read again", ["convert", "-", "--to", "rle"], wanted, input=wanted.printed)
    runs.tell(tally, "mutated texts")


def main():
    words = argparse.ArgumentParser()
    words.add_argument("--count", type=int, default=2000)
    words.add_argument("--seed", type=int, default=1)
    asked, tally = words.parse_args(), Tally()
    with tempfile.TemporaryDirectory() as folder:
        runs = Runs(folder)
        check_examples(runs, tally)
        check_known(runs, tally)
        check_largest(runs, tally)
        check_refused(runs, tally)
        check_rules(runs, tally)
        check_large(runs, tally)
        check_long(runs, tally)
        check_mutated(runs, tally, asked.count, asked.seed)
    tally.finish()


if __name__ == "__main__":
    main()
