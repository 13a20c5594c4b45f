#!/usr/bin/env -S python3 -B
"""`draw`: pictures of windows, pictures that were drawn by hand, what no window shows, faults, and what a terminal changes.

Pictures are held against those that are made here cell by cell, apart from the program (tests/lib/pictures.py).
"""
import os
import random
import subprocess

from lib import macrocell, planes, rows
from lib.gallery import found
from lib.pictures import box_of, cells_squares, drawn, picture, squares_of, wanted_window
from lib.parts import try_all
from lib.program import ROOT, Outcome, ample, contents, fault, run
from lib.rle_reader import PatternFile
from lib.steps import next_live
from lib.terminal import on_terminal

# How far from 0 the columns and rows of a window may be.
REACH = 1 << 124

GLIDER = "x = 3, y = 3, rule = B3/S23\nbo$2bo$3o!\n"
BLINKER = "#CXRLE Pos=-1,0\nx = 3, y = 1, rule = B3/S23\n3o!\n"
BRAIN = "x = 4, y = 4, rule = /2/3\n2.A$A2B$.2BA$.A!\n"
GATE = "tests/files/tables/wireworld_or.rle"
WIREWORLD = ["--rule", "examples/tables/wireworld.rule"]
FULL, NOTHING = "examples/macrocell/full_square.mc", "examples/empty.rle"
BLOCK = "#CXRLE Pos=-1,-1\nx = 2, y = 2, rule = B3/S23\n2o$2o!\n"
STATES = "x = 4, y = 2, rule = /2/256\nABX$pApXqAyO!\n"
TRILLION = f"#CXRLE Pos={-10**12},{-10**12}\nx = 1, y = 1, rule = B3/S23\no{2 * 10**12 - 1}${2 * 10**12 - 1}bo!\n"
PAIR = f"#CXRLE Pos=-9,-9\nx = 1, y = 1, rule = B3/S23\no{10**9}$$o!\n"

# Patterns, words, and the picture, drawn by hand.
BY_HAND = (
    (GLIDER, [], ".o.\n..o\nooo\n"),
    (GLIDER, ["--scale", "0"], ".o.\n..o\nooo\n"),
    (GLIDER, ["--scale", "1"], "oo\noo\n"),
    (GLIDER, ["--scale", "2"], "o\n"),
    (GLIDER, ["--scale", "124"], "o\n"),
    (GLIDER, ["--size", "3,3"], ".o.\n..o\nooo\n"),
    (GLIDER, ["--size", "2,3"], "oo\noo\n"),
    (GLIDER, ["--size", "3,2"], "oo\noo\n"),
    (GLIDER, ["--size", "1,1"], "o\n"),
    (GLIDER, ["--size", "2,2", "--scale", "1"], "oo\noo\n"),
    (GLIDER, ["--at", "-1,-1", "--size", "5,5"], ".....\n..o..\n...o.\n.ooo.\n.....\n"),
    (GLIDER, ["--at", "1,0", "--size", "2,1"], "o.\n"),
    (GLIDER, ["--at", "0,1", "--size", "1,2"], ".\no\n"),
    (GLIDER, ["--at", "-5,-5", "--size", "4,3", "--scale", "2"], "....\n....\n..o.\n"),
    (GLIDER, ["--at", "-1,-1", "--size", "2,2", "--scale", "124"], "..\n.o\n"),
    (GLIDER, ["--at", "0,0"], ".o" + "." * 78 + "\n" + "..o" + "." * 77 + "\n" + "ooo" + "." * 77 + "\n" + ("." * 80 + "\n") * 37),
    (GLIDER, ["--at", "-79,-39"], ("." * 80 + "\n") * 40),
    (GLIDER, ["--at=-78,-39"], ("." * 80 + "\n") * 39 + "." * 79 + "o\n"),
    (GLIDER, ["--after", "2"], "..o\no.o\n.oo\n"),
    (GLIDER, ["--after", "4"], ".o.\n..o\nooo\n"),
    (GLIDER, ["--after", "4", "--at", "0,0", "--size", "4,4"], "....\n..o.\n...o\n.ooo\n"),
    (GLIDER, ["--after", "1152921504606846976", "--at", "288230376151711744,288230376151711744", "--size", "3,3"], ".o.\n..o\nooo\n"),
    (GLIDER, ["--after", "4", "--work", "1000", "--memo", "1"], ".o.\n..o\nooo\n"),
    (BLINKER, [], "ooo\n"),
    (BLINKER, ["--scale", "1"], "oo\n"),
    (BLINKER, ["--after", "1"], "o\no\no\n"),
    (BLINKER, ["--after", "1", "--scale", "1"], "o\no\n"),
    (BRAIN, [], "..A.\nABB.\n.BBA\n.A..\n"),
    (BRAIN, ["--scale", "1"], "oo\noo\n"),
    (BRAIN, ["--at", "-2,0", "--size", "3,2", "--scale", "1"], ".oo\n.oo\n"),
    (GATE, WIREWORLD, "BA......\n..C.....\n.CCCCCCC\n..C.....\nCC......\n"),
    (GATE, [*WIREWORLD, "--scale", "1"], "oo..\noooo\no...\n"),
    (GATE, [*WIREWORLD, "--after", "1"], "CB......\n..A.....\n.CCCCCCC\n..C.....\nCC......\n"),
    (BLOCK, ["--size", "2,2"], "oo\noo\n"),
    (BLOCK, ["--at", "-2,-2", "--size", "4,4"], "....\n.oo.\n.oo.\n....\n"),
    (BLOCK, ["--at", "-2,-2", "--size", "2,2", "--scale", "1"], "oo\noo\n"),
    (BLOCK, ["--at", "-4,-4", "--size", "4,4", "--scale", "1"], "....\n.oo.\n.oo.\n....\n"),
    (STATES, [], "ABX.\nax**\n"),
    (STATES, ["--scale", "1"], "oo\n"),
    (TRILLION, ["--scale", "39"], "o...\n....\n....\n...o\n"),
    (NOTHING, [], ".\n"),
    (NOTHING, ["--size", "5,5"], ".\n"),
    (NOTHING, ["--scale", "3"], ".\n"),
    (NOTHING, ["--at", "3,3", "--size", "2,1"], "..\n"),
    (FULL, [], ("o" * 32 + "\n") * 32),
    (FULL, ["--scale", "59"], "oooo\n" * 4),
    (FULL, ["--size", "2,8"], "oo\noo\n"),
    (FULL, ["--at", "1152921504606846974,0", "--size", "4,1"], "oo..\n"),
)

# The same as images: the width, the height, and the bytes of the pixels.
IMAGES = (
    (GLIDER, [], 3, 3, [255, 0, 255, 255, 255, 0, 0, 0, 0]),
    (GLIDER, ["--at", "-1,0", "--size", "3,2"], 3, 2, [255, 255, 0, 255, 255, 255]),
    (GLIDER, ["--at", "0,0"], 1024, 1024, [255, 0] + [255] * 1022 + [255, 255, 0] + [255] * 1021 + [0, 0, 0] + [255] * 1021 + [255] * 1024 * 1021),
    (BRAIN, [], 4, 4, [255, 255, 0, 255, 0, 127, 127, 255, 255, 127, 127, 0, 255, 0, 255, 255]),
    (BRAIN, ["--scale", "1"], 2, 2, [0, 0, 0, 0]),
    (STATES, [], 4, 2, [0, 1, 23, 255, 24, 47, 48, 254]),
    (NOTHING, [], 1, 1, [255]),
    (FULL, [], 1024, 1024, [0] * 1024 * 1024),
    (GLIDER, ["--zoom", "1"], 3, 3, [255, 0, 255, 255, 255, 0, 0, 0, 0]),
    (GLIDER, ["--zoom", "2"], 6, 6, [255, 255, 0, 0, 255, 255] * 2 + [255, 255, 255, 255, 0, 0] * 2 + [0] * 12),
    (GLIDER, ["--zoom", "2", "--scale", "0"], 6, 6, [255, 255, 0, 0, 255, 255] * 2 + [255, 255, 255, 255, 0, 0] * 2 + [0] * 12),
    (GLIDER, ["--zoom", "3", "--at", "0,1", "--size", "8,5"], 6, 3, [255] * 18),
    (GLIDER, ["--zoom", "3", "--at", "1,2", "--size", "8,5"], 6, 3, [0] * 18),
    (GLIDER, ["--zoom", "64", "--at", "1,0"], 1024, 1024,
     ([0] * 64 + [255] * 960) * 64 + ([255] * 64 + [0] * 64 + [255] * 896) * 64 + ([0] * 128 + [255] * 896) * 64 + [255] * 1024 * 832),
    (GLIDER, ["--zoom", "64", "--size", "192,192"], 192, 192, ([255] * 64 + [0] * 64 + [255] * 64) * 64 + ([255] * 128 + [0] * 64) * 64 + [0] * 192 * 64),
    (BRAIN, ["--zoom", "2", "--at", "0,1", "--size", "4,2"], 4, 2, [0, 0, 127, 127] * 2),
    (NOTHING, ["--zoom", "5"], 5, 5, [255] * 25),
)

# Patterns and words of which there is no window, and why.
NO_WINDOW = (
    (BLINKER, ["--size", "1,1"], "too large"), (BLINKER, ["--size", "1,40"], "too large"), (BLOCK, ["--size", "2,1"], "too large"), (GLIDER, ["--size", "2,2", "--scale", "0"], "too large"),
    (FULL, ["--scale", "0"], "too large"), (FULL, ["--scale", "47"], "too large"), (FULL, ["--size", "1,8192"], "too large"),
    (PAIR, ["--scale", "0", "--to", "pgm"], "too large"),
    (GLIDER, ["--at", f"{REACH},0", "--size", "1,1"], "out of range"), (GLIDER, ["--at", f"0,{-REACH - 1}", "--size", "1,1"], "out of range"),
    (GLIDER, ["--at", f"{REACH - 79},0"], "out of range"), (GLIDER, ["--at", f"0,{REACH - 1}", "--size", "1,2"], "out of range"),
    (GLIDER, ["--at", f"{(1 << 127) - 1},0", "--size", "1,1", "--scale", "2"], "out of range"),
    (GLIDER, ["--to", "pgm", "--zoom", "2", "--size", "5,6"], "too large"), (GLIDER, ["--to", "pgm", "--zoom", "64", "--size", "8192,191"], "too large"),
    (FULL, ["--to", "pgm", "--zoom", "1"], "too large"), (GLIDER, ["--to", "pgm", "--zoom", "9", "--size", "8,8"], "too large"),
    (GLIDER, ["--to", "pgm", "--zoom", "9", "--size", "8,9", "--at", "0,0"], "out of range"),
    (GLIDER, ["--to", "pgm", "--zoom", "9", "--size", "9,8", "--at", "0,0"], "out of range"),
)

# Words that ask for nothing.
FAULTY = (
    ["--at"], ["--at", ""], ["--at", "5"], ["--at", "5,"], ["--at", ",5"], ["--at", "5,x"], ["--at", "1,2,3"], ["--at", "1, 2"], ["--at", "1 2"],
    ["--at", "1", "2"], ["--at", "1.5,2"],
    ["--at", f"{1 << 127},0"], ["--at", "1,1", "--at", "2,2"], ["--at", "--size", "5,5"], ["--size"], ["--size", "5"], ["--size", "0,5"], ["--size", "5,0"],
    ["--size", "8193,1"],
    ["--size", "1,8193"], ["--size", "-5,5"], ["--size=-5,5"], ["--size", "5x5"], ["--size", f"{1 << 64},5"], ["--scale"], ["--scale", "-1"], ["--scale=-1"],
    ["--scale", "125"], ["--scale", "x"],
    ["--scale", ""], ["--scale", "256"], ["--to"], ["--to", "png"], ["--to", "PGM"], ["--to", "rle"], ["--after"], ["--after", "-1"], ["--after", "x"],
    ["--after", "1152921504606846977"],
    ["--zoom", "2"], ["--zoom", "1"], ["--zoom", "2", "--to", "text"], ["--to", "pgm", "--zoom"], ["--to", "pgm", "--zoom", "0"],
    ["--to", "pgm", "--zoom", "65"], ["--to", "pgm", "--zoom", "x"],
    ["--to", "pgm", "--zoom", "-1"], ["--to", "pgm", "--zoom", "2,2"], ["--to", "pgm", "--zoom", "2", "--scale", "1"],
    ["--to", "pgm", "--zoom", "1", "--scale", "124"],
    ["--memo", "0"], ["--memo", "16777217"], ["--work", "-1"], ["--work", "x"], ["--progress=yes"], ["--explain=yes"], ["--rule"], ["--rules"],
    ["examples/block.rle"],
)


def words_of(at=None, size=None, scale=None, to=None, zoom=None):
    """The words that ask for a window."""
    said = {"--at": at and ",".join(map(str, at)), "--size": size and ",".join(map(str, size)), "--scale": scale, "--to": to, "--zoom": zoom}
    return [word for name, value in said.items() if value is not None for word in (name, str(value))]


def path_of(files, pattern):
    """The path of a file of this repository, or of one that is written with these contents."""
    return pattern if pattern.startswith(("examples/", "tests/files/")) else files.path("pattern.rle", pattern)


def try_by_hand(tally, files):
    """Pictures that were drawn by hand."""
    for pattern, words, text in BY_HAND:
        path = path_of(files, pattern)
        for more in ([], ["--to", "text"], ["--explain"]):
            tally.expect(f"draw {os.path.basename(path)} {' '.join([*words, *more])}", run(["draw", path, *words, *more]), ample(text.encode()))
    for pattern, words, width, height, pixels in IMAGES:
        path = path_of(files, pattern)
        tally.expect(f"draw {os.path.basename(path)} {' '.join(words)} --to pgm", run(["draw", path, "--to", "pgm", *words]),
                     ample(b"P5\n%d %d\n255\n" % (width, height) + bytes(pixels)))
    tally.expect("standard input", run(["draw", "-"], input=GLIDER.encode()), ample(b".o.\n..o\nooo\n"))


def try_widest(tally, files):
    """Windows that are as wide or as high as any."""
    path, wide = files.path("pattern.rle", GLIDER), 8192
    for size, text in ((f"{wide},2", ".o" + "." * (wide - 2) + "\n..o" + "." * (wide - 3) + "\n"), (f"2,{wide}", ".o\n..\noo\n" + "..\n" * (wide - 3))):
        words = ["draw", path, "--at", "0,0", "--size", size]
        tally.expect(f"{size} characters", run(words), ample(text.encode()))
        pixels = bytes({"o": 0, ".": 255}[it] for it in text.replace("\n", ""))
        tally.expect(f"{size} pixels", run([*words, "--to", "pgm"]), ample(b"P5\n%s\n255\n" % size.replace(",", " ").encode() + pixels))


def windows_of(chance, box):
    """Words for some windows of a plane with this box, in and around it."""
    x0, y0, wide, high = box or (0, 0, 1, 1)
    yield {}
    yield {"to": "pgm"}
    yield {"size": (chance.randint(2, 60), chance.randint(2, 60))}
    scale = max(wide, high).bit_length() - 3
    yield {"scale": max(scale, 0)}
    for _ in range(4):
        at = x0 + chance.randint(-wide // 4 - 2, wide), y0 + chance.randint(-high // 4 - 2, high)
        yield {"at": at, "size": (chance.randint(1, 50), chance.randint(1, 30)), "scale": chance.randint(0, max(scale, 0) + 2),
               "to": chance.choice(("text", "pgm"))}
    yield {"at": (x0 - 3, y0 - 2)}
    yield {"to": "pgm", "zoom": chance.randint(1, 9)}
    yield {"to": "pgm", "zoom": chance.randint(2, 20), "at": (x0 + chance.randint(-2, 2), y0), "size": (chance.randint(20, 90), chance.randint(20, 90))}
    yield {"at": (x0, y0), "size": (chance.randint(1, 20), chance.randint(1, 20))}


def try_tree(tally, name, path, tree, states, chance, words=()):
    """Some windows of the plane of a tree."""
    complaints, count = [], 0
    for said in windows_of(chance, tree.box()):
        window = wanted_window(tree.box(), **said)
        if window is None:
            wanted = fault("window too large")
        else:
            wanted = ample(picture(squares_of(tree, window), window, states, said.get("to", "text"), said.get("zoom")))
        got, count = run(["draw", path, *words_of(**said), *words]), count + 1
        if got != wanted:
            complaints.append(f"{words_of(**said)}: wanted {wanted}, got {got}")
    tally.tell(f"{name}: {count} windows", complaints)


def try_examples(tally, _):
    """Some windows of each pattern of examples/ and tests/files/ whose rule is no table."""
    chance = random.Random(7)
    for name in found("**/*.rle", "**/*.mc"):
        file = PatternFile(contents(os.path.join(ROOT, name)))
        if file.cause:
            told = fault(file.cause)
            tally.expect(f"draw {name}", run(["draw", name]), told)
        elif file.population() < 100000 or file.is_macrocell:
            try_tree(tally, f"draw {name}", name, file.pattern().tree, file.states, chance)


def try_large(tally, files):
    """Some windows of planes of very many cells."""
    chance = random.Random(8)
    for counts in ((8, 8, 8, 8), (4, 16, 64, 64)):
        text, _ = planes.distinct_squares(counts, "B3/S23")
        path = files.path("large.mc", text)
        try_tree(tally, f"a plane of {counts}", path, macrocell.read(text.encode()).tree, 2, chance)
    lines = ["[M2]", "#R /2/255", "1 0 1 2 3", "1 253 0 254 127"]
    lines += [f"{level} {2 * level - 3} {2 * level - 2} {2 * level - 2} {2 * level - 3}\n{level} 0 {2 * level - 2} {2 * level - 3} 0" for level in range(2, 61)]
    text = "\n".join([*lines, "61 119 120 119 119", ""])
    try_tree(tally, "a plane of 2^60 cells a side with 255 states", files.path("states.mc", text), macrocell.read(text.encode()).tree, 255, chance)


def try_the_largest(tally, files):
    """The largest window, over a square of 64 by 64 random cells, again and again."""
    chance, squares = random.Random(10), macrocell.Squares()
    tile = ["".join(chance.choices(".o", (3, 1), k=64)) for _ in range(64)]
    fours = {(x, y): int(tile[y][x] == "o") for y in range(64) for x in range(64)}
    for level in range(1, 7):
        places = [(x, y) for x in range(64 >> level) for y in range(64 >> level)]
        fours = {(x, y): squares.join(level, [fours[2 * x + at % 2, 2 * y + at // 2] for at in range(4)]) for x, y in places}
    root = fours[0, 0]
    for level in range(7, 14):
        root = squares.join(level, [root] * 4)
    text = macrocell.tidy(macrocell.Pattern(macrocell.Tree(squares, root, 13), "B3/S23", 0), 2)
    path, wanted = files.path("largest.mc", text), "".join(row * 128 + "\n" for row in tile) * 128
    tally.expect("the largest picture", run(["draw", path, "--size", "8192,8192"]), ample(wanted.encode()))
    greys = [bytes({"o": 0, ".": 255}[it] for it in row) for row in tile]
    wanted = b"P5\n4096 4096\n255\n" + b"".join(row * 64 for row in greys) * 64
    tally.expect("a large image", run(["draw", path, "--at", "-2048,-2048", "--size", "4096,4096", "--to", "pgm"]), ample(wanted))
    wanted = b"P5\n4096 4096\n255\n" + b"".join(b"".join(bytes([it]) * 64 for it in row) * 64 for row in greys)
    tally.expect("a large image at a zoom", run(["draw", path, "--at", "0,0", "--size", "4096,4096", "--zoom", "64", "--to", "pgm"]), ample(wanted))


def try_after(tally, files):
    """Planes after some generations."""
    chance = random.Random(9)
    plane = rows.soup(chance, 70, 50)
    path = files.path("soup.rle", rows.text_of("B3/S23", plane))
    for generations in (1, 7, 100, 500):
        later = plane.after("B3/S23", generations)
        cells = {(later.x + x, later.y + y): 1 for y, row in enumerate(later.rows) for x in range(row.bit_length()) if row >> x & 1}
        for said in ({}, {"scale": 0}, {"at": (0, 0), "size": (30, 30)}, {"size": (9, 9)}, {"scale": 3, "to": "pgm"}):
            window = wanted_window(box_of(cells), **said)
            wanted = picture(cells_squares(cells, window), window, 2, said.get("to", "text"))
            tally.expect(f"a soup after {generations}, {said}", run(["draw", path, "--after", str(generations), *words_of(**said)]), ample(wanted))
    cells = frozenset((chance.randrange(20), chance.randrange(20)) for _ in range(150))
    tree = macrocell.tree_of(dict.fromkeys(cells, 1))
    path = files.path("odd.mc", macrocell.tidy(macrocell.Pattern(tree, "B36/S125", 17), 2))
    for _ in range(3):
        cells = next_live(cells, (3, 6), (1, 2, 5))
    tally.expect("another rule after 3", run(["draw", path, "--after", "3"]), ample(drawn(dict.fromkeys(cells, 1), 2)))
    late = files.path("late.rle", f"#CXRLE Gen={(1 << 63) - 5}\n" + GLIDER)
    tally.expect("the last generation", run(["draw", late, "--after", "4"]), ample(b".o.\n..o\nooo\n"))
    tally.expect("a generation too large", run(["draw", late, "--after", "5"]), fault("gen too large"))
    tally.expect("work", run(["draw", "tests/files/soup/soup.rle", "--after", "1000", "--work", "100"]), fault("work"))
    tally.expect("no work", run(["draw", "examples/glider.rle", "--work", "0"]), ample(b".o.\n..o\nooo\n"))


def try_faults(tally, files):
    """Windows that aren't there, and words that ask for nothing."""
    for pattern, words, told in NO_WINDOW:
        path = path_of(files, pattern)
        tally.expect(f"draw {os.path.basename(path)} {' '.join(words)}", run(["draw", path, *words]), fault(f"window {told}"))
        note = f"cafile: window {told}\n  {path}\n".encode()
        tally.expect(f"draw {os.path.basename(path)} {' '.join(words)} --explain", run(["draw", path, "--explain", *words]), Outcome(b"", note, 2))
    for words in FAULTY:
        outcome = run(["draw", "examples/glider.rle", *words])
        well = outcome.complaint and b"--help" in outcome.complaint and (outcome.printed, outcome.status) == (b"", 2)
        tally.tell(f"faulty words: {words}", [] if well else [str(outcome)])
    for words, told in ((["--at", "5"], "'5' for '--at <X,Y>': not two whole numbers with a comma between them"),
                        (["--size", "0,1"], "'0,1' for '--size <W,H>': not two numbers from 1 to 8192 with a comma between them")):
        text = f"error: invalid value {told}\n\nFor more information, try '--help'.\n"
        tally.expect(f"what is told of {words}", run(["draw", "examples/glider.rle", *words]), Outcome(b"", text.encode(), 2))
    for words, told in ((["--zoom", "2"], "without '--to pgm'"), (["--zoom", "2", "--to", "pgm", "--scale", "1"], "with a '--scale <K>' above 0")):
        text = f"error: the argument '--zoom <K>' cannot be used {told}\n\nFor more information, try '--help'.\n"
        tally.expect(f"what is told of {words}", run(["draw", "examples/glider.rle", *words]), Outcome(b"", text.encode(), 2))
    tally.expect("a file that isn't there", run(["draw", "examples/nowhere"]), fault("cannot read examples/nowhere"))
    tally.expect("no window of a bad file", run(["draw", "tests/files/bad/syntax.mc", "--at", f"{REACH},0"]), fault("bad pattern: macrocell syntax"))


def try_tables(tally, _):
    """Rule files that are given, or found by the rule's name."""
    spread, wanted = "examples/tables/spread.rle", run(["draw", "examples/tables/spread.rle", "--rule", "examples/tables/spread.rule"])
    tally.tell("a table's pattern", [] if wanted.printed and (wanted.complaint, wanted.status) == (b"", 0) else [str(wanted)])
    tally.expect("a rule file by its name", run(["draw", spread, "--rules", "examples/rules"]), wanted)
    tally.expect("no table", run(["draw", spread]), fault("bad rule: unknown"))
    explained = Outcome(b"", f"cafile: bad rule: unknown\n  {spread}: rule Spread\n  try: name the folder of Spread.rule by --rules\n".encode(), 2)
    tally.expect("no table, explained", run(["draw", spread, "--explain"]), explained)


# Words of the environment for the columns and lines of a terminal, and the size of a picture that fits it.
ROOMS = (
    (("100", "30"), (100, 28)), (("20", "12"), (20, 10)), (("5", "4"), (5, 2)), (("2", "3"), (2, 1)), (("3", "2"), (3, 1)), (("9", "1"), (9, 1)),
    (("9000", "99999"), (8192, 8192)),
    (("+40", "007"), (40, 5)), (("18446744073709551615", "18446744073709551615"), (8192, 8192)),
    (("0", "24"), None), (("80", "0"), None), (("-80", "24"), None), (("80x", "24"), None), (("80", "24 "), None), (("", "24"), None), (("80", ""), None),
    (("18446744073709551616", "9"), None),
    ((None, "9"), None), (("9", None), None), ((None, None), None), (("\udcff", "9"), None),
)


def drawn_on_terminal(words, room=(None, None), together=False):
    """The outcome of `draw` whose standard output is a terminal, and standard error too, where they are to be seen together, with words in the environment for
    its columns and lines."""
    environment = {name: it for name, it in zip(("COLUMNS", "LINES"), room) if it is not None}
    got, shown = on_terminal(lambda terminal: run(["draw", *words], stdout=terminal, stderr=terminal if together else subprocess.PIPE, env=environment))
    return Outcome(shown, got.complaint, got.status)


def caption(box, scale, generation):
    """The line that tells of a picture."""
    return f"box {' '.join(map(str, box)) if box else 'none'}, scale {scale}, gen {generation}\n".encode()


def try_terminal(tally, files):
    """Pictures on a terminal: they fit it, and have a caption."""
    chance = random.Random(11)
    cells = dict.fromkeys({(chance.randrange(-40, 150), chance.randrange(-70, 90)) for _ in range(400)}, 1)
    box, path = box_of(cells), files.path("large.mc", macrocell.tidy(macrocell.Pattern(macrocell.tree_of(cells), "B3/S23", 17), 2))
    for room, size in ROOMS:
        for said, fits in (({}, {"size": size}), ({"at": (-3, 5)}, {"at": (-3, 5), "size": size}), ({"scale": 0}, {"scale": 0}),
                           ({"size": (7, 8)}, {"size": (7, 8)}),
                           ({"at": (-3, 5), "scale": 2}, {"at": (-3, 5), "scale": 2, "size": size}),
                           ({"scale": 3, "size": (60, 70)}, {"scale": 3, "size": (60, 70)})):
            if max(size or (0, 0)) > 1000 and "at" in said:
                continue
            window = wanted_window(box, **fits)
            told = fault("window too large") if window is None else Outcome(picture(cells_squares(cells, window), window, 2), caption(box, window.scale, 17), 0)
            tally.expect(f"a terminal of {room}, {said}", drawn_on_terminal([path, *words_of(**said)], room), told)
    window = wanted_window(box, to="pgm")
    image = picture(cells_squares(cells, window), window, 2, "pgm")
    tally.expect("an image to a terminal", drawn_on_terminal([path, "--to", "pgm"], ("9", "9")), ample(image))
    text = drawn(cells, 2)
    tally.expect("no terminal", run(["draw", path], env={"COLUMNS": "9", "LINES": "9"}), ample(text))
    window = wanted_window(box, size=(30, 8))
    both = caption(box, window.scale, 17) + picture(cells_squares(cells, window), window, 2)
    tally.expect("the caption comes first", drawn_on_terminal([path], ("30", "10"), together=True), ample(both))
    for pattern, words, wanted in ((GLIDER, [], Outcome(b".o.\n..o\nooo\n", caption((0, 0, 3, 3), 0, 0), 0)),
                                   (GLIDER, ["--after", "8"], Outcome(b".o.\n..o\nooo\n", caption((2, 2, 3, 3), 0, 8), 0)),
                                   (GLIDER, ["--scale", "1"], Outcome(b"oo\noo\n", caption((0, 0, 3, 3), 1, 0), 0)),
                                   (BLINKER, ["--after", "1"], Outcome(b"o\no\no\n", caption((0, -1, 1, 3), 0, 1), 0)),
                                   (NOTHING, [], Outcome(b".\n", caption(None, 0, 0), 0)),
                                   (NOTHING, ["--after", "5", "--scale", "2"], Outcome(b".\n", caption(None, 2, 5), 0)),
                                   (FULL, ["--at", "0,0", "--size", "2,1"], Outcome(b"oo\n", caption((-(1 << 60), -(1 << 60), 1 << 61, 1 << 61), 0, 0), 0)),
                                   (GLIDER, ["--at", f"{REACH},0"], fault("window out of range")), (GLIDER, ["--size", "1,8193"], None)):
        got = drawn_on_terminal([path_of(files, pattern), *words], ("80", "24"))
        if wanted is None:
            tally.tell(f"faulty words on a terminal: {words}", [] if got.status == 2 and got.printed == b"" and b"box" not in got.complaint else [str(got)])
        else:
            tally.expect(f"the caption of {pattern.split(chr(10))[-2] if '!' in pattern else pattern} {words}", got, wanted)


if __name__ == "__main__":
    try_all(try_by_hand, try_widest, try_examples, try_large, try_the_largest, try_after, try_faults, try_tables, try_terminal)
