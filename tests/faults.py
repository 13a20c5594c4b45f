#!/usr/bin/env -S python3 -B
"""What is reported of files that can't be read, that are faulty, or that aren't what a claim says; and what `--explain` adds.

- `show`, `convert` and `draw`: of two faults the first is reported, and nothing stands on standard output. With `--explain` one more line on standard error
  names the file and the line of its fault, or the rule that isn't known. All else is as without it.
- `verify`: `--explain` adds a line after each no and each refusal that has more to tell. It names the cell, the pattern, its file, the faulty line or the rule
  that isn't known. The lines of the verdicts are those of a run that isn't explained.
"""
import itertools
import os
import random
import re

from lib import rle, steps
from lib.claim_text import ClaimTexts, differs, printed
from lib.macrocell import EDGE
from lib.macrocell_texts import FULL_SQUARE, faulty_macrocells
from lib.parts import as_one_test, over, try_all
from lib.program import MAX_FILE, Runs, ample, fault, figures, run
from lib.remedies import explained
from lib.small_files import (BAD_RLES, COMMANDS, DOT, FULL, FULL_OF_TWOS, GOOD, HEADER, PATTERNS, SPREAD, TABLES, printed_by_commands, where, with_file)

# A block, whose file names no rule.
BLOCK_FILE = "x = 2, y = 2\n2o$2o!\n"

# What is reported of the patterns of lib/small_files.py: the line of their fault or their rule, where there is one.
DETAILS = {"no_end": ", line 2", "first_fault": ", line 4", "unknown": ": rule Life", "unknown_mc": ": rule Life", "unknown_full": ": rule Life",
           "wakes": ": rule B03/S23", "wakes_mc": ": rule /0", "bounded": ": rule B3/S23:T30,20", "bounded_mc": ": rule Spread:P8"}

NOTHING, BLOCK = HEADER + "!\n", HEADER + "2o$2o!\n"
BLINKER = "x = 3, y = 1, rule = B3/S23\n3o!\n"

# Loads, and claims about them that fail at one cell alone, with the note on that.
CELLS = (
    ({"dot": DOT}, "still dot", 1, "dot at 0,0: 0 after 1 generation, claimed 1"),
    ({"dot": DOT}, "oscillator dot 2", 2, "dot at 0,0: 0 after 2 generations, claimed 1"),
    ({"dot": DOT}, "oscillator dot 1000", 1000, "dot at 0,0: 0 after 1000 generations, claimed 1"),
    ({"dot": DOT}, "spaceship dot 1 1 0", 1, "dot at 1,0: 0 after 1 generation, claimed 1"),
    ({"dot": DOT}, "spaceship dot 3 -5 7", 3, "dot at -5,7: 0 after 3 generations, claimed 1"),
    ({"dot": DOT}, f"spaceship dot 2 {EDGE} {-EDGE}", 2, f"dot at {EDGE},{-EDGE}: 0 after 2 generations, claimed 1"),
    ({"dot": DOT, "nothing": NOTHING}, "becomes dot 0 nothing", 0, "dot at 0,0: 1 after 0 generations, claimed 0"),
    ({"dot": DOT, "nothing": NOTHING}, "becomes nothing 5 dot", 5, "nothing at 0,0: 0 after 5 generations, claimed 1"),
    ({"dot": DOT}, "becomes dot 1 dot", 1, "dot at 0,0: 0 after 1 generation, claimed 1"),
    ({"a": DOT, "b": DOT}, "becomes b 1 a", 1, "b at 0,0: 0 after 1 generation, claimed 1"),
    ({"block": BLOCK, "three": HEADER + "2o$o!"}, "becomes block 9 three", 9, "block at 1,1: 1 after 9 generations, claimed 0"),
    ({"block": BLOCK, "three": HEADER + "2o$o!"}, "becomes three 0 block", 0, "three at 1,1: 0 after 0 generations, claimed 1"),
    ({"blinker": BLINKER, "two": "#CXRLE Pos=1,-1\n" + HEADER + "o$o!"}, "becomes blinker 3 two", 3, "blinker at 1,1: 1 after 3 generations, claimed 0"),
    # at the edge of the range, and beyond it
    ({"far": f"#CXRLE Pos={-EDGE},{EDGE - 1}\n" + DOT}, "still far", 1, f"far at {-EDGE},{EDGE - 1}: 0 after 1 generation, claimed 1"),
    ({"far": f"#CXRLE Pos={-EDGE},{-EDGE}\n" + DOT}, f"spaceship far 1 {-EDGE} {-EDGE}", 1,
     f"far at {-2 * EDGE},{-2 * EDGE}: 0 after 1 generation, claimed 1"),
    ({"corner": "[M2]\n1 1 0 0 0\n"}, "still corner", 1, "corner at -1,-1: 0 after 1 generation, claimed 1"),
    # under a table whose live cells stay
    ({"two": "x = 1, y = 1, rule = Spread\nB!", "one": "x = 1, y = 1, rule = Spread\nA!"}, "becomes two 0 one", 0,
     "two at 0,0: 2 after 0 generations, claimed 1"),
    ({"two": "x = 1, y = 1, rule = Spread\nB!", "later": "#CXRLE Pos=-1,-1\nx = 1, y = 1, rule = Spread\n.B$BBA$.B!"}, "becomes two 1 later", 1,
     "two at 1,0: 2 after 1 generation, claimed 1"),
    ({"high": "x = 1, y = 1, rule = High\nyO!", "low": "x = 1, y = 1, rule = High\nyN!"}, "becomes high 3 low", 3,
     "high at 0,0: 255 after 3 generations, claimed 254"),
    # names of any bytes
    ({b"\xff\x00\xfe": DOT}, b"still \xff\x00\xfe", 1, b"\xff\\x00\xfe at 0,0: 0 after 1 generation, claimed 1"),
    ({"-": DOT}, "still -", 1, "- at 0,0: 0 after 1 generation, claimed 1"),
    ({"n" * 9000: DOT}, "still " + "n" * 9000, 1, "n" * 9000 + " at 0,0: 0 after 1 generation, claimed 1"),
)

HIGH = "@RULE High\n@TABLE\nn_states:256\nneighborhood:Moore\nsymmetries:none\n"

# Faulty files in each format: what they hold, their faults as they are printed, and the lines on which these stand.
FAULTY_FILES = {
    "RLE": [(text.encode(), f"rle {told}", line) for text, told, line in BAD_RLES],
    "macrocell": [(text, f"macrocell {told}", line) for text, told, line in faulty_macrocells()],
}


@as_one_test(Runs, "faulty patterns")
def try_patterns(files):
    """Faults of a file: of several the first is reported, in each command."""
    spread = files.path("spread.rule", SPREAD)
    for (name, (text, told)), command in itertools.product(PATTERNS.items(), COMMANDS):
        files.expect(told, with_file(command, files.path(name, text), "--rule", spread), fault(told))
    full = files.path("full.mc", FULL)
    files.expect("too many cells", ["convert", full, "--to", "rle"], fault("too many cells"))
    files.expect("too many cells, and a table", ["convert", "--to", "rle", "--rule", spread, full], fault("too many cells"))
    twos = files.path("twos.mc", FULL_OF_TWOS.replace("Life", "Spread"))
    files.expect("too many cells of two", ["convert", twos, "--to", "rle", "--rule", spread], fault("too many cells"))
    files.expect("a table that isn't given", ["convert", twos, "--to", "rle"], fault("bad rule: unknown"))


@as_one_test(Runs, "patterns without a fault")
def try_good(files):
    """Files under B/S rules and tables, in every order of the words."""
    spread = files.path("spread.rule", SPREAD)
    for name, (text, kind, rule, states, cells) in GOOD.items():
        path = files.path(name, text)
        for command, wanted in zip(COMMANDS, printed_by_commands(kind, rule, states, cells)):
            files.expect("no fault", with_file(command, path, "--rule", spread), ample(wanted))
            files.expect("no fault", [command[0], "--rule", spread, *command[1:], path], ample(wanted))
            if rule != "Spread":
                files.expect("no fault", with_file(command, path), ample(wanted))
            else:
                files.expect("no table", with_file(command, path), fault("bad rule: unknown"))


@as_one_test(Runs, "faulty rule files")
def try_tables(files):
    """Faulty rule files go before every fault of a pattern, and after a file that can't be read."""
    missing = os.path.join(files.folder, "missing")
    patterns = [files.path("block", BLOCK_FILE), files.path("empty", ""), files.path("no_end", PATTERNS["no_end"][0])]
    patterns.append(files.path("forward", PATTERNS["first_fault"][0]))
    for name, (text, told) in TABLES.items():
        table = files.path(name, text)
        for path, command in itertools.product(patterns, COMMANDS):
            files.expect("a faulty table", with_file(command, path, "--rule", table), fault(f"bad table: {told}"))
        files.expect("a faulty table", ["show", missing, "--rule", table], fault(f"cannot read {missing}"))
        files.expect("a faulty table", ["show", files.folder, "--rule", table], fault(f"cannot read {files.folder}"))
        files.expect("a faulty table", ["convert", "/dev/zero", "--to", "rle", "--rule", table], fault("too long /dev/zero"))


@as_one_test(Runs, "files that can't be read, or are too long")
def try_files(files):
    """Files and rule files that aren't there, are folders, or are too long."""
    missing, other = (os.path.join(files.folder, name) for name in ("missing", "missing_rule"))
    block, table = files.path("block", BLOCK_FILE), files.path("table", SPREAD)
    shown = figures(0, 4, "0 0 2 2", "rle")
    for command in COMMANDS:
        for path in (missing, files.folder, ""):
            files.expect("no file", with_file(command, path), fault(f"cannot read {path}"))
            files.expect("no file", with_file(command, path, "--rule", table), fault(f"cannot read {path}"))
            files.expect("no rule file", with_file(command, block, "--rule", path), fault(f"cannot read {path}"))
        files.expect("neither", with_file(command, missing, "--rule", other), fault(f"cannot read {missing}"))
        files.expect("an endless file", with_file(command, "/dev/zero"), fault("too long /dev/zero"))
        files.expect("an endless rule file", with_file(command, block, "--rule", "/dev/zero"), fault("too long /dev/zero"))
        # the file is opened, the rule file is read, and then the file
        files.expect("a rule file that isn't there", with_file(command, "/dev/zero", "--rule", other), fault(f"cannot read {other}"))
        files.expect("a folder for a rule file", with_file(command, "/dev/zero", "--rule", files.folder), fault(f"cannot read {files.folder}"))
    text = BLOCK_FILE.encode()
    longest, longer = files.path("longest", text.ljust(MAX_FILE)), files.path("longer", text.ljust(MAX_FILE + 1))
    files.expect("67108864 bytes", ["show", longest], shown)
    files.expect("67108865 bytes", ["show", longer], fault(f"too long {longer}"))
    tree = files.path("longest.mc", b"[M2]\n$$$$....**$....**$".ljust(MAX_FILE))
    files.expect("67108864 bytes", ["show", tree], figures(0, 4, "0 0 2 2"))
    table = files.path("longest.rule", SPREAD.encode().ljust(MAX_FILE))
    files.expect("a rule file of 67108864 bytes", ["show", block, "--rule", table], shown)
    table = files.path("longer.rule", SPREAD.encode().ljust(MAX_FILE + 1))
    files.expect("a rule file of 67108865 bytes", ["show", block, "--rule", table], fault(f"too long {table}"))


class Explained(Runs):
    """Runs over files, explained and not."""

    def refuse(self, name, words, told, note):
        """The run complains of this; where it is explained, with this note; and there is none where it is None."""
        self.expect(name, words, fault(told))
        wanted = fault(told) if note is None else explained(told, note)
        self.expect(name, [*words, "--explain"], wanted)
        self.expect(name, [words[0], "--explain", *words[1:]], wanted)


@as_one_test(Explained, "explained, faulty patterns")
def try_notes_on_patterns(files):
    """Faults of a file: its path, with the line of the fault or the rule that isn't known."""
    spread = files.path("spread.rule", SPREAD)
    for (name, (text, told)), command in itertools.product(PATTERNS.items(), COMMANDS):
        path = files.path(name, text)
        files.refuse(told, with_file(command, path, "--rule", spread), told, path + DETAILS.get(name, ""))
    full, twos = files.path("full.mc", FULL), files.path("twos.mc", FULL_OF_TWOS.replace("Life", "Spread"))
    files.refuse("too many cells", ["convert", full, "--to", "rle"], "too many cells", full)
    files.refuse("too many cells of two", ["convert", twos, "--to", "rle", "--rule", spread], "too many cells", twos)
    files.refuse("a table that isn't given", ["show", twos], "bad rule: unknown", f"{twos}: rule Spread")
    odd = files.path("odd", b"x = 1, y = 1, rule = \xff\xfe\x00\nA!\n")
    files.expect("a rule of any bytes", ["show", odd, "--explain"], explained("bad rule: unknown", odd.encode() + b": rule \xff\xfe\\x00"))
    long = files.path("long", f"[M2]\n#R {'n' * 100000}\n")
    files.expect("a long rule", ["show", long, "--explain"], explained("bad rule: unknown", f"{long}: rule {'n' * 100000}"))


@as_one_test(Explained, "explained, faulty lines")
def try_notes_on_lines(files):
    """The faulty lines of files in either format."""
    for at, (text, told, line) in enumerate(itertools.chain(*FAULTY_FILES.values())):
        path = files.path(f"a{at}", text)
        for command in COMMANDS:
            files.expect(told, with_file(command, path, "--explain"), explained(f"bad pattern: {told}", where(path.encode(), line)))


@as_one_test(Explained, "explained, faulty rule files")
def try_notes_on_rule_files(files):
    """Faulty rule files: their path and line."""
    block, no_end = files.path("block", BLOCK_FILE), files.path("no_end", PATTERNS["no_end"][0])
    for name, (text, told) in TABLES.items():
        table = files.path(name, text)
        line = told.split()[1]
        for path, command in itertools.product((block, no_end), COMMANDS):
            files.refuse("a faulty table", with_file(command, path, "--rule", table), f"bad table: {told}", f"rule file: {table}, line {line}")


@as_one_test(Explained, "explained, no note")
def try_no_notes(files):
    """Runs without a fault, and faults that name their file: there is no note."""
    spread, missing = files.path("spread.rule", SPREAD), os.path.join(files.folder, "missing")
    for (name, (text, _, rule, _, _)), command in itertools.product(GOOD.items(), COMMANDS):
        words = with_file(command, files.path(name, text), "--rule", spread)
        files.expect(f"no fault, {rule}", [*words, "--explain"], run(words))
    block = files.path("block", BLOCK_FILE)
    longer = files.path("longer", BLOCK_FILE.encode().ljust(MAX_FILE + 1))
    for command in COMMANDS:
        for path in (missing, files.folder):
            files.refuse("no file", with_file(command, path), f"cannot read {path}", None)
            files.refuse("no rule file", with_file(command, block, "--rule", path), f"cannot read {path}", None)
        files.refuse("a long file", with_file(command, longer), f"too long {longer}", None)
        files.refuse("a long rule file", with_file(command, block, "--rule", longer), f"too long {longer}", None)


@as_one_test(Explained, "explained, standard input")
def try_standard_input(files):
    """A pattern on standard input is named by its path, `-`."""
    for text, told, note in (("x = 1, y = 1, rule = Codd\no!", "bad rule: unknown", "-: rule Codd"),
                             ("x = 1, y = 1\no\nz!", "bad pattern: rle syntax", "-, line 3"),
                             ("[M2]\n#R B3/S23\n4 0 0 0 9\n", "bad pattern: macrocell forward", "-, line 3"), ("x = 1, y = 1\nB!", "state too large", "-")):
        for command in COMMANDS:
            files.expect(f"{text!r}", with_file(command, "-", "--explain"), explained(told, note), input=text.encode())
    files.expect("no fault", ["show", "-", "--explain"], figures(0, 4, "0 0 2 2", "rle"), input=BLOCK_FILE.encode())


@over(ClaimTexts)
def try_claimed_cells(texts):
    """Claims that fail at one cell."""
    for at, (loads, claim, generations, note) in enumerate(CELLS):
        text = texts.text()
        for name, content in loads.items():
            text.load(name, content)
        text.rule(SPREAD)
        text.rule(HIGH)
        text.claim(claim, differs(generations), note)
        texts.judge(f"one cell differs, {at}", text)


@over(ClaimTexts)
def try_claimed_patterns(texts):
    """A claim is refused for the file of its first pattern, or of its second."""
    text = texts.text()
    paths = {name: text.load(name, content) for name, content in {
        "block": BLOCK, "no_end": HEADER + "3o\n", "syntax": HEADER + "o$\n\nz!", "unknown": "x = 1, y = 1, rule = Life\no!",
        "wakes": "x = 1, y = 1, rule = B0/S\no!",
        "bounded": "x = 1, y = 1, rule = B3/S23:T9,9\no!", "large": HEADER + "B!", "large_life": "[M2]\n#R Life\n1 2 0 0 0\n", "full": "[M2]\n" + FULL_SQUARE,
        "high": "x = 1, y = 1, rule = B36/S23\no!", "forward": "[M2]\n#R B3/S23\n4 0 0 0 9\n", "odd": HEADER + "z!", "nothing": NOTHING}.items()}
    paths["lost"] = text.load_path("lost", texts.files.path("lost.rle"))
    paths["gone"] = text.load_path("gone", texts.files.path("gone.rle"))
    paths["again"] = text.load_path("again", paths["no_end"])
    paths["folder"] = text.load_path("folder", texts.files.folder)
    paths["not_utf_8"] = text.load_path("not_utf_8", b"\xff.rle")
    paths[b"\xfe\xff"] = text.load_path(b"\xfe\xff", texts.files.path("third.rle"))

    rules = {"unknown": b"Life", "wakes": b"B0/S", "bounded": b"B3/S23:T9,9", "large_life": b"Life"}

    missing = {"lost": "no such file", "gone": "no such file", "folder": "a folder", "not_utf_8": "not UTF-8", b"\xfe\xff": "no such file"}

    def refused(claim, cause, name, line=None):
        told = b": rule " + rules[name] if cause.startswith("bad rule") else b": " + missing[name].encode() if cause == "no file" else b""
        text.claim(claim, f"refused, {cause}", b"%s: %s%s" % (name if isinstance(name, bytes) else name.encode(), where(paths[name], line), told))

    for name in ("lost", "gone", "folder", "not_utf_8"):
        refused(f"still {name}", "no file", name)
        refused(f"becomes block 1 {name}", "no file", name)
        refused(f"becomes {name} 1 block", "no file", name)
        refused(f"becomes {name} 1 no_end", "no file", name)
        refused(f"becomes no_end 1 {name}", "no file", name)
    refused(b"spaceship \xfe\xff 1 1 0", "no file", b"\xfe\xff")
    refused("becomes lost 0 gone", "no file", "lost")
    refused("becomes gone 0 lost", "no file", "gone")
    for cause, name, line in (("bad pattern: rle no end", "no_end", 2), ("bad pattern: rle syntax", "syntax", 4),
                              ("bad pattern: macrocell forward", "forward", 3)):
        refused(f"oscillator {name} 2", cause, name, line)
        for other in ("block", "unknown", "large", "full", "nothing"):
            refused(f"becomes {name} 1 {other}", cause, name, line)
            refused(f"becomes {other} 1 {name}", cause, name, line)
    refused("becomes no_end 0 syntax", "bad pattern: rle no end", "no_end", 2)
    refused("becomes syntax 0 no_end", "bad pattern: rle syntax", "syntax", 4)
    refused("becomes syntax 0 odd", "bad pattern: rle syntax", "syntax", 4)
    refused("becomes odd 0 syntax", "bad pattern: rle syntax", "odd", 2)
    refused("becomes no_end 0 again", "bad pattern: rle no end", "no_end", 2)
    refused("becomes again 0 no_end", "bad pattern: rle no end", "again", 2)
    refused("still again", "bad pattern: rle no end", "again", 2)
    for cause, name in (("unknown", "unknown"), ("wakes", "wakes"), ("bounded", "bounded"), ("unknown", "large_life")):
        refused(f"still {name}", f"bad rule: {cause}", name)
        for other in ("block", "large", "full", "high"):
            refused(f"becomes {name} 1 {other}", f"bad rule: {cause}", name)
            refused(f"becomes {other} 1 {name}", f"bad rule: {cause}", name)
    refused("becomes unknown 1 wakes", "bad rule: unknown", "unknown")
    refused("becomes wakes 1 unknown", "bad rule: wakes", "wakes")
    refused("becomes unknown 1 large_life", "bad rule: unknown", "unknown")
    for claim in ("still large", "becomes large 1 block", "becomes block 1 large", "becomes large 1 high", "becomes high 1 large", "becomes large 1 full",
                  "becomes full 1 large", "becomes large 0 large"):
        refused(claim, "state too large", "large")
    for claim in ("spaceship full 1 1 0", "spaceship full 4294967295 0 -1"):
        refused(claim, "too many cells", "full")
    text.claim("becomes full 0 full", "yes")
    # these say all
    text.claim("becomes block 0 high", "refused, mixed rules")
    text.claim("becomes high 0 full", "refused, mixed rules")
    text.claim("still nothing", "no, empty")
    text.claim("oscillator block 2", "no, the same after 1, shifted by 0,0")
    text.claim("still block", "yes")
    texts.judge("refused for a pattern's file", text)
    text = texts.text()
    path = text.load("longer", BLOCK.encode().ljust(MAX_FILE + 1))
    text.claim("still longer", "refused, no file", b"longer: " + path + b": more than 67108864 bytes")
    texts.judge("refused for a file that is too long", text)


@over(ClaimTexts)
def try_claimed_lines(texts):
    """The faulty lines of files in either format."""
    for name, files in FAULTY_FILES.items():
        text = texts.text()
        text.load("block", BLOCK)
        for at, (content, told, line) in enumerate(files):
            path = text.load(f"a{at}", content)
            text.claim(f"still a{at}", f"refused, bad pattern: {told}", b"a%d: %s" % (at, where(path, line)))
            text.claim(f"becomes block 2 a{at}", f"refused, bad pattern: {told}", b"a%d: %s" % (at, where(path, line)))
        texts.judge(f"faulty lines, {name}", text)


@over(ClaimTexts)
def try_claimed_rule_files(texts):
    """Every claim of a text is refused for a rule file that is missing or faulty."""
    missing = [("no such file", texts.files.path("lost.rule").encode()), ("a folder", texts.files.folder.encode()), ("not UTF-8", b"\xff.rule")]
    for name, path in missing:
        note = b"rule file: %s: %s" % (path, name.encode())
        text = texts.text()
        text.rule(SPREAD)
        text.load("block", BLOCK)
        text.load("no_end", HEADER + "3o")
        text.claim("still block", "refused, no file", note)
        text.claim("becomes block 0 no_end", "refused, no file", note)
        text.rule("")
        text.rule_path(path)
        # of several that are missing the first is reported
        for other in ("another.rule", "a_third.rule", "another.rule"):
            text.rule_path(texts.files.path(other))
        texts.judge(f"refused for a rule file, {name}", text)
    for name, (content, told) in TABLES.items():
        line, kind = re.fullmatch(r"line (\d+) (.*)", told).groups()
        text = texts.text()
        text.load("block", BLOCK)
        text.load("no_end", HEADER + "3o")
        lost = text.load_path("lost", texts.files.path("lost.rle"))
        text.rule(SPREAD)
        path = text.rule(content)
        text.rule("another faulty file")
        for claim in ("still block", "still no_end", "becomes block 0 no_end"):
            text.claim(claim, f"refused, bad table: {kind}", b"rule file: %s, line %s" % (path, line.encode()))
        text.claim("becomes block 1 lost", "refused, no file", b"lost: " + lost + b": no such file")
        texts.judge(f"refused for a rule file, {name}", text)


def soup(chance, side):
    """A random square of cells."""
    return {(x, y): 1 for x in range(side) for y in range(side) if chance.random() < 0.4}


def is_told(note, name, patterns, generations, claimed):
    """Whether a note names a cell of the pattern that truly differs, with its states."""
    found = re.fullmatch(rb"  (\w+) at (-?\d+),(-?\d+): (\d+) after (\d+) generations?, claimed (\d+)", note)
    if not found or found[1].decode() != name or int(found[5]) != generations:
        return False
    place, (state, wanted) = (int(found[2]), int(found[3])), (int(found[4]), int(found[6]))
    return state != wanted and (patterns.get(place, 0), claimed.get(place, 0)) == (state, wanted)


@over(ClaimTexts)
def try_soups(texts):
    """Of many cells that differ any is named, and it does."""
    chance, rule, complaints, count = random.Random(1), steps.Counting("B3/S23"), [], 0
    for at in range(12):
        cells, other = soup(chance, 9), soup(chance, 9)
        text = texts.text()
        text.load("soup", rle.tidy(cells, "B3/S23", 0, 2))
        text.load("other", rle.tidy(other, "B3/S23", 0, 2))
        generations, dx, dy = chance.randrange(1, 6), chance.randrange(-3, 4), 1
        moved = {(x + dx, y + dy): state for (x, y), state in cells.items()}
        claims = [("still soup", 1, cells), (f"becomes soup {generations} other", generations, other), ("oscillator soup 3", 3, cells),
                  (f"spaceship soup {generations} {dx} {dy}", generations, moved)]
        for claim, after, _ in claims:
            text.claim(claim, differs(after))
        lines = run(["verify", "--explain", text.write()]).printed.split(b"\n")
        for (claim, after, claimed), line, note in zip(claims, lines[::2], lines[1::2]):
            count += 1
            later = steps.steps(cells, rule, after)
            if not line.endswith(differs(after).encode()) or not is_told(note, "soup", later, after, claimed):
                complaints.append(f"soup {at}, {claim}: {line}, {note}")
        if len(lines) != 2 * len(claims) + 1 or lines[-1]:
            complaints.append(f"soup {at}: {len(lines)} lines")
    texts.tally.tell(f"a cell of random squares: {count} claims", complaints)


@over(ClaimTexts)
def try_missing_twice(texts):
    """Where a rule file and a pattern's are both missing, one of the two is reported."""
    text = texts.text()
    pattern = text.load_path("lost", texts.files.path("lost.rle"))
    rule = text.rule_path(texts.files.path("lost.rule"))
    text.claim("still lost", "refused, no file")
    got = run(["verify", "--explain", text.write()])
    wanted = [printed(text.answers, True) + b"  " + note + b": no such file\n" for note in (b"lost: " + pattern, b"rule file: " + rule)]
    texts.tally.tell("two files are missing", [] if got.printed in wanted and (got.complaint, got.status) == (b"", 2) else [str(got)])


@over(ClaimTexts)
def try_nothing(texts):
    """Texts without claims, or with a fault, are answered as ever."""
    text = texts.text()
    text.load("lost", BLOCK)
    text.rule_path("lost.rule")
    texts.judge("no claims", text)
    for path in ("tests/golden/verify/syntax/claims", "examples/lost.claims"):
        texts.tally.expect(f"no explanation, {path}", run(["verify", "--explain", path]), run(["verify", path]))


if __name__ == "__main__":
    try_all(try_patterns, try_good, try_tables, try_files, try_notes_on_patterns, try_notes_on_lines, try_notes_on_rule_files, try_no_notes,
            try_standard_input, try_claimed_cells, try_claimed_patterns, try_claimed_lines, try_claimed_rule_files, try_soups, try_missing_twice,
            try_nothing)
