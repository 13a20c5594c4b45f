#!/usr/bin/env -S python3 -B
"""Claim texts and patterns that are very large.

No limit is hidden between a few lines and 100000, a few files and as many, a few cells and some millions, or words of a few bytes and of a million.
The texts and patterns are made here, of blocks, blinkers and gliders, so that their verdicts are known. Of files that are as long as any may be the last item
decides the answer, so that they are read to their end.
"""
import itertools
import random
import re
import tempfile

from lib import rle
from lib.claim_text import ClaimText, outcome
from lib.long_texts import BLINKER, BLOCK, MANY_LINES, long_text, spelled
from lib.parts import over, try_all
from lib.program import MAX_FILE, Folder, Outcome, ample, fault, figures, lines_outcome, run
from lib.remedies import explained
from lib.work import excess, timed

# The cells a side of a pattern whose file is long and whose squares are few, how many claims there are about two such, and how many times the known work
# they may take: to read both anew for each claim would take far more.
STRIPES, STRIPED_CLAIMS, STRIPED_WORK = 1600, 150, 60

# Patterns, and claims about them, each with its verdict and note: all kinds of both.
PATTERNS = {"dot": "x = 1, y = 1\no!", "high": "x = 2, y = 2, rule = B36/S23\n2o$2o!", "state": "x = 1, y = 1\nB!", "bad": "x = 1, y = 1\nz!",
            "life": "x = 1, y = 1, rule = Life\no!",
            "full": "\n".join(["[M2]", "1 1 1 1 1", *(f"{up} {up - 1} {up - 1} {up - 1} {up - 1}" for up in range(2, 40)), ""]),
            "nothing": "x = 1, y = 1\n!", "lost": None}

KINDS = (
    ("still block", "yes", None), ("still dot", "no, cells differ after 1", "dot at 0,0: 0 after 1 generation, claimed 1"),
    ("becomes nothing 7 dot", "no, cells differ after 7", "nothing at 0,0: 0 after 7 generations, claimed 1"), ("oscillator blinker 2", "yes", None),
    ("oscillator block 2", "no, the same after 1, shifted by 0,0", None), ("spaceship nothing 4 1 1", "no, empty", None),
    ("still lost", "refused, no file", "lost: {lost}: no such file"), ("becomes block 1 lost", "refused, no file", "lost: {lost}: no such file"),
    ("still bad", "refused, bad pattern: rle syntax", "bad: {bad}, line 2"), ("becomes block 0 life", "refused, bad rule: unknown", "life: {life}: rule Life"),
    ("still state", "refused, state too large", "state: {state}"), ("becomes block 0 high", "refused, mixed rules", None),
    ("spaceship full 1 1 0", "refused, too many cells", "full: {full}"),
)

# Two leaves of a macrocell, a block and a blinker, and a root of two blocks. The last line makes one of a block and a blinker.
TWO_LEAVES = "[M2]\n**$**\n$$$...***\n4 1 1 0 0\n"

# A table under which a lone cell of state 1 stays as it is, but for the last line.
TURNED_TABLE = "@RULE Turned\n@TABLE\nn_states:3\nneighborhood:vonNeumann\nsymmetries:none\n2,0,0,0,0,1\n"
TURNED = "x = 1, y = 1, rule = Turned\nA!\n"

COMMENT, EXCLAMATION, HEADER = "# nothing is said here\n", "! nothing is said here\n", "x = 1, y = 1, rule = B3/S23\n"
GLIDER = {(0, 0): 1, (1, 0): 1, (2, 0): 1, (2, 1): 1, (1, 2): 1}

# Files of as many bytes as a file may have: how each begins, what stands in it again and again up to its end, the end, and what kind of file it is.
LONGEST = (
    ("a comment of a line", f"load block {BLOCK}\nload blinker {BLINKER}\nstill block\n#", "x", "\nstill blinker", "claims"),
    ("many comments", f"load block {BLOCK}\nload blinker {BLINKER}\nstill block\n", COMMENT, "\nstill blinker", "claims"),
    ("blank lines", f"load block {BLOCK}\nload blinker {BLINKER}\nstill block\n", "\n", "\nstill blinker", "claims"),
    ("many comments", TWO_LEAVES, COMMENT, "\n4 1 2 0 0\n", "macrocell"),
    ("white space", TWO_LEAVES, " \t\n", "\n4 1 2 0 0", "macrocell"),
    ("white space", HEADER + "2o$2o", " \n", "\n3$11b3o!", "rle"),
    ("a comment of a line", HEADER + "2o$2o\n#", "x", "\n3$11b3o!", "rle"),
    ("a comment before the header", "#C ", "x", "\n" + HEADER + "2o$2o3$11b3o!", "rle"),
    ("many comments", TURNED_TABLE, COMMENT, "\n1,0,0,0,0,2\n", "rule"),
)

# The same of texts that are imported, with their cells.
LONGEST_IMPORTS = (
    ("plaintext with comments", "O\n", EXCLAMATION, "\n..O", {(0, 0): 1, (2, 1): 1}),
    ("plaintext of one row", "", ".", "O", {(MAX_FILE - 1, 0): 1}),
    ("Life 1.06 with comments", "#Life 1.06\n0 0\n", COMMENT, "\n5 7", {(0, 0): 1, (5, 7): 1}),
    ("Life 1.05 with comments", "#Life 1.05\n#P 0 0\n*\n", COMMENT, "\n#P 5 7\n*", {(0, 0): 1, (5, 7): 1}),
    ("an apgcode after blank lines", "", "\n", "xq4_153", GLIDER),
)


def longest(begin, filler, end):
    """A text of as many bytes as a file may have."""
    room = MAX_FILE - len(begin) - len(end)
    return (begin + filler * (room // len(filler)) + filler[:room % len(filler)] + end).encode()


class Texts(Folder):
    """Files in a folder of their own, and runs over them."""

    def __init__(self, tally, folder):
        super().__init__(folder)
        self.tally = tally

    def text(self):
        """A new claim text, which loads a block and a blinker, and whose files stand in a folder of their own."""
        text = ClaimText(Folder(tempfile.mkdtemp(dir=self.folder)))
        text.load_path("block", BLOCK)
        text.load_path("blinker", BLINKER)
        return text

    def judge(self, name, text):
        """Runs the program over a claim text, with notes, and without."""
        path = text.write()
        for words in (["verify", "--explain", path], ["verify", path]):
            self.tally.expect(f"{name}: {len(text.lines)} lines{', explained' * (len(words) - 2)}", run(words), outcome(text.answers, len(words) > 2))

    def expect(self, name, lines, wanted):
        """Runs the program on a claim text of these lines."""
        path = self.path("text.claims", "\n".join(lines) + "\n")
        self.tally.expect(f"{name}: {len(lines)} lines", run(["verify", path]), wanted)


@over(Texts)
def try_long_texts(texts):
    """Thousands of lines, and a fault of each kind in a late one."""
    lines, verdicts = long_text()
    texts.expect("a long claim text", lines, lines_outcome(verdicts))
    for late in (len(lines) - 700, len(lines)):
        for text, kind in (
            ("still a a", "syntax"),
            ("gun block", "syntax"),
            ("oscillator blinker x", "syntax"),
            ("oscillator blinker 1", "number"),
            ("spaceship blinker 4 0 0", "number"),
            ("becomes blinker 1152921504606846977 block", "number"),
            ("still glider", "unknown name"),
            ("becomes block 1 glider", "unknown name"),
            (f"load blinker {BLOCK}", "name taken"),
        ):
            faulty = [*lines[: late - 1], text, *lines[late:]]
            texts.expect(f"a late fault, {text}, in line {late}", faulty, fault(f"claims line {late}: {kind}"))
    both = [*lines[:4000], "still glider", *lines[4001:5000], "gun block", *lines[5001:]]
    texts.expect("two faults, of which the first is told", both, fault("claims line 4001: unknown name"))


@over(Texts)
def try_many_files(texts):
    """Thousands of names, over one path and over as many."""
    count = 3000
    lines = [f"load n{at} {BLOCK if at % 2 else BLINKER}" for at in range(count)]
    claims = [f"still n{at}" for at in range(count)]
    answers = [(count + 1 + at, "yes" if at % 2 else "no, cells differ after 1") for at in range(count)]
    texts.expect("names of two paths", lines + claims, lines_outcome(answers))
    paths = [texts.path(f"{at}.rle", "x = 2, y = 2\n2o$2o!\n" if at % 2 else "x = 3, y = 1\n3o!\n") for at in range(count)]
    lines = [f"load n{at} {path}" for at, path in enumerate(paths)]
    texts.expect("names of as many paths", lines + claims, lines_outcome(answers))
    lines.append("load n1500 elsewhere.rle")
    texts.expect("names, one of them taken", lines, fault(f"claims line {count + 1}: name taken"))


@over(Texts)
def try_kinds(texts):
    """Each kind of a verdict and of a note, on all lines up to more than 100000, and in a text of more than 1000 paths."""
    for paths in (0, 3000):
        text = texts.text()
        for at in range(paths):
            text.load_path(f"p{at}", f"{'./' * (at % 50)}{'/' * (at // 50)}{texts.folder}/nowhere")
        files = {name: (text.load(name, content) if content else text.load_path(name, f"{texts.folder}/lost")).decode() for name, content in PATTERNS.items()}
        for claim, verdict, note in itertools.cycle(KINDS):
            text.claim(claim, verdict, note.format(**files) if note else "")
            if len(text.lines) >= (2 * paths or MANY_LINES):
                break
        texts.judge(f"each kind, {paths} paths more", text)


@over(Texts)
def try_one_reading(texts):
    """Many claims about the same two large patterns: each is read once."""
    text = texts.text()
    for name, row in (("a", "bo"), ("b", "ob")):
        text.load(name, f"x = {STRIPES}, y = {STRIPES}\n" + f"{row * (STRIPES // 2)}$\n" * STRIPES + "!\n")
    for at in range(STRIPED_CLAIMS):
        text.claim("becomes a 0 b" if at % 2 else "becomes b 0 a", "no, cells differ after 0")
    got, seconds = timed(["verify", text.write()])
    wanted = outcome(text.answers, False)
    texts.tally.tell(f"{STRIPED_CLAIMS} claims about two large patterns: {seconds:.2f} s",
                     ([] if got == wanted else [f"{got}"]) + excess(seconds, STRIPED_WORK))


@over(Texts)
def try_rule_files(texts):
    """A rule file that is missing or faulty, in a text of more than 1000 paths and on lines beyond 100000."""
    good = "@RULE S\n@TABLE\nn_states:3\nneighborhood:oneDimensional\nsymmetries:none\n"
    for verdict, content, line in (("refused, no file", None, ": no such file"), ("refused, bad table: syntax", good + "var\n", ", line 6")):
        text = texts.text()
        text.rule(good)
        path = (text.rule(content) if content else text.rule_path(f"{texts.folder}/lost")).decode()
        for at, it in enumerate(spelled(BLOCK, 2000)):
            text.load_path(f"p{at}", it)
        for before in (0, 98000):
            text.lines += [b""] * before
            for at in range(2000):
                text.claim(f"becomes p{at} {at} block", verdict, f"rule file: {path}{line}")
        texts.judge(verdict, text)


@over(Texts)
def try_more_files(texts):
    """100000 files, each of which some claim needs."""
    text = texts.text()
    for at, path in enumerate(spelled(BLOCK, 100000)):
        text.load_path(f"n{at}", path)
    for at in range(0, 100000, 2):
        text.claim(f"becomes n{at} 0 n{at + 1}", "yes")
    path = text.write()
    texts.tally.expect("100000 files", run(["verify", path]), outcome(text.answers, False))


@over(Texts)
def try_periods(texts):
    """Every number of generations from 0 to 1500, in claims of each kind that has one."""
    text = texts.text()
    text.load_path("glider", "examples/glider.rle")
    for count in range(1501):
        text.claim(f"becomes blinker {count} blinker", f"no, cells differ after {count}" if count % 2 else "yes")
        if count > 1:
            back = "yes" if count == 2 else "no, the same after 2, shifted by 0,0"
            text.claim(f"oscillator blinker {count}", f"no, cells differ after {count}" if count % 2 else back)
        if count > 0:
            there = "yes" if count == 4 else f"no, the same after {4}, shifted by 1,1"
            text.claim(f"spaceship glider {count} {count // 4 or 1} {count // 4 or 1}", there if count % 4 == 0 else f"no, cells differ after {count}")
    path = text.write()
    texts.tally.expect("numbers of generations", run(["verify", path]), outcome(text.answers, False))


@over(Texts)
def try_many_cells(texts):
    """Patterns of 100000 live cells, and of as many as are read."""
    row = "2o2b" * 250
    blocks = "x = 1, y = 1, rule = B3/S23\n" + f"{row}${row}3$\n" * 100 + "!\n"
    middle = blocks.index("2o2b", len(blocks) // 2)
    changed = blocks[:middle] + "o3b" + blocks[middle + 4 :]
    moved = "#CXRLE Pos=1,0\n" + blocks
    paths = {name: texts.path(f"{name}.rle", text) for name, text in (("blocks", blocks), ("changed", changed), ("moved", moved))}
    loads = [f"load {name} {path}" for name, path in paths.items()]
    texts.expect("25000 blocks", [
        *loads, "still blocks", "still changed", "becomes blocks 7 blocks", "becomes blocks 0 changed", "becomes changed 1 blocks", "becomes blocks 1 moved",
        "oscillator blocks 3", "spaceship blocks 1 4 0",
    ], lines_outcome([
        (4, "yes"), (5, "no, cells differ after 1"), (6, "yes"), (7, "no, cells differ after 0"), (8, "yes"), (9, "no, cells differ after 1"),
        (10, "no, the same after 1, shifted by 0,0"), (11, "no, cells differ after 1"),
    ]))


@over(Texts)
def try_ships(texts):
    """20000 gliders on one course are a spaceship, and where one of them is on another, they are none."""
    glider, other = ["bo8b", "2bo7b", "3o7b"], ["bo8b", "o9b", "3o7b"]
    for name, odd, verdict in (("20000 gliders", glider, "yes"), ("20000 gliders, one on another course", other, "no, cells differ after 4")):
        text = ["x = 1, y = 1, rule = B3/S23"]
        for down in range(100):
            for at in range(3):
                row = [(odd if (across, down) == (77, 55) else glider)[at] for across in range(200)]
                text.append("".join(row) + ("$" if at < 2 else "8$"))
        path = texts.path("gliders.rle", "\n".join(text) + "!\n")
        texts.expect(name, [f"load gliders {path}", "spaceship gliders 4 1 1"], lines_outcome([(2, verdict)]))


@over(Texts)
def try_the_most_cells(texts):
    """16777216 live cells are read, and one more isn't."""
    row = texts.path("row.rle", "x = 1, y = 1, rule = B3/S23\n16777216o!\n")
    longer = texts.path("longer.rle", "x = 1, y = 1, rule = B3/S23\n16777216o$o!\n")
    texts.expect("16777216 cells", [f"load block {BLOCK}", f"load row {row}", f"load longer {longer}", "becomes row 0 block", "still longer"],
                 lines_outcome([(4, "no, cells differ after 0"), (5, "refused, bad pattern: rle too many cells")]))


@over(Texts)
def try_many_states(texts):
    """16777216 cells of three states: a run of a million of them, and then rows that don't repeat, which take 48 million bytes."""
    chance, left = random.Random(6), (1 << 24) - 1000000
    kinds = ["".join(chance.choices(".AB", (12, 1, 1), k=8000)) + "A" for _ in range(200)]
    kinds = [(len(it) - it.count("."), "".join(rle.items_of(it))) for it in kinds]
    rows = ["1000000B"]
    while left:
        live, row = chance.choice(kinds)
        live, row = (live, row) if live <= left else (left, f"{left}B")
        rows.append(row)
        left -= live
    body = "\n".join(re.findall(r".{0,69}\D", "$".join(rows) + "!"))
    text = f"#CXRLE Pos=0,0\nx = 1000000, y = {len(rows)}, rule = 345/2/4\n{body}\n"
    path = texts.path("states.rle", text)
    texts.tally.expect("16777216 cells of three states, written anew", run(["convert", path, "--to", "rle"]), ample(text.encode()))


@over(Texts)
def try_long_planes(texts):
    """A run of a million cells of a third state that becomes squares, and squares of 4096 by 4096 cells whose text takes 17 million bytes."""
    text = "#CXRLE Pos=0,0\nx = 1000000, y = 1, rule = 345/2/4\n1000000B!\n"
    squares = run(["convert", texts.path("run.rle", text), "--to", "mc"]).printed.decode()
    texts.tally.expect("1000000 cells of a third state, to mc and back", run(["convert", texts.path("run.mc", squares), "--to", "rle"]), ample(text.encode()))
    rows = ["[M2] (cafile)", "#R B3/S23", "*.*.*.*$" * 8, *(f"{4 + up} {up + 1} {up + 1} {up + 1} {up + 1}" for up in range(9))]
    body = "\n".join(re.findall(r".{1,70}", "$".join(["b".join("o" * 2048)] * 4096) + "!"))
    text = f"#CXRLE Pos=-2048,-2048\nx = 4095, y = 4096, rule = B3/S23\n{body}\n"
    path = texts.path("stripes.mc", "\n".join(rows) + "\n")
    texts.tally.expect("stripes of 8388608 cells, from mc to rle", run(["convert", path, "--to", "rle"]), ample(text.encode()))


def expect_longest(texts, name, kind, path, line):
    """What the commands tell of the longest file of this kind, whose last line has this number: an oscillator of period 2, and not the still life that stands
    there without its end."""
    def expect(words, wanted):
        texts.tally.expect(f"67108864 bytes, {name}, {' '.join(words[:1])} of {kind}", run(words), wanted)

    if kind == "claims":
        expect(["verify", path], lines_outcome([(3, "yes"), (line, "no, cells differ after 1")]))
        return
    words, given, pattern, own = [], "", path, "longest"
    if kind == "rule":
        words, given, pattern, own = ["--rule", path], f"rule {path}\n", texts.path("turned.rle", TURNED), "turned"
    text = f"{given}load {own} {pattern}\noscillator {own} 2\n"
    first = text.count("\n")
    expect(["verify", texts.path("longest.claims", f"{text}still {own}")], lines_outcome([(first, "yes"), (first + 1, "no, cells differ after 1")]))
    expect(["identify", *words, pattern], ample(f"claims 2\n{text}".encode()))
    shown = {"macrocell": (7, "-8 -8 14 4", "macrocell", "B3/S23"), "rle": (7, "0 0 14 5", "rle", "B3/S23"), "rule": (1, "0 0 1 1", "rle", "Turned")}[kind]
    expect(["show", *words, pattern], figures(0, *shown))
    at, drawn = {"macrocell": ("4,-6", "o\n"), "rle": ("12,3", "o\n"), "rule": ("0,0", "B\n")}[kind]
    expect(["draw", *words, "--after", "1", "--at", at, "--size", "1,1", pattern], ample(drawn.encode()))


@over(Texts)
def try_longest(texts):
    """Files that are as long as any may be, whose last item decides the answer."""
    for name, begin, filler, end, kind in LONGEST:
        text = longest(begin, filler, end)
        expect_longest(texts, name, kind, texts.path("longest", text), text.rstrip().count(b"\n") + 1)
    for name, begin, filler, end, cells in LONGEST_IMPORTS:
        path = texts.path("longest", longest(begin, filler, end))
        texts.tally.expect(f"67108864 bytes, {name}", run(["import", path]), ample(rle.tidy(cells, "B3/S23", 0, 2)))


@over(Texts)
def try_long_words(texts):
    """Names, paths, numbers and rule texts of thousands of bytes and more, in claim texts, pattern files and rule files."""
    block, dot = BLOCK, texts.path("dot.rle", "x = 1, y = 1\no!\n")
    for count in (300, 6001, 150001, 1000000):
        text = texts.text()
        first, second, third = (f"{it}{'n' * count}" for it in "abc")
        lost = text.load_path(third, texts.folder + "/lost")
        text.load_path(first, block)
        text.load_path(second, dot)
        text.claim(f"still {first}", "yes")
        text.claim(f"becomes {second} 1 {second}", "no, cells differ after 1", f"{second} at 0,0: 0 after 1 generation, claimed 1")
        text.claim(f"becomes {first} {'0' * count}7 {first}", "yes")
        text.claim(f"oscillator {first} {'0' * count}2", "no, the same after 1, shifted by 0,0")
        text.claim(f"still {third}", "refused, no file", f"{third}: ".encode() + lost + b": no such file")
        texts.judge(f"names of {count} bytes", text)
    for count in (301, 2001, 3900):
        path = "./" * ((count - len(block)) // 2) + block
        missing = path.replace("block", "lost")
        text = texts.text()
        text.load_path("long", path)
        text.load_path("lost", missing)
        text.claim("still long", "yes")
        text.claim("still lost", "refused, no file", f"lost: {missing}: no such file")
        texts.judge(f"paths of {len(path)} bytes", text)
        for command in (["show"], ["convert", "--to", "mc"], ["draw"]):
            texts.tally.expect(f"{command[0]}, a path of {len(path)} bytes", run([*command, path]), run([*command, block]))
            texts.tally.expect(f"{command[0]}, a lost path of {len(path)} bytes", run([*command, missing]), fault(f"cannot read {missing}"))
        texts.tally.expect(f"identify, a path of {len(path)} bytes", run(["identify", path, missing]),
                           Outcome(f"claims 2\nload block {path}\nstill block\n# lost: {missing}: no file\n".encode(), b"", 2))
    for count in (301, 6001, 150001):
        name = "r" * count
        path, table = texts.path("named.rle", f"x = 1, y = 1, rule = {name}\nA!\n"), texts.path("named.rule", TURNED_TABLE.replace("Turned", name))
        told = f"{path}: rule {name}".encode()
        for words in ([], ["--rules", texts.folder]):
            texts.tally.expect(f"an unknown rule of {count} bytes {' '.join(words[:1])}", run(["show", "--explain", *words, path]),
                               explained("bad rule: unknown", told))
            text = texts.text()
            text.load_path("p", path)
            text.claim("still p", "refused, bad rule: unknown", b"p: " + told)
            texts.tally.expect(f"a claim under an unknown rule of {count} bytes {' '.join(words[:1])}", run(["verify", "--explain", *words, text.write()]),
                               outcome(text.answers, True))
            texts.tally.expect(f"identify, an unknown rule of {count} bytes {' '.join(words[:1])}", run(["identify", *words, path]),
                               Outcome(f"claims 2\n# named: {path}: bad rule: unknown\n".encode(), b"", 2))
        texts.tally.expect(f"a table whose name has {count} bytes", run(["show", "--rule", table, path]), figures(0, 1, "0 0 1 1", "rle", name))
        texts.expect(f"a rule line of a table whose name has {count} bytes", [f"rule {table}", f"load p {path}", "still p"], lines_outcome([(3, "yes")]))


@over(Texts)
def try_long_imports(texts):
    """2000000 cells of Life 1.06, from the last to the first, and rows of 10000 cells of plaintext."""
    path = texts.path("cells.lif", "#Life 1.06\n" + "".join(f"{x} {y}\n" for y in reversed(range(1000)) for x in reversed(range(2000))))
    rows = "#CXRLE Pos=0,0\nx = 2000, y = 1000, rule = B3/S23\n" + rle.folded([*(["2000o", "$"] * 1000)[:-1], "!"]) + "\n"
    texts.tally.expect("2000000 cells of Life 1.06", run(["import", path]), ample(rows.encode()))
    path = texts.path("rows.cells", "O" * 10000 + "\n" + ".O" * 5000 + "\n" + "." * 9999 + "O\n")
    items = ["10000o", "$", *["b", "o"] * 5000, "$", "9999b", "o", "!"]
    texts.tally.expect("rows of 10000 cells of plaintext", run(["import", path]),
                       ample(f"#CXRLE Pos=0,0\nx = 10000, y = 3, rule = B3/S23\n{rle.folded(items)}\n".encode()))


if __name__ == "__main__":
    try_all(try_long_texts, try_kinds, try_rule_files, try_many_files, try_more_files, try_one_reading, try_periods, try_many_cells, try_ships,
            try_the_most_cells, try_many_states, try_long_planes, try_longest, try_long_words, try_long_imports)
