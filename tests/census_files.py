#!/usr/bin/env -S python3 -B
"""The files of `census --into DIR`: each byte of them, as tests/lib/census_files.py puts them together apart from the program; that `verify` says yes to each
claim on them; and that nothing is overwritten, and nothing is left of a census whose files can't all be written.

As root, folders that take no file are folders of the system alone, since root may write to all others. A file system without room is mounted where the system
allows that; else files may have a few bytes only.
"""
import os
import random
import resource
import shutil
import signal
import subprocess

from lib import apgcode, brians_brain, census, steps
from lib.census_files import Object, Settled, contents_of, found_object, yes_lines
from lib.macrocell import EDGE
from lib.parts import as_one_test, try_all
from lib.program import PROGRAM, ROOT, Outcome, Runs, ample, contents, escaped, fault, run
from lib.rle import cells_and_rule, tidy

# The greatest generation that a file may have.
LATEST = (1 << 63) - 1


def live(picture):
    """The live cells of a picture."""
    return {(x, y): 1 for y, row in enumerate(picture.splitlines()) for x, cell in enumerate(row) if cell == "o"}


BLOCK, BLINKER = Object(live("oo\noo"), "still", "", "xs4_33"), Object(live("ooo"), "oscillator", " 2", "xp2_7")
GLIDER = Object(live(".o.\n..o\nooo"), "spaceship", " 4 1 1", "xq4_153")
THREE = [GLIDER, BLOCK.moved(20, 0), BLINKER.moved(-10, 9)]

# The files of these three, by hand.
THREE_FILES = {
    "three-1.rle": b"#CXRLE Pos=0,0\nx = 3, y = 3, rule = B3/S23\nbo$2bo$3o!\n",
    "three-2.rle": b"#CXRLE Pos=20,0\nx = 2, y = 2, rule = B3/S23\n2o$2o!\n",
    "three-3.rle": b"#CXRLE Pos=-10,9\nx = 3, y = 1, rule = B3/S23\n3o!\n",
    "three-settled.rle": b"#CXRLE Pos=-10,0\nx = 32, y = 10, rule = B3/S23\n11bo18b2o$12bo17b2o$10b3o7$3o!\n",
    "three.claims": b"claims 2\nload three three.rle\nload three-settled into/three-settled.rle\nbecomes three 0 three-settled\n"
                    b"load three-1 into/three-1.rle\nspaceship three-1 4 1 1\n# three-1: xq4_153\n"
                    b"load three-2 into/three-2.rle\nstill three-2\n# three-2: xs4_33\n"
                    b"load three-3 into/three-3.rle\noscillator three-3 2\n# three-3: xp2_7\n",
}

# A cell that is gone after a generation, so that what else there is settles then.
SPARK = {(1000, 1000): 1}

# Under it the states 1 and 2 turn into each other, in a table that is named by its path, and both stay in one that is found by its name.
STAYING = "@RULE %s\n@TABLE\nn_states:3\nneighborhood:oneDimensional\nsymmetries:none\n"
TURNING = STAYING + "1,0,0,2\n2,0,0,1\n"


def union(objects):
    """The cells of objects."""
    return {place: state for it in objects for place, state in it.cells.items()}


def begin(content):
    """The begin of a content, where it is a long one."""
    return content if content is None or len(content) <= 400 else content[:400] + (b".." if isinstance(content, bytes) else "..")


class Censuses(Runs):
    """Runs of `census --into` in a folder of their own, in which the paths of words and claim texts are looked for."""

    def file(self, name, cells, rule="B3/S23", states=2, generation=0):
        """The file of these cells in this folder, and its path from there."""
        self.path(name, tidy(cells, rule, generation, states))
        return name

    def complain(self, told, wanted, got):
        """Complains where something else was wanted."""
        if got != wanted:
            self.complaints.append(f"{told}: wanted {wanted}, got {got}")

    def outcome(self, words, wanted, files, into="into", **how):
        """Runs the program with these words, and expects this of it, and these files in the folder then."""
        got = run(["census", *words, "--into", into], cwd=self.folder, **how)
        self.count += 1
        told = " ".join(map(str, ["census", *words]))
        self.complain(told, wanted, got)
        there = contents_of(os.path.join(self.folder, into))
        if there != files:
            names = [name for name in {**(files or {}), **(there or {})} if (files or {}).get(name) != (there or {}).get(name)]
            wanted, got = ({name: begin((found or {}).get(name)) for name in names[:5]} for found in (files, there))
            self.complaints.append(f"{told}: the folder is {'' if there is not None else 'not '}there, and of {len(names)} files wanted {wanted}, got {got}")

    def settle(self, each, words=(), into="into", listed=False):
        """Takes the census of these, into a new folder: all is printed and written, and each claim is true."""
        folder = os.path.join(self.folder, into)
        shutil.rmtree(folder, ignore_errors=True)
        printed = b"".join(it.listed() if listed else it.counts() for it in each)
        files = {name: content for it in each for name, content in it.files(into).items()}
        self.outcome([*(it.path for it in each), *["--list"] * listed, *words], ample(printed), files, into)
        self.judge(each, into)

    def judge(self, each, into):
        """Judges the claim texts of these, in one run: all is true."""
        texts = {f"{into}/{it.name}.claims": yes_lines(it.claims(into)) for it in each}
        told = [escaped(f"{path}: ".encode()) * (len(each) > 1) + line for path, lines in texts.items() for line in lines.splitlines(keepends=True)]
        self.expect("all is true", ["verify", *texts], ample(b"".join(told)), cwd=self.folder)

    def refuse(self, told, words, files=None, into="into", printed=b"", before=(), **how):
        """A run that ends for this fault, and leaves these files, and beside them those that were there before."""
        self.outcome(words, Outcome(printed, fault(told).complaint, 2), files if files is None else {**files, **dict(before)}, into, **how)


@as_one_test(Censuses, "a glider, a block and a blinker")
def try_made(censuses):
    """Three objects side by side, at first and later, with a list, and with a generation of the file's own."""
    path = censuses.file("three.rle", union(THREE))
    three = Settled(path, "three", THREE)
    censuses.complain("by hand", THREE_FILES, three.files("into"))
    censuses.settle([three])
    censuses.settle([three], listed=True)
    later = [GLIDER.moved(1, 1), *THREE[1:]]
    censuses.settle([Settled(path, "three", later, start=4)], ["--after", "4"])
    censuses.settle([Settled(path, "three", later, start=4)], ["--after", "4"], listed=True)
    far = [GLIDER.moved(EDGE // 8, EDGE // 8), *THREE[1:]]
    censuses.settle([Settled(path, "three", far, start=EDGE // 2)], ["--after", str(EDGE // 2)])
    path = censuses.file("late.rle", union(THREE), generation=1234567)
    censuses.settle([Settled(path, "late", THREE, generation=1234567)])
    censuses.settle([Settled(path, "late", later, start=4, generation=1234567)], ["--after", "4"])
    path = censuses.path("block.mc", "[M2]\n#R B3/S23\n#G 9\n**$**$$$$$$$\n4 1 0 0 0\n")
    censuses.settle([Settled("block.mc", "block", [BLOCK.moved(-8, -8)], generation=9)])
    path = censuses.file("still.rle", BLOCK.cells)
    for after in (1, EDGE):
        censuses.settle([Settled(path, "still", [BLOCK], start=after)], ["--after", str(after)])
    for name, first in (("nothing", 0), ("spark", 1)):
        censuses.settle([Settled(censuses.file(f"{name}.rle", SPARK if first else {}), name, [], first=first)])
    # a block in the corner of another object's box: which of the two is listed first is open, but not that it has the first number
    barge = Object({place: 1 for at in range(12) for place in ((12 - at, at), (13 - at, at + 1))}, "still")
    path = censuses.file("corner.rle", union([barge, BLOCK]), "23/3/2")
    block = Object(BLOCK.cells, BLOCK.said)
    is_first = run(["census", "--list", censuses.path(path)]).printed.split(b"\n")[1].endswith(b": 4 cells")
    for listed in (False, True):
        censuses.settle([Settled(path, "corner", [block, barge] if is_first else [barge, block], rule="23/3/2")], listed=listed)


@as_one_test(Censuses, "patterns that settle later")
def try_known(censuses):
    """The R-pentomino, at once and from generations before and after it is settled on; the Pi-heptomino with a list; and patterns that die."""
    for name, picture, afters in (("r", ".oo\noo.\n.o.", (0, 100, 2000)), ("pi", "ooo\no.o\no.o", (0,)),
                                  ("diehard", "......o.\noo......\n.o...ooo", (0, 129, 130))):
        path, (first, parts) = censuses.file(f"{name}.rle", live(picture)), census.settling(set(live(picture)))
        for after in afters:
            more = max(after - first, 0)
            objects = [found_object(census.phases_of(census.plane_after(it, more))) for it in parts]
            settled = Settled(path, name, objects, first=max(first - after, 0), start=after)
            censuses.settle([settled], ["--after", str(after)] * (after > 0), listed=name == "pi")


@as_one_test(Censuses, "other rules")
def try_rules(censuses):
    """Objects under B/S rules of each neighbourhood, some of which have codes, and under Generations rules, also of two states."""
    for name, rule, said in (("diagonal_h", "B3/S1H", ("still",)), ("pair_v", "B3/S1V", ("still", "", "xs2_3")),
                             ("block_high", "B36/S23", ("still", "", "xs4_33")), ("copperhead", "B3/S23", ("spaceship", " 10 0 -1", "xq10_o5995ozes88sezw33"))):
        cells, named = cells_and_rule(contents(os.path.join(ROOT, f"tests/files/{name}.rle")).decode())
        censuses.settle([Settled(censuses.file(f"{name}.rle", cells, named), name, [Object(cells, *said)], rule=rule)])
    both = [BLOCK, BLINKER.moved(9, 9)]
    for rule in ("23/3/2", "32/33/02"):
        path = censuses.file("two.rle", union(both), rule)
        plain = [Object(it.cells, it.said, it.numbers) for it in both]
        censuses.settle([Settled(path, "two", plain, rule="23/3/2")])
    brain = steps.rule_of("/2/3")
    cells = {name: cells_and_rule(brians_brain.FILES[name])[0] for name in ("dot", "ship", "wheel")}
    wheel = {(x + 30, y + 30): state for (x, y), state in cells["wheel"].items()}
    path = censuses.file("brain.rle", {**{(60, 60): 1}, **cells["ship"], **wheel}, "/2/3", 3)
    for first, start in ((2, 0), (1, 1), (0, 5)):
        ship, turned = (steps.steps(it, brain, first + start, steps.aged) for it in (cells["ship"], wheel))
        objects = [Object(ship, "spaceship", " 1 0 -1"), Object(turned, "oscillator", " 3")]
        for listed in (False, True):
            censuses.settle([Settled(path, "brain", objects, first, start, "/2/3", 3)], ["--after", str(start)] * (start > 0), listed=listed)


@as_one_test(Censuses, "rule files")
def try_tables(censuses):
    """Objects under tables: the claim texts name the rule file, those that were found for any of the files, or both."""
    for name, text in (("given.rule", TURNING % "Turn"), ("rules/Turn.rule", STAYING % "Turn"), ("rules/Stay\x1b.rule", STAYING % "Stay\x1b")):
        os.makedirs(os.path.dirname(censuses.path(name)), exist_ok=True)
        censuses.path(name, text)
    censuses.path("rules/WireWorld.rule", contents(os.path.join(ROOT, "examples/tables/wireworld.rule")))
    clock, wired = cells_and_rule(contents(os.path.join(ROOT, "examples/tables/wireworld_clock.rle")).decode())
    wire = {(x, 40): 3 for x in range(75)}
    ring, line = Object(clock, "oscillator", " 6"), Object(wire, "still")
    turning, staying = ([Object({(0, 0): 1}, said, numbers), Object({(2, 0): 2}, said, numbers)] for said, numbers in (("oscillator", " 2"), ("still", "")))
    turn, stay = censuses.file("turn.rle", union(turning), "Turn", 3), censuses.file("stay.rle", {(0, 0): 1}, "Stay\x1b", 3)
    wires = censuses.file("wires.rle", {**clock, **wire}, wired, 4)
    block = censuses.file("block.rle", BLOCK.cells)

    def each(turned, rules, all_found):
        """The censuses of two files, or of all four, in whose texts these rule files stand."""
        settled = [Settled(wires, "wires", [ring, line], rule=wired, states=4, rules=rules)] if all_found else []
        settled += [Settled(turn, "turn", turned, rule="Turn", states=3, rules=rules), Settled(block, "block", [BLOCK], rules=rules)]
        return settled + [Settled(stay, "stay", [Object({(0, 0): 1}, "still")], rule="Stay\x1b", states=3, rules=rules)] * all_found
    found = ["rules/WireWorld.rule", "rules/Turn.rule", "rules/Stay\x1b.rule"]
    for listed in (False, True):
        censuses.settle(each(turning, ["given.rule"], False), ["--rule", "given.rule"], listed=listed)
        censuses.settle(each(staying, found, True), ["--rules", "rules"], listed=listed)
        # the table that is named goes before that of the folder
        censuses.settle(each(turning, ["given.rule", found[0], found[2]], True), ["--rules", "rules", "--rule", "given.rule"], listed=listed)
    # states of all tags, in a line that is folded, under a name that isn't UTF-8
    censuses.path("many.rule", (STAYING.replace(":3", ":256") % "Many\xff").encode("latin-1"))
    many = Object({(x - 99, -7): x + 1 for x in range(255)}, "still")
    path = censuses.file("many.rle", many.cells, "Many\xff", 256)
    censuses.settle([Settled(path, "many", [many], rule="Many\xff", states=256, rules=["many.rule"])], ["--rule", "many.rule"])
    later = [Object({(0, 0): 2}, "oscillator", " 2"), Object({(2, 0): 1}, "oscillator", " 2")]
    censuses.settle([Settled(turn, "turn", later, start=3, rule="Turn", states=3, rules=["given.rule"])], ["--rule", "given.rule", "--after", "3"])


@as_one_test(Censuses, "names")
def try_names(censuses):
    """Files of one name, of odd names and of none, in one folder, which has one itself; and names that are too long for the files."""
    os.makedirs(censuses.path("other/block"))
    paths = {"block.rle": "block", "other/block.rle": "block-2", "other/block/block-2.rle": "block-2-2", "block.rle.rle": "block.rle", "block": "block-3",
             "#.rle": "_", ".rle": "_-2", "other/#-1": "_-1", "-x.rle": "-x", "\u00e9\u20ac.rle": "\u00e9\u20ac", "\x1b[2J.rle": "\x1b[2J",
             "\x7f\u009b\x01": "\x7f\u009b\x01", "block-settled.rle": "block-settled", "a\u00a0b\x0b.rle": "a\u00a0b\x0b", "\\x1b.rle": "\\x1b"}
    for path in paths:
        censuses.file(path, union([BLOCK, BLINKER.moved(9, 9)]))
    each = [Settled(f"./{path}", name, [BLOCK, BLINKER.moved(9, 9)]) for path, name in paths.items()]
    censuses.settle(each)
    censuses.settle(each, into="\x1b[1m\u009c", listed=True)
    again = [Settled(path, name, each[0].objects) for path, name in (("block.rle", "block"), ("block.rle", "block-2"), ("./block.rle", "block-3"))]
    for into in ("other/new", "./new", "new/", os.path.join(censuses.folder, "new"), "other/../new", "#into"):
        censuses.settle(again, into=into)
    os.mkdir(censuses.path("there"))
    os.symlink("there", censuses.path("link"))
    censuses.outcome(["block.rle"], ample(again[0].counts()), again[0].files("link"), "link")
    # beside its own file, and those that were written there before
    censuses.file("there/two.rle", union(each[0].objects))
    two, taken = Settled("there/two.rle", "two", each[0].objects), contents_of(censuses.path("there"))
    censuses.outcome(["there/two.rle"], ample(two.counts()), {**taken, **two.files("there")}, "there")
    settled = Settled("there/two-settled.rle", "two-settled", each[0].objects)
    taken = contents_of(censuses.path("there"))
    censuses.outcome(["there/two-settled.rle"], ample(settled.counts()), {**taken, **settled.files("there")}, "there")
    censuses.refuse("there/two-1.rle is there already", ["there/two.rle"], contents_of(censuses.path("there")), "there")
    for length, file in ((251, "-1.rle"), (246, "-settled.rle")):
        name = "n" * length
        censuses.file(f"{name}.rle", BLOCK.cells)
        censuses.refuse(f"cannot write long/{name}{file}", [f"{name}.rle"], {}, "long")


@as_one_test(Censuses, "files that are there already")
def try_taken(censuses):
    """Something has the name of a file: nothing is written, and it stays as it is."""
    path, three = censuses.file("three.rle", union(THREE)), Settled("three.rle", "three", THREE)
    names = list(three.files("into"))
    # a file, an empty one, a folder, links, one of them to nothing, and a pipe
    ways = [lambda to: censuses.path(to, b"mine\n"), lambda to: censuses.path(to, b""), lambda to: os.mkdir(censuses.path(to)),
            lambda to: os.symlink("../three.rle", censuses.path(to)), lambda to: os.symlink("nothing", censuses.path(to)),
            lambda to: os.mkfifo(censuses.path(to))]
    before = contents(censuses.path("three.rle"))
    for name in names:
        for make in ways:
            shutil.rmtree(censuses.path("into"), ignore_errors=True)
            os.mkdir(censuses.path("into"))
            make(f"into/{name}")
            censuses.refuse(f"into/{name} is there already", [path], contents_of(censuses.path("into")))
            censuses.complain("the file itself", before, contents(censuses.path("three.rle")))
    # several are there, and other files beside them
    shutil.rmtree(censuses.path("into"))
    os.mkdir(censuses.path("into"))
    for name in ("three-2.rle", "three.claims", "three-4.rle", "three.rle", "other"):
        censuses.path(f"into/{name}", name)
    for words in ([path], [path, "--list"], [path, "--explain"]):
        censuses.refuse("into/three-2.rle is there already", words, contents_of(censuses.path("into")))
    os.remove(censuses.path("into/three-2.rle"))
    os.remove(censuses.path("into/three.claims"))
    censuses.outcome([path], ample(three.counts()), {**contents_of(censuses.path("into")), **three.files("into")})
    # a second time nothing is changed
    censuses.refuse("into/three-1.rle is there already", [path], contents_of(censuses.path("into")))


@as_one_test(Censuses, "folders that can't be written to")
def try_folders(censuses):
    """A folder that is none, whose own folder isn't there, or to which nothing can be written; and one that is made where there is no census."""
    path = censuses.file("block.rle", BLOCK.cells)
    block = Settled(path, "block", [BLOCK])
    os.symlink("nothing", censuses.path("link"))
    for into in ("block.rle", "block.rle/into", "lost/into", "link", "/proc/into"):
        censuses.refuse(f"cannot write {into}", [path], None, into)
    censuses.complain("the file", block.tidy(BLOCK.cells), contents(censuses.path(path)))
    got = run(["census", path, "--into", "/proc"], cwd=censuses.folder)
    censuses.complain("a folder of the system", fault("cannot write /proc/block-1.rle"), got)
    if os.geteuid():
        os.mkdir(censuses.path("closed"), 0o555)
        censuses.refuse("cannot write closed/block-1.rle", [path], {}, "closed")
        censuses.refuse("cannot write closed/into", [path], None, "closed/into")
    # no census, and so no file; but the folder is made, unless the rule file can't be read
    for name, content, told, status in (("bad", "x = 1, y = 1\nz!", "bad.rle: bad pattern: rle syntax, line 2", 2), ("lost", None, "lost.rle: no file", 2),
                                        ("gun", contents(os.path.join(ROOT, "examples/gun.rle")), "not found to settle within 64 generations", 0)):
        if content is not None:
            censuses.path(f"{name}.rle", content)
        censuses.outcome([f"{name}.rle", "--limit", "64"], Outcome(f"# {name}: {told}\n".encode(), b"", status), {}, f"for_{name}")
    tired = ["r.rle", "--work", "1"]
    censuses.file("r.rle", live(".oo\noo.\n.o."))
    censuses.outcome(tired, Outcome(b"# r: r.rle: work\n", b"", 2), {}, "for_work")
    censuses.refuse("cannot read lost.rule", [path, "--rule", "lost.rule"], None)
    censuses.refuse("cannot read lost", [path, "--rules", "lost"], None)
    censuses.refuse("bad table: line 2 no rule line", [path, "--rule", "block.rle"], None)


@as_one_test(Censuses, "paths that no claim text can name")
def try_unnameable(censuses):
    """A folder, a rule file, a folder of rules or a file with a blank, or none at all; without the option such a one can be named."""
    block = censuses.file("block.rle", BLOCK.cells)
    for odd in ("a b", "a\tb", "a\rb", "a\nb", " ", "-", ""):
        told = f"no claim text can name {odd}".replace("\t", "\\x09").replace("\r", "\\x0d").replace("\n", "\\x0a")
        censuses.refuse(told, [block, "--rule", odd], None)
        censuses.expect("no folder yet", ["census", block, "--into", odd], fault(told), cwd=censuses.folder)
        if odd:
            os.mkdir(censuses.path(odd))
            censuses.refuse(told, [block], {}, odd)
            censuses.refuse(told, [block, "--rules", odd], None)
    os.mkdir(censuses.path("r s"))
    censuses.path("r s.rule", STAYING % "Stay")
    for words in (["--rule", "r s.rule"], ["--rules", "r s"]):
        censuses.refuse(f"no claim text can name {words[1]}", [block, *words], None)
        censuses.expect("without the option", ["census", block, *words], ample(Settled(block, "block", [BLOCK]).counts()), cwd=censuses.folder)
    # the folder of files is told first
    censuses.refuse("no claim text can name a b", [block, "--rule", "r s.rule", "--rules", "r s"], {}, "a b")
    for path, name, told in (("a b.rle", "a_b", "a b.rle"), ("a\tb\n.rle", "a_b_", "a\\x09b\\x0a.rle"), (" #.rle", "_#", " #.rle"),
                             ("r s/x.rle", "x", "r s/x.rle"), ("-", "-", "-"), ("", "_", "")):
        if path not in ("-", ""):
            censuses.file(path, BLOCK.cells)
        line = f"# {name}: {told}: no claim text can name this path\n".encode()
        shutil.rmtree(censuses.path("into"), ignore_errors=True)
        good = Settled(block, "block", [BLOCK])
        words = ["--", path, block] if path == "-" else [path, block]
        got = run(["census", "--into", "into", *words], cwd=censuses.folder)
        censuses.count += 1
        censuses.complain(f"{path!r}", (Outcome(line + good.counts(), b"", 2), good.files("into")), (got, contents_of(censuses.path("into"))))
    shutil.rmtree(censuses.path("into"))
    censuses.outcome([b"\xff.rle"], Outcome(b"# \xff: \xff.rle: no file\n", b"", 2), {})
    plain = Settled("a b.rle", "a_b", [BLOCK])
    censuses.expect("without the option", ["census", "a b.rle"], ample(plain.counts()), cwd=censuses.folder)


def grid(columns, rows, apart):
    """Blocks and blinkers in columns and rows."""
    return [(BLINKER if (3 * column + row) % 7 == 0 else BLOCK).moved(apart * column, apart * row) for column in range(columns) for row in range(rows)]


@as_one_test(Censuses, "many objects")
def try_many_objects(censuses):
    """2704 objects, a file of each; and none of these is left where the last file that is written may have a byte less than it has, or where one is there
    already that is written late."""
    objects = grid(52, 52, 30)
    path = censuses.file("many.rle", union(objects))
    many = Settled(path, "many", objects)
    censuses.settle([many])
    censuses.expect("a list", ["census", "--list", path], ample(many.listed()), cwd=censuses.folder)
    shutil.rmtree(censuses.path("into"))
    censuses.refuse("cannot write into/many.claims", [path], {}, **with_room(len(many.claims("into")) - 1))
    for late in ("many-2704.rle", "many.claims"):
        there = censuses.path(f"into/{late}", b"mine\n")
        censuses.refuse(f"into/{late} is there already", [path], {late: b"mine\n"})
        os.remove(there)


@as_one_test(Censuses, "many files")
def try_many_files(censuses):
    """600 files into one folder, half of them of one name."""
    objects = [BLOCK, BLINKER.moved(9, 9)]
    paths = {censuses.file(f"small{at}.rle", union(objects)): f"small{at}" for at in range(300)}
    each = [Settled(path, name, objects) for path, name in paths.items()]
    same = censuses.file("same.rle", union(objects))
    censuses.settle([*each, *(Settled(same, f"same-{at}" if at > 1 else "same", objects) for at in range(1, 301))])


@as_one_test(Censuses, "long paths and texts")
def try_long(censuses):
    """Paths of almost 4096 bytes in a claim text of 1500000, one with 1200 rule files, and a file of 90000 cells of 255 states, that have one object, under a
    rule with a name of 5000 bytes."""
    deep = "/".join(["d" * 200] * 18)
    os.makedirs(censuses.path(deep))
    objects, name = grid(20, 20, 9), "n" * 200
    censuses.settle([Settled(censuses.file(f"{deep}/{name}.rle", union(objects)), name, objects)], into=f"{deep}/into")
    os.mkdir(censuses.path("rules"))
    unsettled = []
    for at in range(1200):
        censuses.path(f"rules/Gone{at}.rule", STAYING % f"Gone{at}" + "1,0,0,0\n")
        unsettled.append(censuses.file(f"gone{at}.rle", {(0, 0): 1}, f"Gone{at}", 3))
    block = Settled(censuses.file("block.rle", BLOCK.cells), "block", [BLOCK], rules=[f"rules/Gone{at}.rule" for at in range(1200)])
    printed = b"".join(b"# gone%d: not found to settle within 0 generations\n" % at for at in range(1200))
    censuses.outcome([*unsettled, block.path, "--rules", "rules", "--limit", "0"], ample(printed + block.counts()), block.files("into"))
    censuses.judge([block], "into")
    rule, chance = "Stay" + "y" * 4996, random.Random(255)
    censuses.path("stay.rule", STAYING.replace(":3", ":256") % rule)
    large = Object({(x, y): chance.randrange(1, 256) for x in range(300) for y in range(300)}, "still")
    path = censuses.file("large.rle", large.cells, rule, 256)
    censuses.settle([Settled(path, "large", [large], rule=rule, states=256, rules=["stay.rule"])], ["--rule", "stay.rule"])


def with_room(size):
    """How a run is started whose files may have so many bytes."""
    def limit():
        signal.signal(signal.SIGXFSZ, signal.SIG_IGN)
        resource.setrlimit(resource.RLIMIT_FSIZE, (size, size))

    return {"preexec_fn": limit, "restore_signals": False}


@as_one_test(Censuses, "files that may have few bytes")
def try_sizes(censuses):
    """Each limit for the size of a file: the first one that is longer is told, and nothing is left of its census."""
    path = censuses.file("three.rle", union(THREE))
    files = Settled(path, "three", THREE).files("into")
    taken = {"mine": b"mine\n"}
    for size in range(max(map(len, files.values())) + 1):
        shutil.rmtree(censuses.path("into"), ignore_errors=True)
        os.mkdir(censuses.path("into"))
        censuses.path("into/mine", taken["mine"])
        first = next((name for name, content in files.items() if len(content) > size), None)
        if first:
            censuses.refuse(f"cannot write into/{first}", [path], {}, before=taken, **with_room(size))
        else:
            censuses.outcome([path], ample(Settled(path, "three", THREE).counts()), {**taken, **files}, **with_room(size))


def mounted(censuses, room, words):
    """The outcome of a run in whose folder `into` a file system with this room is mounted, and the files there then; None where nothing can be mounted."""
    script = f'mount -t tmpfs -o {room} none into || exit 99; "$0" "$@"; status=$?; ls -A into >there; exit $status'
    try:
        ran = subprocess.run(["unshare", "--map-root-user", "--mount", "sh", "-c", script, PROGRAM, *words], cwd=censuses.folder, stdin=subprocess.DEVNULL,
                             capture_output=True, check=False)
    except OSError:
        return None
    there = contents(censuses.path("there")).decode().split()
    return (Outcome(ran.stdout, ran.stderr, ran.returncode), there) if ran.returncode in (0, 2) else None


@as_one_test(Censuses, "a file system without room")
def try_full(censuses):
    """Two censuses of 3 and of 27 files, where there is room for some of the files, or for some of the names: those of whole censuses alone are there."""
    os.mkdir(censuses.path("into"))
    if mounted(censuses, "size=1m", ["--version"]) is None:
        print("(no file system can be mounted here, so that a full one isn't tried)")
        return
    many = [BLOCK.moved(9 * column, 9 * row) for column in range(5) for row in range(5)]
    one, more = (Settled(censuses.file(f"{name}.rle", union(objects)), name, objects) for name, objects in (("one", [BLOCK]), ("more", many)))
    first, second = list(one.files("into")), list(more.files("into"))
    for room in (0, 1, 2, 3, 4, 15, 28, 29, 30, 40):
        # a page of memory for each file, and an entry besides for the folder; size=0 would be any
        for kind in [f"nr_inodes={room + 1}", *[f"size={room * resource.getpagesize()}"] * (room > 0)]:
            if room < 3:
                wanted = fault(f"cannot write into/{first[room]}"), []
            elif room < 30:
                wanted = Outcome(one.counts(), fault(f"cannot write into/{second[room - 3]}").complaint, 2), first
            else:
                wanted = ample(one.counts() + more.counts()), first + second
            got, there = mounted(censuses, kind, ["census", "one.rle", "more.rle", "--into", "into"]) or (None, [])
            censuses.count += 1
            censuses.complain(kind, (wanted[0], sorted(wanted[1])), (got, sorted(there)))


@as_one_test(Censuses, "generations and places that no file may have")
def try_limits(censuses):
    """The greatest generation is written, and one above is refused; so are cells on the border of the plane and beyond it."""
    spark = {**BLOCK.cells, **SPARK}
    last, sparkling = censuses.file("last.rle", BLOCK.cells, generation=LATEST), censuses.file("sparkling.rle", spark, generation=LATEST)
    censuses.settle([Settled(last, "last", [BLOCK], generation=LATEST)])
    for start, first, generation in ((0, 1, LATEST - 1), (1, 0, LATEST - 1), (EDGE, 0, LATEST - EDGE), (1, 0, LATEST - 1)):
        path = censuses.file("before.rle", spark if first else BLOCK.cells, generation=generation)
        censuses.settle([Settled(path, "before", [BLOCK], first, start, generation=generation)], ["--after", str(start)] * (start > 0))
    shutil.rmtree(censuses.path("into"))
    above = ([last, "--after", "1"], [last, "--after", str(EDGE)], [sparkling], [sparkling, "--after", "1"], [sparkling, "--list"])
    for words in above:
        censuses.refuse(f"{words[0]}: gen too large", words, {})
    for place, after in (((EDGE - 3, 0), 4), ((0, EDGE - 3), 1), ((EDGE - 3, EDGE - 3), 3)):
        shutil.rmtree(censuses.path("into"))
        glider = GLIDER.moved(*place)
        path = censuses.file("glider.rle", glider.cells)
        sparkling = censuses.file("sparkling.rle", {**glider.cells, **SPARK})
        censuses.settle([Settled(path, "glider", [glider])])
        shutil.rmtree(censuses.path("into"))
        for words in ([path, "--after", str(after)], [sparkling, "--after", str(after - 1)] if after == 1 else [path, "--after", "1000"]):
            censuses.refuse(f"{words[0]}: range", words, {})
    west = Object({(-x, -y): 1 for x, y in GLIDER.cells}, "spaceship", " 4 -1 -1", "xq4_153")
    path = censuses.file("west.rle", west.moved(3 - EDGE, 3 - EDGE).cells)
    censuses.settle([Settled(path, "west", [west.moved(2 - EDGE, 2 - EDGE)], start=4)], ["--after", "4"])
    shutil.rmtree(censuses.path("into"))
    censuses.refuse(f"{path}: range", [path, "--after", "8"], {})
    # such a generation is told before such a place, and without the option both are shown
    path = censuses.file("both.rle", GLIDER.moved(EDGE - 3, 0).cells, generation=LATEST)
    censuses.refuse(f"{path}: gen too large", [path, "--after", "4"], {})
    censuses.expect("without the option", ["census", path, "--after", "4"],
                    ample(Settled(path, "both", [GLIDER.moved(EDGE - 2, 1)], start=4).counts()), cwd=censuses.folder)


@as_one_test(Censuses, "a fault of the files, explained")
def try_explained(censuses):
    """What is explained of a run that ends: nothing, with a rule file and without."""
    last = censuses.file("last.rle", BLOCK.cells, generation=LATEST)
    far = censuses.file("far.rle", GLIDER.moved(EDGE - 3, 0).cells)
    censuses.path("stay.rule", STAYING % "Stay")
    for path, told in ((last, "gen too large"), (far, "range")):
        for words in ([], ["--rule", "stay.rule"]):
            censuses.refuse(f"{path}: {told}", [path, "--after", "4", "--explain", *words], {})


@as_one_test(Censuses, "several files")
def try_several(censuses):
    """Where a later file's census can't be written, the text on those before it was printed and their files are there; and of some there is no census."""
    block, three = censuses.file("block.rle", BLOCK.cells), censuses.file("three.rle", union(THREE))
    last, bad = censuses.file("last.rle", BLOCK.cells, generation=LATEST), os.path.basename(censuses.path("bad.rle", "x = 1, y = 1\nz!"))
    later = [GLIDER.moved(1, 1), *THREE[1:]]
    each = [Settled(block, "block", [BLOCK], start=4), Settled(three, "three", later, start=4)]
    files, told = {name: content for it in each for name, content in it.files("into").items()}, b"# bad: bad.rle: bad pattern: rle syntax, line 2\n"
    printed, words = each[0].counts() + told + each[1].counts(), [block, bad, three, "--after", "4"]
    censuses.outcome(words, Outcome(printed, b"", 2), files)
    shutil.rmtree(censuses.path("into"))
    censuses.refuse(f"{last}: gen too large", [*words, last, block], files, printed=printed)
    # the last file of a census is there already, and so is one that has no part in any
    for name in ("three.claims", "three-settled.rle"):
        shutil.rmtree(censuses.path("into"))
        os.mkdir(censuses.path("into"))
        before = {it: it.encode() for it in (name, "mine.rle")}
        for it, content in before.items():
            censuses.path(f"into/{it}", content)
        censuses.refuse(f"into/{name} is there already", [*words, block], each[0].files("into"), printed=each[0].counts() + told, before=before)
    censuses.settle([Settled(three, "three", THREE), Settled(block, "block", [BLOCK]), Settled(three, "three-2", THREE)])


@as_one_test(Censuses, "the example")
def try_example(censuses):
    """The files of examples/census/, of five oscillators far apart."""
    path, into = "examples/period_57960.rle", "examples/census"
    os.mkdir(censuses.path("examples"))
    cells, rule = cells_and_rule(contents(os.path.join(ROOT, path)).decode())
    parts = {place: {at: state for at, state in cells.items() if at[0] // 1000000 == place} for place in range(5)}
    each = [Object(parts[place], "oscillator", f" {period}", apgcode.code(parts[place], "p", period)) for place, period in enumerate((8, 9, 5, 14, 46))]
    whole = Settled(censuses.file(path, cells, rule), "period_57960", each)
    censuses.settle([whole], into=into)
    censuses.complain("the stored files", whole.files(into), contents_of(os.path.join(ROOT, into)))


if __name__ == "__main__":
    try_all(try_made, try_known, try_rules, try_tables, try_names, try_taken, try_folders, try_unnameable, try_many_objects, try_many_files, try_long, try_sizes,
            try_full, try_limits, try_explained, try_several, try_example)
