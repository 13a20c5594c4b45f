#!/usr/bin/env -S python3 -B
"""`--rules DIR`, with each command: a rule whose table isn't given is looked for as DIR/NAME.rule.

A rule in B/S notation or a Generations rule never is. These tests say which names are looked for, which files are opened, which of two tables is taken, and what a
faulty rule file refuses.
"""
import itertools
import os
import subprocess
import tempfile

from lib.claim_text import ClaimText, outcome, printed, status_of
from lib.parts import as_one_test, try_all
from lib.program import MAX_FILE, Folder, Outcome, Runs, ample, escaped, fault, figures, run
from lib.remedies import explained
from lib.small_files import COMMANDS, GOOD, PATTERNS, SPREAD, TABLES, printed_by_commands, with_file

# The seconds in which a run that opens no pipe ends.
SOON = 60

# Tables under which every state stays, and under which each 1 becomes a 2.
STILL = "@RULE NAME\n@TABLE\nn_states:3\nneighborhood:oneDimensional\nsymmetries:none\n"

TURN = STILL + "var a={0,1,2}\nvar b={0,1,2}\n1,a,b,2\n"
UNKNOWN = "refused, bad rule: unknown"


class Rules(Runs):
    """Files of a test, with a folder of rules below theirs, and runs over them."""

    def __init__(self, folder):
        super().__init__(folder)
        self.rules = os.path.join(folder, "rules")
        os.mkdir(self.rules)

    def rule(self, name, text):
        """Writes a rule file of the folder of rules, and gives its path."""
        return self.path(os.path.join("rules", name), text)

    def refuse(self, name, words, told, note):
        """The run complains of this, and where it is explained, with this note."""
        self.expect(name, words, fault(told))
        self.expect(name, [*words, "--explain"], explained(told, note))


def spread_of(name, text=SPREAD):
    """The text of the table Spread under another name."""
    return text.replace("Spread", name)


def spread_pattern(name):
    """An RLE of a rule with this name, and what `show` prints of it under the table Spread of that name."""
    return f"x = 2, y = 1, rule = {name}\nB.A!\n", figures(0, 2, "0 0 3 1", "rle", name)


@as_one_test(Rules, "a folder of rules, found")
def try_found(files):
    """A rule that is found by its name, in both formats, in every order of the words; and rules that need no table."""
    files.rule("Spread.rule", SPREAD)
    for name, (text, kind, rule, states, cells) in GOOD.items():
        path = files.path(name, text)
        for command, wanted in zip(COMMANDS, printed_by_commands(kind, rule, states, cells)):
            for words in (with_file(command, path, "--rules", files.rules), [command[0], "--rules", files.rules + "/", *command[1:], path],
                          with_file(command, path, "--rules", files.rules, "--explain")):
                files.expect("found", words, ample(wanted))
    text, wanted = spread_pattern("Spread")
    files.expect("standard input", ["show", "-", "--rules", files.rules], wanted, input=text.encode())


@as_one_test(Rules, "a folder of rules, names")
def try_names(files):
    """Names that are looked for byte for byte, and those that never are."""
    for name in ("A", "a", "Life-2", "x.y", "x_y", "~", "-", "--rule", "é", "n" * 200, "*", "$HOME", "%2F", "Spread.rule", ".hidden", "a.b.c"):
        files.rule(f"{name}.rule", spread_of(name))
        text, wanted = spread_pattern(name)
        for command in COMMANDS[:1]:
            files.expect(f"the name {name}", with_file(command, files.path("pattern", text), "--rules", files.rules), wanted)
    os.mkdir(os.path.join(files.rules, "sub"))
    files.rule("sub/Inner.rule", spread_of("sub/Inner"))
    files.path("Outer.rule", spread_of("../Outer"))
    for name in ("a..b", "..", "...", "..a", "b.."):
        files.rule(f"{name}.rule", spread_of(name))
    files.rule("Cut.rule", spread_of("Cut"))
    absolute = os.path.join(files.rules, "A")
    for name in ("sub/Inner", "../Outer", "../rules/A", "./A", "/A", "A/", absolute, "a..b", "..", "...", "..a", "b..", "n" * 5000, "lost", "B", "cut", "CUT",
                 "Cut.rule"):
        path = files.path("pattern", spread_pattern(name)[0])
        files.refuse(f"the name {name}", ["show", path, "--rules", files.rules], "bad rule: unknown", f"{path}: rule {name}")
    for name in (b"Cut\x00", b"\x00", b"Cut\x00.rule", b"\xff", b"\xc3"):
        with open(os.path.join(files.rules.encode(), name.replace(b"\x00", b"") + b".rule"), "wb") as file:
            file.write(spread_of("Cut").encode())
        path = files.path("pattern", b"x = 2, y = 1, rule = %s\nB.A!\n" % name)
        files.refuse(f"the name {name}", ["show", path, "--rules", files.rules], "bad rule: unknown", path.encode() + b": rule " + escaped(name))


@as_one_test(Rules, "a folder of rules, faulty")
def try_faulty(files):
    """A faulty rule file refuses the patterns whose rule has its name, and no other; and one whose table has another name is of no use."""
    files.rule("Spread.rule", SPREAD)
    good, wanted = spread_pattern("Spread")
    for name, (text, told) in TABLES.items():
        path = files.rule(f"{name}.rule", text.replace("Spread", name))
        named, line = files.path("named", spread_pattern(name)[0]), told.split()[1]
        for command in COMMANDS:
            files.refuse(f"faulty, {name}", with_file(command, named, "--rules", files.rules), f"bad table: {told}", f"rule file: {path}, line {line}")
        files.expect(f"beside a faulty one, {name}", ["show", files.path("good", good), "--rules", files.rules], wanted)
    files.rule("Other.rule", SPREAD)
    other = files.path("other", spread_pattern("Other")[0])
    files.refuse("a table of another name", ["show", other, "--rules", files.rules], "bad rule: unknown", f"{other}: rule Other")
    large = files.path("large", "x = 1, y = 1, rule = Spread\nC!\n")
    files.refuse("a state too large", ["show", large, "--rules", files.rules], "state too large", large)


@as_one_test(Rules, "a folder of rules, beside --rule")
def try_given(files):
    """The table of `--rule` goes before the folder, and its faults before all."""
    spread, text = files.path("spread.rule", SPREAD), spread_pattern("Spread")
    files.rule("Spread.rule", "faulty")
    pattern = files.path("pattern", text[0])
    files.expect("given and in the folder", ["show", pattern, "--rule", spread, "--rules", files.rules], text[1])
    files.refuse("in the folder alone", ["show", pattern, "--rules", files.rules], "bad table: line 1 no rule line",
                 f"rule file: {files.rules}/Spread.rule, line 1")
    files.rule("Second.rule", spread_of("Second"))
    text = spread_pattern("Second")
    second = files.path("second", text[0])
    files.expect("another table is given", ["show", second, "--rule", spread, "--rules", files.rules], text[1])
    faulty = files.path("faulty.rule", "faulty")
    files.refuse("a faulty one is given", ["show", second, "--rule", faulty, "--rules", files.rules], "bad table: line 1 no rule line",
                 f"rule file: {faulty}, line 1")
    files.expect("one is given that isn't there", ["show", second, "--rule", files.rules, "--rules", files.rules], fault(f"cannot read {files.rules}"))


@as_one_test(Rules, "a folder of rules, after")
def try_given_after(files):
    """The table of `--rule` goes before another good one of its name in the folder, after some generations too: under it each cell is put to its four sides,
    and under the other one nothing changes."""
    spread = files.path("spread.rule", SPREAD)
    files.rule("Spread.rule", SPREAD.replace("0,a,0,0,0,a\n", ""))
    path = files.path("pattern", spread_pattern("Spread")[0])
    first = {(0, 0): 2, (2, 0): 1}
    second = {**first, (-1, 0): 2, (0, -1): 2, (0, 1): 2, (2, -1): 1, (2, 1): 1, (3, 0): 1}
    for words, cells in ((["--rule", spread, "--rules", files.rules], second), (["--rules", files.rules, "--rule", spread], second),
                         (["--rules", files.rules], first)):
        for command, wanted in zip(COMMANDS, printed_by_commands("rle", "Spread", 3, cells, 1)):
            files.expect(f"after a generation, {words[0]}", with_file(command, path, "--after", "1", *words), ample(wanted))


@as_one_test(Rules, "a folder of rules, not read")
def try_unread(files):
    """A rule file that isn't there, or can't be read, is as none; a folder that is none is a fault, also where no rule is looked for."""
    pattern, block = files.path("pattern", spread_pattern("Spread")[0]), files.path("block", "x = 2, y = 2\n2o$2o!\n")
    for command in COMMANDS:
        files.refuse("no rule file", with_file(command, pattern, "--rules", files.rules), "bad rule: unknown", f"{pattern}: rule Spread")
    os.symlink(files.rules, os.path.join(files.folder, "link"))
    files.expect("a link to a folder", ["show", block, "--rules", os.path.join(files.folder, "link")], run(["show", block]))
    lost = os.path.join(files.folder, "lost.rle")
    for folder in (os.path.join(files.folder, "missing"), pattern, os.path.join(pattern, "rules"), os.path.join(files.folder, "a\nb"), "-", ""):
        told = b"cannot read " + escaped(folder.encode())
        for command, path in itertools.product(COMMANDS, (pattern, block, lost)):
            files.expect("no folder", with_file(command, path, "--rules", folder), fault(told))
            files.expect("no folder, explained", with_file(command, path, "--explain", "--rules", folder, "--rule", lost), fault(told))
    os.mkdir(os.path.join(files.rules, "Folder.rule"))
    files.rule("Longer.rule", spread_of("Longer").encode().ljust(MAX_FILE + 1))
    for name in ("Folder", "Longer"):
        path = files.path("pattern", spread_pattern(name)[0])
        files.refuse(f"a rule file that isn't read, {name}", ["show", path, "--rules", files.rules], "bad rule: unknown", f"{path}: rule {name}")
    files.rule("Longest.rule", spread_of("Longest").encode().ljust(MAX_FILE))
    text, wanted = spread_pattern("Longest")
    files.expect("a rule file of 67108864 bytes", ["show", files.path("pattern", text), "--rules", files.rules], wanted)
    missing = os.path.join(files.folder, "missing")
    files.expect("no pattern", ["show", missing, "--rules", files.rules], fault(f"cannot read {missing}"))
    files.expect("an endless pattern", ["show", "/dev/zero", "--rules", files.rules], fault("too long /dev/zero"))


@as_one_test(Rules, "a folder of rules, not needed")
def try_unneeded(files):
    """No file is opened but the one of the rule that isn't known: a run that opens a pipe which nobody writes doesn't end."""
    spread, text = files.path("spread.rule", SPREAD), spread_pattern("Spread")
    for name in ("s23b3", "B3S23", "Spread", "Other", "Used:T10,10"):
        os.mkfifo(os.path.join(files.rules, f"{name}.rule"))
    files.rule("Used.rule", spread_of("Used"))
    used, wanted = spread_pattern("Used")
    large = files.path("large", PATTERNS["state_table"][0])
    runs = [(["show", files.path("used", used)], wanted), (["show", files.path("table", text[0]), "--rule", spread], text[1]),
            (["show", large, "--rule", spread], fault("state too large")),
            (["show", files.path("bounded", spread_pattern("Used:T10,10")[0])], fault("bad rule: bounded"))]
    for rule in ("s23b3", "B3S23"):
        runs.append((["show", files.path(rule, f"x = 1, y = 1, rule = {rule}\no!\n")], figures(0, 1, "0 0 1 1", "rle")))
    runs += [(["show", files.path(name, PATTERNS[name][0])], fault(PATTERNS[name][1])) for name in ("no_end", "bounded_mc", "wakes", "state")]
    for words, wanted in runs:
        files.expect("no pipe is opened", [*words, "--rules", files.rules], wanted, timeout=SOON)


def rle_of(name, state="A"):
    """An RLE of one cell of this state, and the rule's name."""
    return b"x = 1, y = 1, rule = %s\n%s!\n" % (name.encode() if isinstance(name, str) else name, state.encode())


def macrocell_of(name, state=1):
    """The same as macrocell, whose cell stands at (0, 0) too."""
    return f"[M2]\n#R {name}\n1 0 0 0 {state}\n"


class ClaimRules(Rules):
    """Claim texts, and a folder of rules beside them."""

    def table(self, name, text=STILL):
        """Writes the rule file of a table with this name, and gives its path."""
        return self.rule(f"{name}.rule", text.replace("NAME", name))

    def pipe(self, name):
        """A rule file that is a pipe which nobody writes: a run that opens it doesn't end."""
        os.mkfifo(os.path.join(self.rules, f"{name}.rule"))

    def text(self):
        """A new claim text, whose files stand in a folder of their own."""
        return ClaimText(Folder(tempfile.mkdtemp(dir=self.folder)))

    def check(self, name, words, wanted, **how):
        """The run comes to this, and soon."""
        self.expect(name, words, wanted, timeout=SOON, **how)

    def judge(self, name, text, folder=None):
        """The text's answers come with the folder of rules, in each order of the words, with notes and without."""
        path, folder = text.write(), self.rules if folder is None else folder
        for words in (["verify", "--rules", folder, path], ["verify", path, "--rules", folder]):
            self.check(name, words, outcome(text.answers, False))
        self.check(f"{name}, explained", ["verify", "--explain", "--rules", folder, path], outcome(text.answers, True))


def unknown(text, name, content, told):
    """Loads a pattern of a rule that isn't known, and claims that it is still."""
    path = text.load(name, content)
    text.claim(f"still {name}", UNKNOWN, name.encode() + b": " + path + b": rule " + escaped(told))


@as_one_test(ClaimRules, "a folder of rules, claims, found")
def try_claims_found(files):
    """Rules that are found by their names, in both formats, beside rules that need no table."""
    for name in ("Spread", "a", "A", "Life-2", "x.y", "~", "-", "--rule", "é", "n" * 200, "*", "%2F", "Spread.rule", ".hidden"):
        files.table(name)
        for content in (rle_of(name), macrocell_of(name)):
            text = files.text()
            text.load("found", content)
            text.load("block", "x = 2, y = 2\n2o$2o!\n")
            text.load("dead", "x = 1, y = 1, rule = 345/2/4\nA!\n")
            text.claim("still found", "yes")
            text.claim("still block", "yes")
            text.claim("still dead", "no, cells differ after 1", "dead at 0,0: 2 after 1 generation, claimed 1")
            text.claim("becomes found 5 found", "yes")
            files.judge(f"found, {name}", text)
            files.judge(f"found, {name}, folder with a slash", text, files.rules + "/")
    text = files.text()
    text.load("first", rle_of("Spread"))
    path = text.write()
    for words in (["verify", path, "--rules", files.rules], ["verify", path]):
        files.check("no claims", words, Outcome(b"", b"", 0))
    text.claim("still first", "yes")
    with open(text.write(), "rb") as file:
        files.check("standard input", ["verify", "-", "--rules", files.rules], outcome(text.answers, False), stdin=file)


@as_one_test(ClaimRules, "a folder of rules, claims, several texts")
def try_several_texts(files):
    """Several texts with the same folder: each looks for its own rules."""
    files.table("S")
    files.table("T", TURN)
    texts = []
    for name, other, verdict, note in (("S", "T", "yes", ""), ("T", "S", "no, cells differ after 1", "own at 0,0: 2 after 1 generation, claimed 1"),
                                       ("S", "lost", "yes", "")):
        text = files.text()
        text.load("own", rle_of(name))
        text.load("other", rle_of(other))
        text.claim("still own", verdict, note)
        texts.append((text.write(), text))
    for explained in (False, True):
        words = ["verify", "--rules", files.rules, *["--explain"] * explained, *[path for path, _ in texts]]
        wanted = b"".join(printed(text.answers, explained, path.encode() + b": ") for path, text in texts)
        files.check("several texts", words, Outcome(wanted, b"", max(status_of(text.answers) for _, text in texts)))
        missing = files.path("missing.claims")
        got = Outcome(wanted, f"cafile: {missing}: cannot read {missing}\n".encode(), 2)
        files.check("one is missing", [*words, missing], got)


@as_one_test(ClaimRules, "a folder of rules, claims, names")
def try_claimed_names(files):
    """Names that are never looked for, though there is such a file."""
    os.mkdir(os.path.join(files.rules, "sub"))
    files.path("rules/sub/Inner.rule", STILL.replace("NAME", "sub/Inner"))
    files.path("Outer.rule", STILL.replace("NAME", "../Outer"))
    for name in ("a..b", "..", "...", "..a", "b..", "Cut"):
        files.table(name)
    absolute = os.path.join(files.rules, "Cut")
    for name in ("sub/Inner", "../Outer", "../rules/Cut", "./Cut", "/Cut", "Cut/", absolute, "a..b", "..", "...", "..a", "b..", "n" * 5000, "lost", "cut",
                 "CUT", "Cut.rule"):
        text = files.text()
        unknown(text, "p", rle_of(name), name.encode())
        files.judge(f"the name {name}", text)
    for name in (b"Cut\x00", b"\x00", b"Cut\x00.rule", b"\xff", b"\xc3"):
        with open(os.path.join(files.rules.encode(), name.replace(b"\x00", b"") + b".rule"), "wb") as file:
            file.write(STILL.replace("NAME", "Cut").encode())
        text = files.text()
        unknown(text, "p", rle_of(name), name)
        files.judge(f"the name {name}", text)


@as_one_test(ClaimRules, "a folder of rules, claims, faulty")
def try_claims_on_faulty(files):
    """A faulty rule file refuses the claims on patterns that name it, and no other claim; a table of another name is of no use."""
    files.table("Good")
    for name, content in (("Empty", ""), ("No", "@RULE No\n"), ("States", STILL.replace("n_states:3", "n_states:1").replace("NAME", "States")),
                          ("Bad", STILL.replace("NAME", "Bad") + "1,0,0,\n"), ("Wakes", STILL.replace("NAME", "Wakes") + "0,0,0,1\n")):
        rule = files.rule(f"{name}.rule", content)
        text = files.text()
        text.load("good", rle_of("Good"))
        text.load("block", "x = 2, y = 2\n2o$2o!\n")
        bad = text.load("bad", rle_of(name))
        # The line of the fault, and what it is, are those that `show` tells of the rule file.
        wrong = run(["show", bad, "--rule", rule]).complaint
        told = wrong.removeprefix(b"cafile: bad table: ").removesuffix(b"\n")
        files.count += 1
        if not told.startswith(b"line ") or told == wrong:
            files.complaints.append(f"{name}: show tells {wrong!r}")
        note = b"bad: " + bad + b": rule " + name.encode() + b": " + rule.encode() + b": " + told
        text.claim("still good", "yes")
        text.claim("still bad", UNKNOWN, note)
        text.claim("still block", "yes")
        text.claim("becomes good 1 bad", UNKNOWN, note)
        text.claim("becomes bad 1 good", UNKNOWN, note)
        text.claim("becomes good 3 good", "yes")
        files.judge(f"faulty, {name}", text)
    files.rule("Other.rule", STILL.replace("NAME", "Good"))
    files.rule("Moved.rule", TURN.replace("NAME", "Good"))
    text = files.text()
    text.load("good", rle_of("Good"))
    unknown(text, "other", rle_of("Other"), b"Other")
    unknown(text, "moved", rle_of("Moved"), b"Moved")
    text.claim("still good", "yes")
    files.judge("tables of other names", text)
    files.rule("Holds.rule", STILL.replace("NAME", "Absent"))
    text = files.text()
    unknown(text, "holds", rle_of("Holds"), b"Holds")
    unknown(text, "absent", rle_of("Absent"), b"Absent")
    files.judge("a table in the file of another name alone", text)
    text = files.text()
    large = text.load("large", rle_of("Good", "C"))
    text.claim("still large", "refused, state too large", b"large: " + large)
    files.judge("a state too large", text)
    for grid in ("T10,10", "P8"):
        text = files.text()
        bounded = text.load("bounded", rle_of(f"Good:{grid}"))
        text.claim("still bounded", "refused, bad rule: bounded", b"bounded: " + bounded + b": rule Good:" + grid.encode())
        files.judge("a grid", text)


@as_one_test(ClaimRules, "a folder of rules, claims, several faulty")
def try_several_faulty(files):
    """Two faulty rule files and a missing one beside a good one, in texts whose patterns come in each order: each pattern is told of its own, a claim about two
    of the first."""
    files.table("Good")
    rules = {"Good": None, "Cut": (STILL.replace("NAME", "Cut") + "1,0,0\n", b"line 6 syntax"), "Bare": ("@RULE Bare\n@TABLE\n", b"line 2 states"),
             "Lost": None}
    for name, content in rules.items():
        if content:
            files.rule(f"{name}.rule", content[0])
    for order in itertools.permutations(rules):
        text, notes = files.text(), {"Good": None}
        for name in order:
            path = text.load(name, rle_of(name))
            if name != "Good":
                note = name.encode() + b": " + path + b": rule " + name.encode()
                notes[name] = note + (b": " + files.path(f"rules/{name}.rule").encode() + b": " + rules[name][1] if rules[name] else b"")
        for one, two in itertools.product(order, repeat=2):
            note = notes[one] or notes[two]
            text.claim(f"becomes {one} 1 {two}", *((UNKNOWN, note) if note else ("yes",)))
        files.judge(f"several faulty, {' '.join(order)}", text)


@as_one_test(ClaimRules, "a folder of rules, claims, elsewhere")
def try_elsewhere(files):
    """No rule file stands for one of the folder: neither one of the working directory nor one of the folder above, with each command."""
    above = files.path("S.rule", STILL.replace("NAME", "S"))
    work = files.path("work")
    os.mkdir(work)
    for path in (f"{work}/S.rule", above, f"{work}/S", f"{files.rules}/S"):
        with open(path, "w", encoding="utf-8") as file:
            file.write(STILL.replace("NAME", "S"))
    pattern, refused = files.path("s.rle", rle_of("S")), b"line 2: refused, bad rule: unknown\n"
    claims = files.path("s.claims", f"load s {pattern}\nstill s\n")
    for folder in (files.rules, "../rules"):
        words = ["--rules", folder]
        for command in COMMANDS:
            files.check("elsewhere", with_file(command, pattern, *words), fault("bad rule: unknown"), cwd=work)
        files.check("elsewhere", ["identify", *words, pattern], Outcome(f"claims 2\n# s: {pattern}: bad rule: unknown\n".encode(), b"", 2), cwd=work)
        files.check("elsewhere", ["verify", *words, claims], Outcome(refused, b"", 2), cwd=work)


@as_one_test(ClaimRules, "a folder of rules, claims, longer paths")
def try_longer_paths(files):
    """Patterns whose paths begin with that of the rule file, and go on."""
    files.table("S", TURN)
    begun = files.path("rules/S.rule.rle", rle_of("S"))
    text = files.text()
    text.load_path("begun", begun)
    text.load_path("more", files.path("rules/S.rule~", rle_of("S", "B")))
    for name in ("one", "two"):
        text.load(name, rle_of("S"))
    text.claim("still begun", "no, cells differ after 1", "begun at 0,0: 2 after 1 generation, claimed 1")
    text.claim("becomes begun 1 more", "yes")
    text.claim("becomes two 1 more", "yes")
    text.claim("becomes one 0 begun", "yes")
    files.judge("a path that begins with that of the rule file", text)


def once(files, content, words, wanted):
    """The run, over a rule file that is a pipe which gives this content once, comes to that."""
    pipe = os.path.join(files.rules, "Once.rule")
    writer = subprocess.Popen(["sh", "-c", 'cat "$0" > "$1"', files.path("content", content), pipe])
    files.check("a rule file that is read once", words, wanted)
    writer.kill()
    writer.wait()


@as_one_test(ClaimRules, "a folder of rules, claims, read once")
def try_once(files):
    """A rule file that several patterns name is read once, a faulty one too: a run that opens the pipe once more doesn't end."""
    files.pipe("Once")
    rule = files.path("rules/Once.rule")
    for content, told in ((TURN.replace("NAME", "Once"), None), ("@RULE Once\n", "line 1 no table"), (STILL.replace("NAME", "Twice"), "")):
        text = files.text()
        for name in ("one", "two", "three"):
            path = text.load(name, rle_of("Once")).decode()
            note = f"{name}: {path}: rule Once" + (f": {rule}: {told}" if told else "")
            text.claim(f"still {name}", *(("no, cells differ after 1", f"{name} at 0,0: 2 after 1 generation, claimed 1") if told is None else (UNKNOWN, note)))
        for explained_too in (False, True):
            words = ["verify", "--rules", files.rules, text.write(), *["--explain"] * explained_too]
            once(files, content, words, outcome(text.answers, explained_too))
    paths = {name: files.path(f"{name}.rle", rle_of("Once")) for name in "abc"}
    lines = f"rule {rule}\n" + "".join(f"load {name} {path}\nstill {name}\n" for name, path in paths.items())
    once(files, STILL.replace("NAME", "Once"), ["identify", "--rules", files.rules, *paths.values()], ample(f"claims 2\n{lines}".encode()))
    for content, told in (("@RULE Once\n", "bad table: no table"), (STILL.replace("NAME", "Twice"), "bad rule: unknown")):
        lines = "".join(f"# {name}: {path}: {told}\n" for name, path in paths.items())
        once(files, content, ["identify", "--rules", files.rules, *paths.values()], Outcome(f"claims 2\n{lines}".encode(), b"", 2))


@as_one_test(ClaimRules, "a folder of rules, claims, not read")
def try_claims_unread(files):
    """A rule file that isn't there, or can't be read, is as none; a folder that is none is a fault before any text is read."""
    os.mkdir(os.path.join(files.rules, "Folder.rule"))
    os.symlink("nowhere", os.path.join(files.rules, "Link.rule"))
    files.rule("Longer.rule", STILL.replace("NAME", "Longer").encode().ljust(MAX_FILE + 1))
    files.rule("Longest.rule", STILL.replace("NAME", "Longest").encode().ljust(MAX_FILE))
    text = files.text()
    for name in ("Folder", "Link", "Longer"):
        unknown(text, name, rle_of(name), name.encode())
    text.load("longest", rle_of("Longest"))
    text.claim("still longest", "yes")
    files.judge("rule files that aren't read", text)
    text = files.text()
    unknown(text, "p", rle_of("Longest"), b"Longest")
    for folder in (os.path.join(files.folder, "missing"), os.path.join(files.rules, "Longest.rule"), ""):
        for paths in ([text.write()], [text.write(), "examples/block.claims"], ["tests/golden/verify/no_claims/claims"], ["tests/golden/verify/syntax/claims"],
                      [os.path.join(files.folder, "lost.claims")]):
            files.check(f"the folder {folder!r}", ["verify", "--rules", folder, *paths], fault(f"cannot read {folder}"))
    text = files.text()
    text.load_path("lost", files.path("lost.rle"))
    text.load("good", rle_of("Longest"))
    text.claim("still lost", "refused, no file", f"lost: {files.path('lost.rle')}: no such file")
    text.claim("becomes good 1 lost", "refused, no file", f"lost: {files.path('lost.rle')}: no such file")
    text.claim("still good", "yes")
    files.judge("a pattern that is missing", text)


@as_one_test(ClaimRules, "a folder of rules, claims, beside rule lines")
def try_rule_lines(files):
    """The tables of rule lines go before the folder; a faulty one refuses all claims, and then nothing is looked for."""
    files.table("S", TURN)
    files.table("T", TURN)
    for name in ("Life", "Unused"):
        files.pipe(name)
    turned = "no, cells differ after 1"
    for both in (False, True):
        text = files.text()
        text.rule(STILL.replace("NAME", "S"))
        if both:
            text.rule(TURN.replace("NAME", "S"))
        text.load("s", rle_of("S"))
        text.load("t", rle_of("T"))
        text.claim("still s", "yes")
        text.claim("still t", turned, "t at 0,0: 2 after 1 generation, claimed 1")
        text.claim("becomes s 0 t", "refused, mixed rules")
        files.judge("a rule line and the folder", text)
    text = files.text()
    path = text.rule_path(os.path.join(files.rules, "S.rule"))
    text.load("s", rle_of("S"))
    text.claim("still s", turned, "s at 0,0: 2 after 1 generation, claimed 1")
    files.judge("a rule line of the folder's file", text)
    for content, told in (("faulty", "refused, bad table: no rule line"), (None, "refused, no file")):
        text = files.text()
        path = text.rule(content) if content else text.rule_path(files.path("nowhere.rule"))
        text.load("life", rle_of("Life"))
        text.claim("still life", told, b"rule file: " + path + (b", line 1" if content else b": no such file"))
        files.judge("a faulty rule line", text)
    text = files.text()
    path = text.load_path("table", files.table("T"))
    text.load("t", rle_of("T"))
    text.claim("still t", "yes")
    text.claim("still table", "refused, bad pattern: rle header", b"table: " + path + b", line 1")
    text.claim("becomes t 9 t", "yes")
    files.judge("a rule file that is loaded as a pattern", text)


@as_one_test(ClaimRules, "a folder of rules, claims, two patterns")
def try_pairs(files):
    """Claims on two patterns: of one found table, of two, and of one whose table isn't found."""
    files.table("S", TURN)
    files.table("T")
    text = files.text()
    text.load("one", rle_of("S"))
    text.load("two", rle_of("S", "B"))
    text.load("mc", macrocell_of("S", 2))
    text.load("other", rle_of("T", "B"))
    lost = text.load("lost", rle_of("Lost"))
    note = b"lost: " + lost + b": rule Lost"
    text.claim("becomes one 1 two", "yes")
    text.claim("becomes one 7 mc", "yes")
    text.claim("becomes one 0 two", "no, cells differ after 0", "one at 0,0: 1 after 0 generations, claimed 2")
    text.claim("becomes two 1 other", "refused, mixed rules")
    text.claim("becomes other 1 two", "refused, mixed rules")
    text.claim("becomes one 1 lost", UNKNOWN, note)
    text.claim("becomes lost 1 one", UNKNOWN, note)
    text.claim("still other", "yes")
    text.claim("still two", "yes")
    files.judge("pairs", text)


@as_one_test(ClaimRules, "a folder of rules, claims, not needed")
def try_claims_unneeded(files):
    """No file is opened but those of rules that aren't known of patterns that some claim is about: a run that opens a pipe doesn't end."""
    for name in ("Loaded", "B3S23", "b3s23", "Given", "Broken", "Grid"):
        files.pipe(name)
    files.table("Used")
    text = files.text()
    text.rule(STILL.replace("NAME", "Given"))
    text.load("used", rle_of("Used"))
    text.load("loaded", rle_of("Loaded"))
    text.load("given", rle_of("Given"))
    text.load("life", rle_of("B3S23"))
    broken = text.load("broken", "x = 1, y = 1, rule = Broken\nA")
    grid = text.load("grid", rle_of("Grid:T1,1"))
    text.claim("still used", "yes")
    text.claim("still given", "yes")
    text.claim("oscillator life 2", "no, cells differ after 2", "life at 0,0: 0 after 2 generations, claimed 1")
    text.claim("still broken", "refused, bad pattern: rle no end", b"broken: " + broken + b", line 2")
    text.claim("still grid", "refused, bad rule: bounded", b"grid: " + grid + b": rule Grid:T1,1")
    files.judge("not needed", text)
    text = files.text()
    text.load("loaded", rle_of("Loaded"))
    path = text.write()
    files.check("without claims", ["verify", path, "--rules", files.rules], Outcome(b"", b"", 0))
    text.lines.append(b"faulty")
    path = text.write()
    files.check("a faulty text", ["verify", path, "--rules", files.rules], fault("claims line 2: syntax"))


@as_one_test(ClaimRules, "a folder of rules, claims, Golly's files")
def try_layout(files):
    """Rule files as Golly has them: sections before and after the table, CR LF, and colours and icons that no rule is."""
    golly = "@RULE NAME\r\n\r\nBy somebody.\r\n\r\n" + STILL.split("\n", 1)[1].replace("\n",
                                                                                       "\r\n") + "\r\n@COLORS\r\n\r\n1 255 0 0\r\n\r\n@ICONS\r\n\r\nXPM\r\n"
    files.table("Golly", golly)
    text = files.text()
    text.load("golly", rle_of("Golly"))
    text.claim("still golly", "yes")
    files.judge("Golly's sections", text)
    for rank in range(300):
        files.table(f"R{rank}", TURN if rank % 2 else STILL)
    text = files.text()
    for rank in range(300):
        text.load(f"p{rank}", rle_of(f"R{rank}"))
        text.claim(f"still p{rank}", *(("no, cells differ after 1", f"p{rank} at 0,0: 2 after 1 generation, claimed 1") if rank % 2 else ("yes",)))
    files.judge("three hundred rules", text)


@as_one_test(ClaimRules, "a folder of rules, claims, many patterns")
def try_many_patterns(files):
    """1100 patterns, of which the last hundred have rules of their own."""
    text = files.text()
    for rank in range(1100):
        own = max(rank - 999, 0)
        if own or rank == 0:
            files.table(f"R{own}", TURN if own % 2 else STILL)
        text.load(f"p{rank}", rle_of(f"R{own}"))
        text.claim(f"still p{rank}", "no, cells differ after 1" if own % 2 else "yes")
    files.check("1100 patterns", ["verify", "--rules", files.rules, text.write()], outcome(text.answers, False))


if __name__ == "__main__":
    try_all(try_found, try_names, try_faulty, try_given, try_given_after, try_unread, try_unneeded, try_claims_found, try_several_texts,
            try_claimed_names, try_claims_on_faulty, try_several_faulty, try_elsewhere, try_longer_paths, try_once,
            try_claims_unread, try_rule_lines, try_pairs, try_claims_unneeded, try_layout, try_many_patterns)
