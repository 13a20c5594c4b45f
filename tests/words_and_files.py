#!/usr/bin/env -S python3 -B
"""The words that the program is started with, and how it reads files.

- Help and version, faulty words, more words than most runs have, and files that aren't there, can't be read, or are as long as a file may be.
- Standard input, by the path `-`, which no other path is. And /dev/stdin, a path as any, whose bytes a pipe gives once: each file is read once.
- Files that are cut after each of their bytes, beside the RLE and the macrocell that tests/macrocell.py cuts, and numbers at their limits.
- Pipes that give bytes for ever, of which a run ends within seconds.
"""
import os
import re
import subprocess
import tempfile
import threading

from lib.macrocell import EDGE
from lib.macrocell_texts import CELL, chain
from lib.program import MAX_FILE, MOST_WAITING, PROGRAM, ROOT, Folder, Outcome, Tally, ample, contents, fault, figures, lines_outcome, run
from lib.work import excess, timed

# What the help of each command tells.
HELP = {
    "show": ("--rule", "--rules", "--explain", "--after", "--progress", "--memo", "--work", "DIR/NAME.rule", "format macrocell", "rule B3/S23", "gen 4",
             "cells 5", "box 1 2 3 3", "- is standard input", "The status is 0, or 2"),
    "convert": ("--to", "--rule", "--rules", "--explain", "--after", "--progress", "--memo", "--work", "DIR/NAME.rule", "rle, mc", "- is standard input",
                "The status is 0, or 2"),
    "draw": ("--at", "--size", "--scale", "--to", "text, pgm", "--after", "--progress", "--memo", "--work", "--rule", "--rules", "--explain", "DIR/NAME.rule",
             "80 by 40", "1024 by 1024", "8192 by 8192",
             "window too large", "- is standard input", "The status is 0, or 2"),
    "identify": ("FILE", "--limit", "--after", "# NAME after 1103 generations: still", "--rule", "--rules", "--explain", "--progress", "--memo", "--work",
                 "65536", "DIR/NAME.rule", "load NAME PATH", "still NAME", "oscillator NAME P",
                 "spaceship NAME P DX DY", "dies NAME N", "claims 2", "# NAME: no cell is live",
                 "# NAME: none of these within 65536 generations: N cells, in a box of W by H, after 65536", "# NAME: PATH: bad pattern: rle no end",
                 "identify ./*.rle > mine.claims", "The status is 0, or 2"),
    "census": ("FILE", "--limit", "--list", "--into", "--after", "--rule", "--rules", "--explain", "--progress", "--memo", "--work", "65536",
               "# r_pentomino: settles after 1103 generations: 25 objects, 116 cells", "8 xs4_33", "not found to settle", "The status is 0, or 2"),
    "verify": ("CLAIMS", "--rules", "DIR/NAME.rule", "--explain", "--progress", "--memo", "--work", "rule PATH", "load NAME PATH", "still NAME",
               "oscillator NAME P", "spaceship NAME P DX DY", "becomes NAME N NAME2", "becomes NAME N NAME2 shift DX DY", "dies NAME N", "claims 2",
               "relative to the working directory", "hold no blanks", "- is standard input", "The status is 0", "1 where", "2 where"),
}

SHOW, TO_RLE, TO_MC = ["show", "-"], ["convert", "-", "--to", "rle"], ["convert", "-", "--to", "mc"]
SPREAD_RULE, SPREAD = "examples/tables/spread.rule", "examples/tables/spread_1.rle"

# How many texts without a claim stand before one that has some.
MANY = 30000

# What `identify --limit 1` tells of that pattern, a plus of five cells: a cell next to one live cell alone becomes live.
GROWTH = "none of these within 1 generation: 9 cells, in a box of 5 by 5, after 1"

USUAL_HEADER = "x = 3, y = 3, rule = B3/S23\n"

# How many times the known work a run may take that reads for ever, and how many bytes it may ask for beyond those that a file may have.
ENDLESS_WORK, MOST_BEYOND = 100, 1 << 20

# An RLE with a comment that counts, and with numbers and states of several bytes; and a table of its rule.
ITEMS = b"#CXRLE Pos=-1,2 Gen=50\nx = 3, y = 2, rule = Wide\n12pB.3yO$2A!"

WIDE = "@RULE Wide\n@TABLE\nn_states:256\nneighborhood:Moore\nsymmetries:none\n"

# A rule file, and the lengths up to which it has each fault; None where it has none.
CUT_TABLE = b"@RULE Spread\n@TABLE\nn_states:3\nneighborhood:vonNeumann\nsymmetries:rotate4\nvar a={1,2}\n0,a,0,0,0,a\n"

TABLE_FAULTS = (
    (6, "line 1 no rule line"), (13, "line 1 no table"), (18, "line 2 no table"), (20, "line 2 states"), (29, "line 3 states"),
    (31, "line 3 neighborhood"), (53, "line 4 neighborhood"), (55, "line 4 symmetries"), (72, "line 5 symmetries"), (74, None), (84, "line 6 syntax"),
    (86, None), (96, "line 7 syntax"), (98, None),
)

# A claim text, and the lengths up to which it has a fault in a line, or some number of answers.
CUT_CLAIMS = b"claims 2\nload b examples/block.rle\nload e examples/empty.rle\nstill b\nbecomes b 12 e shift 1 0\ndies b 3\n"

ANSWERS = [(4, "yes"), (5, "no, cells differ after 12"), (6, "no, cells differ after 3")]

CLAIM_FAULTS = (
    (0, 0), (7, "1"), (9, 0), (16, "2"), (35, 0), (42, "3"), (61, 0), (67, "4"), (69, 1), (82, "5"), (84, 2), (92, "5"), (94, 2), (101, "6"),
    (103, 3),
)

# One cell in the corner of squares up to level 119, and that square as the south-east part of the root.
DEEP = (chain(CELL, "{} 0 0 0", 119) + "120 0 0 0 117\n").encode()

# The numbers of rows after which a file goes on, which are as great as counts may be.
FAR_DOWN = f"{USUAL_HEADER}{4 * EDGE}${4 * EDGE}$"

# Files with numbers at limits or beyond, and what `show` comes to.
SHOWN = (
    (f"{FAR_DOWN}!", figures(0, 0, "none", "rle")), (f"{FAR_DOWN}o!", fault("bad pattern: rle range")),
    (f"{FAR_DOWN}o", fault("bad pattern: rle no end")), (FAR_DOWN, fault("bad pattern: rle no end")),
    (f"#CXRLE Gen={'0' * 30}1\nx = {'9' * 40}, y = 1\no!", figures(1, 1, "0 0 1 1", "rle")),
    (f"#CXRLE Gen={EDGE * 8 - 1}\nx = 1, y = {'9' * 40}\no!", figures(EDGE * 8 - 1, 1, "0 0 1 1", "rle")),
    *((DEEP.decode() + line, fault(f"bad pattern: macrocell {kind}")) for line, kind in (
        ("121 118 0 0 0\n", "level"), ("121 0 0 0 118", "level"), ("119 118 0 0 0", "level"), ("120 118 0 0 0", "level"), ("121 0 0 0\n", "syntax"),
        ("120 117 0 0 117\n", "range"), ("120 0 0 0 118\n", "level"), ("120 0 0 0 119\n", "forward"),
    )),
)


def try_help(tally):
    """Help and version come on standard output with status 0. What the help shows is so: its commands, and its claims."""
    helps = {name: run([name, "--help"]) for name in HELP}
    for words, texts in ((["--help"], HELP), (["-h"], HELP), (["--version"], ("cafile ",)), *(([name, "--help"], texts) for name, texts in HELP.items()),
                         *((["help", name], texts) for name, texts in HELP.items())):
        outcome = run(words)
        lacks = [text for text in texts if text.encode() not in outcome.printed]
        tally.tell(" ".join(words), lacks or ([] if (outcome.complaint, outcome.status) == (b"", 0) else [str(outcome)]))
    lines = [line for text in [run(["--help"]).printed, *(it.printed for it in helps.values())]
             for line in re.findall(r"^  (?:cat .* \| )?cafile .*$", text.decode(), re.M)]
    with tempfile.TemporaryDirectory() as room:
        os.symlink(os.path.join(ROOT, "examples"), os.path.join(room, "examples"))
        for line in lines:
            ran = subprocess.run(["sh", "-c", line.replace("cafile ", '"$0" '), PROGRAM], cwd=room, capture_output=True, timeout=MOST_WAITING, check=False)
            wanted = 0 if " identify " in line or " census " in line else 2 if "several" in line else 1 if "pulsar" in line or "reactions" in line else 0
            tally.tell(f"in the help: {line.strip()}", [] if ran.stdout and not ran.stderr and ran.returncode == wanted else [str(ran)])
    claims = re.findall(r"^      (\w.*)$", helps["verify"].printed.decode(), re.M)
    loads = [f"load {os.path.basename(path)[:-4]} {path}" for path in ("examples/block.rle", "examples/pulsar.rle", "examples/blinker.rle",
                                                                       "tests/files/blinker_1.rle", "examples/reactions/diehard.rle")]
    lines = [claims[0], *loads, *claims[1:]]
    tally.expect(f"in the help: {claims}", run(["verify", "-"], input="\n".join(lines).encode()), lines_outcome([(at, "yes") for at in range(9, 15)]))


def try_limits_in_help(tally):
    """The help of each command says how many entries a memo may have, and how many where none are given: as docs/COMMANDS.md does, and as
    `Limits::default` promises."""
    with open(os.path.join(ROOT, "docs", "COMMANDS.md"), encoding="utf-8") as page:
        on_page = re.search(r"`--memo N`\*\* bounds .* to N entries, from (\d+) to (\d+), and to (\d+) where the option is missing", page.read())
    wanted = ("1", "16777216", "262144")
    tally.tell("the memo in docs/COMMANDS.md", [] if on_page and on_page.groups() == wanted else [str(on_page)])
    for name in HELP:
        told = re.findall(r"--memo <N> How many entries [^;:]*: (\d+) to (\d+); unless set, (\d+)", " ".join(run([name, "--help"]).printed.decode().split()))
        tally.tell(f"the memo in the help of {name}", [] if told == [wanted] else [str(told)])


def try_words(tally):
    """Words that ask for nothing are reported on standard error with status 2."""
    block = "examples/block.rle"
    for words in (
        [], ["verify"], ["check", "examples/block.claims"], ["verify", "--fast", "examples/block.claims"], ["verify", "--explain"], ["verify", "--progress"],
        ["verify", "--explain", "--explain", "examples/block.claims"], ["verify", "--explain=yes", "examples/block.claims"],
        ["verify", "-e", "examples/block.claims"],
        ["show", "-", "-"], ["show", "--explain"], ["show", "--explain", "--explain", block], ["show", "--explain=yes", block],
        ["convert", "--explain", "--to", "rle"],
        ["show", "--progress=yes", block], ["show", block, "--rules"], ["show", block, "--rules", "a", "--rules", "b"],
        ["convert", block, "--to", "rle", "--rules"],
        ["verify", "examples/block.claims", "--rules"], ["verify", "--rules", "a", "--rules", "b", "examples/block.claims"],
        ["verify", "--rules", "examples/rules"], ["verify", "examples/block.claims", "--to", "rle"],
        ["show"], ["show", block, block], ["show", block, "--rule"], ["show", block, "--to", "rle"], ["show", block, "--fast"], ["Show", block],
        ["show", "--rule", block], ["show", block, "--rule", block, "--rule", block], ["verify", "examples/block.claims", "--rule", block],
        ["convert"], ["convert", block], ["convert", "--to", "rle"], ["convert", block, "--to"], ["convert", block, "--to", "life"],
        ["convert", block, "--to", "RLE"], ["convert", block, "--to", ""], ["convert", block, "rle"], ["convert", block, "--to", "rle", "mc"],
        ["convert", block, "--to", "rle", "--to", "mc"],
        ["identify"], ["identify", "--limit", "5"], ["identify", block, "--limit"], ["identify", block, "--limit", "0"],
        ["identify", block, "--limit", "4294967296"],
        ["identify", block, "--limit", "-1"], ["identify", block, "--after", "1152921504606846977"], ["identify", block, "--after", "-1"],
        ["identify", block, "--after"], ["identify", block, "--limit", "1e3"], ["identify", block, "--limit", ""],
        ["identify", block, "--limit", "5", "--limit", "5"],
        ["identify", block, "--rule"], ["identify", block, "--rule", "a", "--rule", "b"], ["identify", block, "--rules"],
        ["identify", block, "--rules", "a", "--rules", "b"],
        ["identify", block, "--memo", "0"], ["identify", block, "--memo", "16777217"], ["identify", block, "--work", "-1"],
        ["identify", block, "--work", "18446744073709551616"],
        ["identify", block, "--explain", "--explain"], ["identify", block, "--progress", "--progress"], ["identify", block, "--to", "rle"],
        ["identify", block, "--fast"],
        ["census"], ["census", "--list"], ["census", block, "--limit"], ["census", block, "--limit", "4294967296"], ["census", block, "--limit", "-1"],
        ["census", block, "--list", "--list"], ["census", block, "--into"], ["census", block, "--into", "lost/a", "--into", "lost/b"], ["census", "--into", "lost/a"],
        ["identify", block, "--into", "lost/a"], ["census", block, "--apgcode"], ["census", block, "--after", "1152921504606846977"],
        ["draw"], ["draw", block, block], ["draw", block, "--to", "rle"], ["draw", block, "--progress", "--progress"], ["show", block, "--at", "0,0"],
        ["show", block, "--scale", "0"],
    ):
        outcome = run(words)
        well = outcome.complaint and (outcome.printed, outcome.status) == (b"", 2)
        tally.tell(f"faulty words: {' '.join(words)}", [] if well else [str(outcome)])
    for words in (["verify", b"\xff.claims"], ["show", b"\xff.rle"], ["show", block, "--rule", b"\xff"], ["show", block, "--rules", b"\xff"],
                  ["identify", block, "--rule", b"\xff"], ["identify", block, "--rules", b"\xff"], ["identify", block, "--limit", b"\xff"],
                  ["identify", block, b"--limit=\xff"], ["identify", b"-\xff.rle"],
                  ["identify", b"\xff.rle", "--fast"], ["identify", b"\xff.rle", "--help"], ["identify", b"\xff.rle", "--rule", b"\xff"],
                  ["census", block, "--rule", b"\xff"], ["census", block, "--into", b"\xff"], ["census", block, "--limit", b"\xff"], ["census", b"-\xff.rle"],
                  ["identify", "--rule", "--", b"-\xff.rle"], [b"identify\xff", block], [b"\xff"],
                  ["show", block, b"\xff"], ["verify", b"\xff", "--help"], ["verify", "examples/block.claims", "--rules", b"\xff"],
                  ["convert", block, "--to", b"\xff"], ["draw", block, "--at", b"\xff"]):
        tally.expect(f"words that aren't UTF-8, {words[0]}", run(words), fault("usage"))


def try_claim_texts(tally, files):
    """Claim texts that aren't there, can't be read, or are too long."""
    missing = os.path.join(files.folder, "missing.claims")
    tally.expect("a claim text that isn't there", run(["verify", missing]), fault(f"cannot read {missing}"))
    tally.expect("a folder for a claim text", run(["verify", files.folder]), fault(f"cannot read {files.folder}"))
    tally.expect("an empty path", run(["verify", ""]), fault("cannot read "))
    claims = b"load block examples/block.rle\nstill block\n#"
    longest = files.path("longest.claims", claims.ljust(MAX_FILE))
    tally.expect("a claim text of 67108864 bytes", run(["verify", longest]), lines_outcome([(2, "yes")]))
    longer = files.path("longer.claims", claims.ljust(MAX_FILE + 1))
    tally.expect("a claim text of 67108865 bytes", run(["verify", longer]), fault(f"too long {longer}"))
    tally.expect("a claim text without end", run(["verify", "/dev/zero"]), fault("too long /dev/zero"))
    text = files.path("text.claims", b"load \xff \xfe.rle\nstill \xff\n\x00\n")
    tally.expect("a claim text that isn't UTF-8", run(["verify", text]), fault("claims line 3: syntax"))


def try_many_words(tally, files):
    """A claim text behind many that hold no claim is judged too."""
    nothing = files.path("n", b"")
    words = ["verify", *[nothing] * MANY, "examples/block.claims"]
    tally.expect(f"{MANY} texts and one more", run(words), Outcome(b"examples/block.claims: line 2: yes\n", b"", 0))


def try_pipes(tally, files):
    """A claim text, and a pattern, that come through a pipe in pieces."""
    piped = files.path("piped.claims", b"load block /dev/stdin\nstill block\n")
    for path, pieces in (
        ("/dev/stdin", ("load block examples/bl", "ock.rle\\nstill", " block")),
        (piped, ("x = 2, y = 2\\n2", "o$", "2o!\\n")),
    ):
        script = "; sleep 0.1; ".join(f"printf '{it}'" for it in pieces)
        with subprocess.Popen(["sh", "-c", script], stdout=subprocess.PIPE) as writer:
            tally.expect(f"{os.path.basename(path)}, in pieces", run(["verify", path], stdin=writer.stdout), lines_outcome([(2, "yes")]))


def try_patterns(tally, files):
    """Files of a claim text that aren't there, can't be read, or are too long: the claims about them are refused, and no other."""
    block = b"x = 2, y = 2, rule = B3/S23\n2o$2o!\n"
    paths = {
        "missing": os.path.join(files.folder, "missing.rle").encode(),
        "folder": files.folder.encode(),
        "odd": os.path.join(files.folder.encode(), b"\xff.rle"),
        "longest": files.path("longest.rle", block.ljust(MAX_FILE)).encode(),
        "longer": files.path("longer.rle", block.ljust(MAX_FILE + 1)).encode(),
        "endless": b"/dev/zero",
        "block": b"examples/block.rle",
    }
    with open(paths["odd"], "wb") as file:
        file.write(block)
    loads = b"".join(b"load %s %s\n" % (name.encode(), path) for name, path in paths.items())
    claims = b"".join(b"still %s\n" % name.encode() for name in paths)
    verdicts = ["yes" if name in ("longest", "block") else "refused, no file" for name in paths]
    text = files.path("patterns.claims", loads + claims + b"becomes block 0 longer\n")
    answers = [(len(paths) + 1 + at, verdict) for at, verdict in enumerate([*verdicts, "refused, no file"])]
    tally.expect("files that aren't supplied", run(["verify", text]), lines_outcome(answers))
    tally.expect("no files, and no claims", run(["verify", files.path("loads.claims", loads)]), Outcome(b"", b"", 0))


def claims(text):
    """A claim text about a block."""
    return b"load block examples/block.rle\n" + text


def closed(words):
    """The outcome of a run whose standard input is closed."""
    ran = subprocess.run(["sh", "-c", 'exec "$0" "$@" <&-', PROGRAM, *words], stdout=subprocess.PIPE, stderr=subprocess.PIPE, cwd=ROOT, timeout=MOST_WAITING,
                         check=False)
    return Outcome(ran.stdout, ran.stderr, ran.returncode)


def try_texts_on_input(tally):
    """Claim texts on standard input."""
    for text, wanted in (
        (claims(b"still block\n"), lines_outcome([(2, "yes")])), (claims(b"still block"), lines_outcome([(2, "yes")])), (b"", ample(b"")),
        (b"\n\n# nothing\n", ample(b"")), (claims(b"gun block\n"), fault("claims line 2: syntax")), (b"still a", fault("claims line 1: unknown name")),
        (claims(b"becomes block 0 block\noscillator block 2\n"), lines_outcome([(2, "yes"), (3, "no, the same after 1, shifted by 0,0")])),
    ):
        for words in (["verify", "-"], ["verify", "--", "-"], ["verify", "-", "--explain"], ["verify", "--explain", "--", "-"]):
            tally.expect(f"{' '.join(words)}, {text[-20:]!r}", run(words, input=text), wanted)
    lost = b"load lost examples/lost.rle\nstill lost\n"
    note = b"line 2: refused, no file\n  lost: examples/lost.rle: no such file\n"
    tally.expect("explained", run(["verify", "--explain", "-"], input=lost), Outcome(note, b"", 2))


def try_input_among_texts(tally):
    """Standard input among other texts; given twice it is empty the second time."""
    text, block = claims(b"still block\n"), "examples/block.claims"
    told, more = b"-: line 2: yes\n", b"examples/block.claims: line 2: yes\n"
    tally.expect("before another", run(["verify", "-", block], input=text), ample(told + more))
    tally.expect("after another", run(["verify", block, "-"], input=text), ample(more + told))
    tally.expect("twice", run(["verify", "-", "-"], input=text), ample(told))
    tally.expect("twice, and another between", run(["verify", "-", block, "-"], input=text), ample(told + more))
    tally.expect("a fault", run(["verify", "-", block], input=b"still"), Outcome(more, b"cafile: -: claims line 1: syntax\n", 2))
    tally.expect("twice, with a fault", run(["verify", "-", block, "-"], input=b"still"), Outcome(more, b"cafile: -: claims line 1: syntax\n", 2))
    text = b"load lost examples/lost.rle\nstill lost\n"
    wanted = Outcome(b"-: line 2: refused, no file\n-:   lost: examples/lost.rle: no such file\n" + more, b"", 2)
    tally.expect("explained, with another", run(["verify", "-", block, "--explain"], input=text), wanted)


def try_patterns_on_input(tally):
    """Patterns on standard input, as the same file by its path gives."""
    for name in ("examples/glider.rle", "examples/empty.rle", "examples/macrocell/glider.mc", "examples/macrocell/full_square.mc", "tests/files/bad/no_end.rle",
                 "tests/files/bad/syntax.mc", "examples/published/crlf.rle", "examples/unknown.rle", "tests/files/period_840.rle"):
        text = contents(os.path.join(ROOT, name))
        for words in (SHOW, TO_RLE, TO_MC, ["convert", "--to", "mc", "-"], ["convert", "--to", "mc", "--", "-"]):
            by_path = run([name if it == "-" else it for it in words])
            tally.expect(f"{' '.join(words)}, {name}", run(words, input=text), by_path)
    spread = contents(os.path.join(ROOT, SPREAD))
    for words in (SHOW, TO_RLE, TO_MC):
        by_path = run([SPREAD if it == "-" else it for it in words] + ["--rule", SPREAD_RULE])
        tally.tell("a table", [] if by_path.status == 0 else [str(by_path)])
        tally.expect(f"{' '.join(words)}, with a table", run([*words, "--rule", SPREAD_RULE], input=spread), by_path)
    tally.expect("nothing", run(SHOW, input=b""), fault("bad pattern: rle header"))


def try_faulty_input(tally, files):
    """Standard input that can't be read or is too long."""
    commands = (["verify", "-"], SHOW, TO_RLE, TO_MC)
    for words in commands:
        tally.expect(f"closed, {' '.join(words)}", closed(words), fault("cannot read -"))
        descriptor = os.open(files.folder, os.O_RDONLY)
        tally.expect(f"a folder, {' '.join(words)}", run(words, stdin=descriptor), fault("cannot read -"))
        os.close(descriptor)
        with open("/dev/zero", "rb") as zeros:
            tally.expect(f"without end, {' '.join(words)}", run(words, stdin=zeros), fault("too long -"))
        with open(os.devnull, "wb") as unreadable:
            tally.expect(f"open for writing alone, {' '.join(words)}", run(words, stdin=unreadable), fault("cannot read -"))
    tally.expect("closed, and another text", closed(["verify", "-", "examples/block.claims"]),
                 Outcome(b"examples/block.claims: line 2: yes\n", b"cafile: -: cannot read -\n", 2))
    tally.expect("another text, and closed", closed(["verify", "examples/block.claims", "-"]),
                 Outcome(b"examples/block.claims: line 2: yes\n", b"cafile: -: cannot read -\n", 2))
    missing = files.path("missing")
    tally.expect("a rule file that isn't there", run([*SHOW, "--rule", missing], input=b""), fault(f"cannot read {missing}"))
    text = claims(b"still block\n#").ljust(MAX_FILE)
    tally.expect("67108864 bytes", run(["verify", "-"], input=text), lines_outcome([(2, "yes")]))
    tally.expect("67108865 bytes", run(["verify", "-"], input=text + b" "), fault("too long -"))


def try_input_in_pieces(tally):
    """Standard input that comes in pieces."""
    for words, pieces, wanted in (
        (["verify", "-"], ("load block examples/bl", "ock.rle\\nstill", " block"), lines_outcome([(2, "yes")])),
        (TO_MC, ("x = 3, y = 3\\nb", "o$2bo$3", "o!"), run(["convert", "examples/glider.rle", "--to", "mc"])),
    ):
        script = "; sleep 0.1; ".join(f"printf '{it}'" for it in pieces)
        with subprocess.Popen(["sh", "-c", script], stdout=subprocess.PIPE) as writer:
            tally.expect(f"{' '.join(words)}, in pieces", run(words, stdin=writer.stdout), wanted)


def try_other_paths(tally, files):
    """A rule file, a path in a claim text, and other spellings of `-` are paths as any."""
    rule = contents(os.path.join(ROOT, SPREAD_RULE))
    tally.expect("--rule", run(["show", "examples/tables/spread.rle", "--rule", "-"], input=rule), fault("cannot read -"))
    tally.expect("--rule, and a pattern", run(["show", "-", "--rule", "-"], input=b"x = 1, y = 1\no!"), fault("cannot read -"))
    text = files.path("dash.claims", b"load a -\nstill a\n")
    tally.expect("a path in a claim text", run(["verify", text], input=b"x = 2, y = 2\n2o$2o!"), lines_outcome([(2, "refused, no file")]))
    tally.expect("a path in a claim text on standard input", run(["verify", "-"], input=b"load a -\nstill a\n"), lines_outcome([(2, "refused, no file")]))
    text = files.path("dash_rule.claims", b"rule -\nload a examples/block.rle\nstill a\n")
    tally.expect("a rule line", run(["verify", text], input=rule), lines_outcome([(3, "refused, no file")]))
    for path in ("./-", "--", "- "):
        tally.expect(f"not standard input, {path!r}", run(["show", "--", path], input=b"x = 1, y = 1\no!"), fault(f"cannot read {path}"))
    files.path("-", claims(b"still block\n").replace(b"examples", os.path.join(ROOT, "examples").encode()))
    tally.expect("a file with this name", run(["verify", "./-"], cwd=files.folder), lines_outcome([(2, "yes")]))


def try_once(tally):
    """A pattern and a rule file that can be read once alone."""
    glider, spread, rule = (contents(os.path.join(ROOT, it)) for it in ("examples/glider.rle", SPREAD, SPREAD_RULE))
    told = b"claims 2\nload stdin /dev/stdin\nspaceship stdin 4 1 1\n"
    for words in ([], ["--explain"], ["--progress"], ["--limit", "4"], ["--after", "0"], ["--rules", "examples/rules"]):
        tally.expect(f"identify {' '.join(words)}, from a pipe", run(["identify", "/dev/stdin", *words], input=glider), ample(told))
    for words, path in ((["--rule", SPREAD_RULE], SPREAD_RULE), (["--rules", "examples/rules"], "examples/rules/Spread.rule")):
        got = run(["identify", "--limit", "1", "/dev/stdin", *words], input=spread)
        tally.expect(f"identify {' '.join(words)}, from a pipe", got, ample(f"claims 2\nrule {path}\nload stdin /dev/stdin\n# stdin: {GROWTH}\n".encode()))
    got = run(["identify", "--limit", "1", SPREAD, "--rule", "/dev/stdin"], input=rule)
    tally.expect("identify, a rule file from a pipe", got, ample(f"claims 2\nrule /dev/stdin\nload spread_1 {SPREAD}\n# spread_1: {GROWTH}\n".encode()))
    for words in (["show"], ["convert", "--to", "rle"], ["convert", "--to", "mc"], ["draw"], ["show", "--after", "3"], ["draw", "--after", "3", "--to", "pgm"]):
        tally.expect(f"{' '.join(words)}, from a pipe", run([*words, "/dev/stdin"], input=glider), run([*words, "examples/glider.rle"]))
        by_path = run([*words, SPREAD, "--rule", SPREAD_RULE])
        tally.expect(f"{' '.join(words)}, a table", by_path, ample(by_path.printed))
        tally.expect(f"{' '.join(words)}, with a rule file, from a pipe", run([*words, "/dev/stdin", "--rule", SPREAD_RULE], input=spread), by_path)
        tally.expect(f"{' '.join(words)}, a rule file from a pipe", run([*words, SPREAD, "--rule", "/dev/stdin"], input=rule), by_path)


def cut_items(length):
    """What `show` comes to of the RLE cut to this length."""
    if length == len(ITEMS):
        return figures(50, 17, "-1 2 16 2", "rle", "Wide")
    if length in (11, 12, 13, 14, 20):
        return fault("bad pattern: rle syntax")
    # the header without its rule, and with an empty one or more
    return fault(f"bad pattern: rle {'no end' if length == 35 or length >= 43 else 'header'}")


def told_of(faults, length):
    """What a table of faults tells of this length."""
    return next(told for most, told in faults if length <= most)


def cut_table(length):
    """What `show` comes to of a block and the rule file cut to this length."""
    told = told_of(TABLE_FAULTS, length)
    return fault(f"bad table: {told}") if told else figures(0, 4, "0 0 2 2", "rle")


def cut_claims(length):
    """What `verify` comes to of the claim text cut to this length."""
    told = told_of(CLAIM_FAULTS, length)
    return fault(f"claims line {told}: syntax") if isinstance(told, str) else lines_outcome(ANSWERS[:told])


def cut_deep(length):
    """What `show` comes to of the deep macrocell cut to this length."""
    if length < 4:
        return fault("bad pattern: rle header")
    *_, last = [b"", *DEEP[5:length].splitlines()]
    words = last.split()
    if len(words) not in (0, 1, 5) or last[:1].isdigit() and len(words) < 5:
        return fault("bad pattern: macrocell syntax")
    if not words or words[0] == b"120":
        return figures(0, 0, "none") if not words else figures(0, 1, "0 0 1 1") if words[4] == b"117" else fault("bad pattern: macrocell level")
    level = int(words[0]) if len(words) == 5 else 3
    return figures(0, 1, f"{-(1 << level - 1)} {-(1 << level - 1)} 1 1") if level <= 61 else fault("bad pattern: macrocell range")


def tell_cut(tally, files, name, text, words, wanted):
    """Tells what is wrong with runs over a text that is cut after each of its bytes."""
    complaints = []
    for length in range(len(text) + 1):
        path = files.path("cut", text[:length])
        got = run([path if it == "CUT" else it for it in words])
        if got != wanted(length):
            complaints.append(f"{length} bytes, {text[:length][-60:]!r}: wanted {wanted(length)}, got {got}")
    tally.tell(f"{name} cut after each of {len(text)} bytes", complaints)


def try_cut(tally, files):
    """Each file, cut after each of its bytes."""
    tell_cut(tally, files, "an RLE", ITEMS, ["show", "CUT", "--rule", files.path("wide.rule", WIDE)], cut_items)
    tell_cut(tally, files, "a rule file", CUT_TABLE, ["show", "examples/block.rle", "--rule", "CUT"], cut_table)
    tell_cut(tally, files, "a claim text", CUT_CLAIMS, ["verify", "CUT"], cut_claims)
    tell_cut(tally, files, "a macrocell of 120 levels", DEEP, ["show", "CUT"], cut_deep)


def try_shown(tally, files):
    """Numbers at their limits, as `show` tells them."""
    for text, wanted in SHOWN:
        tally.expect(f"show {text[-40:]!r}", run(["show", files.path("shown", text)]), wanted)


def give(descriptor, text, more, given):
    """Writes a text, and then more for ever, until nothing reads it: how many bytes were taken."""
    with os.fdopen(descriptor, "wb", buffering=0) as pipe:
        try:
            given.append(pipe.write(text))
            while True:
                given.append(pipe.write(more))
        except BrokenPipeError:
            pass


def expect_end(tally, words, begin, more, wanted):
    """A run whose standard input gives these bytes and no end comes to this, within seconds, and takes hardly more than a file may have."""
    reading, writing = os.pipe()
    given = []
    writer = threading.Thread(target=give, args=(writing, begin, more, given))
    writer.start()
    got, seconds = timed(words, stdin=reading, timeout=60)
    os.close(reading)
    writer.join()
    complaints = [] if got == wanted else [f"wanted: {wanted}", f"got:    {got}"]
    if not MAX_FILE < sum(given) <= MAX_FILE + MOST_BEYOND:
        complaints.append(f"it took {sum(given)} bytes")
    name = f"{' '.join(map(os.path.basename, words))}, {begin + more[:8]!r} without end"
    tally.tell(f"{name}: {seconds:.2f} s", complaints + excess(seconds, ENDLESS_WORK))


def try_endless(tally, files):
    """Pipes that give bytes for ever: as FILE, as a rule file, as a claim text, and as a file of one."""
    spaces, nothing = b" " * 65536, b""
    for path in ("-", "/dev/stdin"):
        for words in (["show", path], ["convert", path, "--to", "rle"], ["verify", path]):
            expect_end(tally, words, nothing, spaces, fault(f"too long {path}"))
    expect_end(tally, ["show", "examples/block.rle", "--rule", "/dev/stdin"], nothing, spaces, fault("too long /dev/stdin"))
    for begin, more in ((USUAL_HEADER.encode(), b"o" * 65536), (b"[M2]\n", b"*$\n" * 20000), (b"", b"0" * 65536)):
        expect_end(tally, ["show", "-"], begin, more, fault("too long -"))
    text = files.path("piped.claims", "load b examples/block.rle\nload p /dev/stdin\nstill b\nstill p\nbecomes b 1 b\n")
    expect_end(tally, ["verify", text], nothing, spaces, lines_outcome([(3, "yes"), (4, "refused, no file"), (5, "yes")]))
    text = files.path("ruled.claims", "rule /dev/stdin\nload b examples/block.rle\nstill b\n")
    expect_end(tally, ["verify", text], nothing, spaces, lines_outcome([(3, "refused, no file")]))


def main():
    tally = Tally()
    for it in (try_help, try_limits_in_help, try_words, try_texts_on_input, try_input_among_texts, try_patterns_on_input, try_once, try_input_in_pieces):
        it(tally)
    for it in (try_claim_texts, try_many_words, try_pipes, try_patterns, try_faulty_input, try_other_paths, try_cut, try_shown, try_endless):
        with tempfile.TemporaryDirectory() as folder:
            it(tally, Folder(folder))
    tally.finish()


if __name__ == "__main__":
    main()
