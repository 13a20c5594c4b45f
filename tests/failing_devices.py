#!/usr/bin/env -S python3 -B
"""Reads and writes that fail, at once or in mid-stream, or go on by a byte at a time (tests/refuse.c): all that comes of each is known.

- By a byte at a time, read or written, a run comes to what it does otherwise.
- Where the kth byte of standard output can't be written, the first k - 1 are there and no other, though later writes would go well: nothing is tried
  again. `cafile: write` is printed, and the status is 2. That a write takes no byte is a failure too.
- What is printed for a claim is one write: where the kth write fails, what was printed for the first k - 1 claims is there. So are the lines of `identify` on a
  file, its first line, and its `rule` lines.
- Where the kth byte of standard error can't be written, the status is the same, and so is all that comes before that line and after it.
- Where the kth byte of a file can't be read, that file is reported as one that can't be read, or refuses the claims that need it; the others are judged.
- Where the kth byte of the files of `census --into` can't be written, that file is told, those of the censuses before it are there whole, and no other. Where
  standard output can't be written, the files of the census whose text isn't whole are there, and those before it.
- Where standard output or standard error takes nothing at all, the fault is reported where it can be, the status says it in any case, and no verdict is lost in
  silence.
"""
import itertools
import os
import re
import shutil
import subprocess

from lib import golden, remedies
from lib.census_files import Object, Settled, contents_of
from lib.parts import try_each
from lib.program import MOST_WAITING, PROGRAM, ROOT, Outcome, Tally, ample, fault, run
from lib.refusing import refusing_program

RULE = "@RULE S\n@TABLE\nn_states:3\nneighborhood:oneDimensional\nsymmetries:none\n"
DOT, ROW = "x = 1, y = 1\no!", "x = 1, y = 1\n3o!"
MACROCELL = "[M2]\n*$\n4 0 0 0 1\n"

# The bytes of a usual read.
PIECE = 8192

# Of texts with fewer bytes each byte in turn can't be written, of the others some.
MOST_WHOLE = 3000

# Golden runs of `show`, `convert`, `draw`, `import` and `rule` that print or read some hundred bytes.
GOLDEN = ("show/full_square", "convert/gun_to_macrocell", "convert/gun_to_rle", "convert/full_square", "draw/full_square", "draw/pgm", "draw/window",
          "show/after",
          "convert/after", "import/plaintext", "import/to_macrocell")

# What the claim text prints, without notes and with them. Which of the two cells that differ the last note names is open; this is the program's choice.
PLAIN = b"line 3: no, cells differ after 1\nline 4: yes\nline 5: no, cells differ after 0\n"

EXPLAINED = (b"line 3: no, cells differ after 1\n  dot at 0,0: 0 after 1 generation, claimed 1\nline 4: yes\n"
             b"line 5: no, cells differ after 0\n  row at 1,0: 1 after 0 generations, claimed 0\n")

# What the dot, the row and the dot as macrocell are, and what is reported of a file that isn't identified, with the row.
IDENTIFIED = ("claims 2\nload dot {dot}\ndies dot 1\nload row {row}\noscillator row 2\nload dot-2 {macrocell}\ndies dot-2 1\n")

NOT_IDENTIFIED = "claims 2\n# z: {bad}: bad pattern: rle syntax, line 2\nload row {row}\noscillator row 2\n"

# The censuses of the same, with counts and with a list, and what is reported of a file of which there is none.
COUNTED = b"# dot: settles after 1 generation: 0 objects, 0 cells\n# row: settles after 0 generations: 1 object, 3 cells\n1 xp2_7\n" \
          b"# dot-2: settles after 1 generation: 0 objects, 0 cells\n"
LISTED = b"# row: settles after 0 generations: 1 object, 3 cells\nxp2_7 oscillator 2 at 0,0: 3 cells\n"
UNCOUNTED = b"# z: %s: bad pattern: rle syntax, line 2\n"

# What comes of the dot and of the cell under a table.
SHOWN, SHOWN_MACROCELL, SHOWN_TABLE = (
    ample(b"format %s\nrule %s\ngen 0\ncells 1\nbox 0 0 1 1\n" % it) for it in ((b"rle", b"B3/S23"), (b"macrocell", b"B3/S23"), (b"rle", b"S")))

AS_MACROCELL, AS_RLE = ample(b"[M2] (cafile)\n#R B3/S23\n*$$$$$$$$\n4 0 0 0 1\n"), ample(b"#CXRLE Pos=0,0\nx = 1, y = 1, rule = B3/S23\no!\n")
TABLE_AS_MACROCELL = ample(b"[M2] (cafile)\n#R S\n1 0 0 0 2\n")
DRAWN_TABLE = ample(b"B\n")
VERIFY = ["verify", "examples/block.claims"]
SHOW = ["show", "examples/macrocell/glider.mc"]
CONVERT = ["convert", "examples/glider.rle", "--to", "mc"]
BACK = ["convert", "examples/macrocell/gun.mc", "--to", "rle"]
IDENTIFY = ["identify", "examples/glider.rle", "examples/lost.rle"]
CENSUS = ["census", "examples/glider.rle", "examples/lost.rle"]
DRAW = ["draw", "examples/glider.rle"]
IMAGE = ["draw", "examples/macrocell/full_square.mc", "--to", "pgm"]
FAILED_WRITE = fault("write")


def claim_text(files):
    """A claim text about two patterns, its path and its files' paths."""
    dot, row = files.path("dot.rle", DOT), files.path("row.rle", ROW)
    text = f"load dot {dot}\nload row {row}\nstill dot\noscillator row 2\nbecomes row 0 dot\n"
    return files.path("text.claims", text), (dot, row)


def after_path(path, lines):
    """These lines, each with the path of its text before it, as where several are named."""
    return b"".join(path.encode() + b": " + line for line in lines.splitlines(keepends=True))


def printing_runs(files):
    """The words of runs of each kind that print something, each with what comes of it. Of the version and the help the text is the program's own."""
    text, (dot, row) = claim_text(files)
    lost = files.path("lost.claims", "load lost nowhere.rle\nstill lost\n")
    rule, state = files.path("s.rule", RULE), files.path("state.rle", "x = 1, y = 1, rule = S\nB!")
    macrocell = files.path("dot.mc", MACROCELL)
    files.path("S.rule", RULE)
    unknown = files.path("unknown.rle", "x = 1, y = 1, rule = Z\nB!")
    faulty = files.path("Z.rule", "faulty")
    named = files.path("named.claims", f"load s {state}\nload z {unknown}\nstill s\nstill z\n")
    found = f"line 3: yes\nline 4: refused, bad rule: unknown\n  z: {unknown}: rule Z: {faulty}: line 1 no rule line\n".encode()
    z = files.path("z.rle", "x = 1, y = 1\nz!").encode()
    both = after_path(text, EXPLAINED) + after_path(lost, b"line 2: refused, no file\n  lost: nowhere.rle: no such file\n")
    return (
        (["verify", text], Outcome(PLAIN, b"", 1)), (["verify", "--explain", text], Outcome(EXPLAINED, b"", 1)),
        (["verify", "--explain", text, lost], Outcome(both, b"", 2)), (["verify", "--explain", "--rules", files.folder, named], Outcome(found, b"", 2)),
        (["show", dot], SHOWN), (["show", macrocell], SHOWN_MACROCELL),
        (["identify", dot, row, macrocell], ample(IDENTIFIED.format(dot=dot, row=row, macrocell=macrocell).encode())),
        (["identify", "--explain", files.path("z.rle"), row],
         Outcome(NOT_IDENTIFIED.format(bad=files.path("z.rle"), row=row).encode(),
                 f"  {files.path('z.rle')}, line 2\n".encode() + remedies.line("bad pattern: rle syntax", b""), 2)),
        (["census", dot, row, macrocell], ample(COUNTED)), (["census", "--list", files.path("z.rle"), row], Outcome(UNCOUNTED % z + LISTED, b"", 2)),
        (["show", dot, "--after", "0"], SHOWN), (["convert", dot, "--to", "mc", "--after", "0"], AS_MACROCELL),
        (["show", state, "--rule", rule], SHOWN_TABLE), (["show", state, "--rules", files.folder], SHOWN_TABLE),
        (["draw", state, "--rule", rule], DRAWN_TABLE), (["draw", state, "--rules", files.folder], DRAWN_TABLE), (["convert", dot, "--to", "mc"], AS_MACROCELL),
        (["convert", macrocell, "--to", "rle"], AS_RLE),
        *((golden.words(case), golden.outcome(case)) for case in (*GOLDEN, "rule/all_survive")),
        *((words, ample(run(words).printed)) for words in (["--version"], ["verify", "--help"])),
    )


def complaining_runs(files):
    """The words of runs that complain of something, each with what comes of it. Of words that the program doesn't know the complaint is its library's."""
    text, _ = claim_text(files)
    bad, worse = files.path("bad.claims", "gun\n"), files.path("worse.claims", "still a\n")
    rule, z = files.path("r.rule", "@RULE R\n@TABLE\nn_states:1\n"), files.path("z.rle", "x = 1, y = 1\nz!")
    noted = {"bad pattern: rle syntax": f"{z}, line 2", "bad table: line 3 states": f"rule file: {rule}, line 3"}
    noted = {told: Outcome(b"", f"cafile: {told}\n  {note}\n".encode() + remedies.line(told, b""), 2) for told, note in noted.items()}
    several = f"cafile: {bad}: claims line 1: syntax\ncafile: {worse}: claims line 1: unknown name\n"
    return (
        (["show", "nowhere", "--after", "1"], fault("cannot read nowhere")), (["show", text, "--after", "1"], fault("bad pattern: rle header")),
        (["show", "nowhere"], fault("cannot read nowhere")), (["draw", "nowhere"], fault("cannot read nowhere")),
        (["convert", z, "--to", "mc"], fault("bad pattern: rle syntax")),
        (["show", z, "--rule", rule], fault("bad table: line 3 states")), (["show", "--explain", z], noted["bad pattern: rle syntax"]),
        (["convert", z, "--to", "mc", "--explain", "--rule", rule], noted["bad table: line 3 states"]), (["verify", bad], fault("claims line 1: syntax")),
        (["verify", bad, text, worse], Outcome(after_path(text, PLAIN), several.encode(), 2)),
        *((words, Outcome(b"", run(words).complaint, 2)) for words in (["verfy"], ["verify"])),
    )


def named(words):
    """What a run is called, without its folder."""
    return " ".join(os.path.basename(word) for word in words)


def try_bytes(tally, refusing, files):
    """Each run as it is, and with reads and writes of a byte at a time."""
    for words, wanted in (*printing_runs(files), *complaining_runs(files)):
        tally.expect(named(words), run(words), wanted)
        for faults in ({"READ_MOST": 1}, {"READ_MOST": 7}, {"WRITE_MOST": 1}, {"WRITE_MOST": 5, "READ_MOST": 3}, {"WRITE_MOST": 1, "WRITE_TO": 2}):
            got, _ = refusing.run(words, faults)
            tally.expect(f"{named(words)}, {faults}", got, wanted)


def try_output(tally, refusing, files):
    """Each byte of standard output in turn can't be written."""
    for words, outcome in printing_runs(files):
        wanted, whole = outcome.printed, len(outcome.printed)
        numbers = range(1, whole + 2) if whole < MOST_WHOLE else [*range(1, 20), *range(20, whole, whole // 20), whole, whole + 1]
        for name in ("WRITE_FAILS", "WRITE_TAKES_NONE"):
            complaints = [] if whole else ["nothing was printed"]
            for number in numbers:
                got, is_met = refusing.run(words, {name: number, "WRITE_MOST": 1})
                if is_met != (number <= whole):
                    complaints.append(f"byte {number} of {whole}: met: {is_met}")
                elif got != (Outcome(wanted[:number - 1], b"cafile: write\n", 2) if is_met else outcome):
                    complaints.append(f"byte {number} of {whole}: {got}")
            tally.tell(f"{named(words)}, {name}: {whole} bytes", complaints)


def try_claims(tally, refusing, files):
    """Each write of all that is printed for a claim in turn fails, or for a file that is identified."""
    text, (dot, row) = claim_text(files)
    bad, rule = files.path("z.rle", "x = 1, y = 1\nz!"), files.path("s.rule", RULE)
    found = f"claims 2\nrule {rule}\nload dot {dot}\ndies dot 1\n# z: {bad}: bad pattern: rle syntax, line 2\nload row {row}\noscillator row 2\n".encode()
    head, row_counts, dot_counts = re.split(rb"(?m)^(?=#)", COUNTED)[1:]
    counted = head + row_counts + UNCOUNTED % bad.encode() + dot_counts
    for words, printed, one in ((["verify", text], PLAIN, rb"line .*\n(?:  .*\n)?"), (["verify", "--explain", text], EXPLAINED, rb"line .*\n(?:  .*\n)?"),
                                (["identify", "--rule", rule, dot, bad, row], found, rb"load .*\n.*\n|.*\n"),
                                (["census", dot, row, bad, files.path("dot.mc", MACROCELL)], counted, rb"#.*\n(?:\d.*\n)*")):
        each = re.findall(one, printed)
        wanted = {number: Outcome(b"".join(each[:number - 1]), b"cafile: write\n", 2) for number in range(1, len(each) + 1)}
        got = refusing.until_unmet(words, "WRITE_FAILS", range(1, 100))
        tally.tell(f"{named(words)}: {len(each)} writes", [] if got == wanted else [f"wanted: {wanted}", f"got:    {got}"])


def try_errors(tally, refusing, files):
    """Each byte of standard error in turn can't be written: the other lines and the status are the same. The library's lines are written as one, and so is an
    explanation with what helps."""
    for words, whole in complaining_runs(files):
        complaints, at = [] if whole.complaint else ["there was no complaint"], 0
        for line in re.findall(rb".*\n(?:  try: .*\n)?", whole.complaint) if whole.complaint.startswith(b"cafile: ") else [whole.complaint]:
            for number in range(1, len(line) + 1):
                got, is_met = refusing.run(words, {"WRITE_FAILS": at + number, "WRITE_MOST": 1, "WRITE_TO": 2})
                told = whole.complaint[:at + number - 1] + whole.complaint[at + len(line):]
                if not is_met or got != Outcome(whole.printed, told, whole.status):
                    complaints.append(f"byte {at + number}, met: {is_met}: {got}, wanted {told!r}")
            at += len(line)
        tally.tell(f"standard error, {named(words)}: {at} bytes", complaints)


def expect_reads(tally, refusing, words, whole, wanted, **how):
    """Each byte in turn, and then each end of a file, can't be read: `wanted` has for each file the number of its bytes and what comes of that, and `whole`
    is what comes of the run where all is read."""
    complaints, at = [], 0
    for size, outcome in wanted:
        for number in range(at + 1, at + size + 2):
            got, is_met = refusing.run(words, {"READ_FAILS": number, "READ_MOST": 1}, **how)
            if not is_met or got != outcome:
                complaints.append(f"read {number}, met: {is_met}: {got}, wanted {outcome}")
        at += size + 1
    got, is_met = refusing.run(words, {"READ_FAILS": at + 1, "READ_MOST": 1}, **how)
    if is_met or got != whole:
        complaints.append(f"after {at} reads, met: {is_met}: {got}, wanted {whole}")
    tally.tell(f"reads, {named(words)}: {at}", complaints)


def refused(printed, lines):
    """The outcome of a run that prints this, but for its claims on these lines, which are refused for a file that isn't there."""
    got = printed.splitlines()
    for line in lines:
        got = [b"line %d: refused, no file" % line if it.startswith(b"line %d:" % line) else it for it in got]
    return Outcome(b"".join(it + b"\n" for it in got), b"", 2)


def try_reads(tally, refusing, files):
    """Each byte of each file in turn can't be read."""
    text, (dot, row) = claim_text(files)
    size = os.path.getsize(text)
    expect_reads(tally, refusing, ["verify", text], Outcome(PLAIN, b"", 1), (
        (size, fault(f"cannot read {text}")), (len(DOT), refused(PLAIN, (3, 5))), (len(ROW), refused(PLAIN, (4, 5)))))
    no_dot = b"line 3: refused, no file\n  dot: %s: it can't be read\nline 4: yes\nline 5: refused, no file\n  dot: %s: it can't be read\n" % (dot.encode(), dot.encode())
    no_row = b"line 4: refused, no file\n  row: %s: it can't be read\nline 5: refused, no file\n  row: %s: it can't be read\n" % (row.encode(), row.encode())
    before = EXPLAINED.partition(b"line 4")[0]
    expect_reads(tally, refusing, ["verify", "--explain", text], Outcome(EXPLAINED, b"", 1), (
        (size, fault(f"cannot read {text}")), (len(DOT), Outcome(no_dot, b"", 2)), (len(ROW), Outcome(before + no_row, b"", 2))))
    rule, state = files.path("s.rule", RULE), files.path("state.rle", "x = 1, y = 1, rule = S\nB!")
    for words, whole in ((["show", state, "--rule", rule], SHOWN_TABLE), (["draw", state, "--rule", rule], DRAWN_TABLE),
                         (["convert", state, "--rule", rule, "--to", "mc"], TABLE_AS_MACROCELL)):
        expect_reads(tally, refusing, words, whole, ((len(RULE), fault(f"cannot read {rule}")), (os.path.getsize(state), fault(f"cannot read {state}"))))
    files.path("S.rule", RULE)
    for words, whole in ((["show", state, "--rules", files.folder], SHOWN_TABLE), (["draw", state, "--rules", files.folder], DRAWN_TABLE),
                         (["convert", state, "--rules", files.folder, "--to", "mc"], TABLE_AS_MACROCELL)):
        expect_reads(tally, refusing, words, whole, ((os.path.getsize(state), fault(f"cannot read {state}")), (len(RULE), fault("bad rule: unknown"))))
    named = f"load s {state}\nstill s\n"
    words = ["verify", "--rules", files.folder, files.path("named.claims", named)]
    expect_reads(tally, refusing, words, ample(b"line 2: yes\n"), (
        (len(named), fault(f"cannot read {words[-1]}")), (os.path.getsize(state), Outcome(b"line 2: refused, no file\n", b"", 2)),
        (len(RULE), Outcome(b"line 2: refused, bad rule: unknown\n", b"", 2))))
    first, second, _ = re.split(rb"(?m)^(?=#)", COUNTED)[1:]
    no_dot, no_row = b"# dot: %s: no file\n" % dot.encode(), b"# row: %s: no file\n" % row.encode()
    expect_reads(tally, refusing, ["census", dot, row], ample(first + second),
                 ((len(DOT), Outcome(no_dot + second, b"", 2)), (len(ROW), Outcome(first + no_row, b"", 2))))
    still = b"# state: settles after 0 generations: 1 object, 1 cell\n1 still life of 1 cell\n"
    expect_reads(tally, refusing, ["census", state, "--rule", rule], ample(still),
                 ((len(RULE), fault(f"cannot read {rule}")), (os.path.getsize(state), Outcome(b"# state: %s: no file\n" % state.encode(), b"", 2))))
    macrocell = files.path("dot.mc", MACROCELL)
    for words, whole in ((["show", macrocell], SHOWN_MACROCELL), (["convert", macrocell, "--to", "rle"], AS_RLE), (["show", dot], SHOWN)):
        expect_reads(tally, refusing, words, whole, ((os.path.getsize(words[1]), fault(f"cannot read {words[1]}")),))
    for case in GOLDEN:
        words = golden.words(case)
        expect_reads(tally, refusing, words, golden.outcome(case), ((os.path.getsize(os.path.join(ROOT, words[1])), fault(f"cannot read {words[1]}")),))


def try_several(tally, refusing, files):
    """A text that can't be read to its end is reported, and the others are judged; so with a rule file, and with standard input."""
    dot, rule = files.path("dot.rle", DOT), files.path("s.rule", RULE)
    one, other = f"load dot {dot}\nstill dot\n", f"rule {rule}\nload dot {dot}\nbecomes dot 0 dot\n"
    first, second = files.path("one.claims", one), files.path("other.claims", other)
    no, yes = f"{first}: line 2: no, cells differ after 1\n", f"{second}: line 3: yes\n"
    gone = ": refused, no file\n"
    expect_reads(tally, refusing, ["verify", first, second], Outcome((no + yes).encode(), b"", 1), (
        (len(one), Outcome(yes.encode(), f"cafile: {first}: cannot read {first}\n".encode(), 2)),
        (len(DOT), Outcome(f"{first}: line 2{gone}{yes}".encode(), b"", 2)),
        (len(other), Outcome(no.encode(), f"cafile: {second}: cannot read {second}\n".encode(), 2)),
        (len(RULE), Outcome(f"{no}{second}: line 3{gone}".encode(), b"", 2)), (len(DOT), Outcome(f"{no}{second}: line 3{gone}".encode(), b"", 2))))
    expect_reads(tally, refusing, ["show", "-"], SHOWN, ((len(DOT), fault("cannot read -")),), input=DOT.encode())
    expect_reads(tally, refusing, ["verify", "-"], Outcome(b"line 2: no, cells differ after 1\n", b"", 1), (
        (len(one), fault("cannot read -")), (len(DOT), Outcome(f"line 2{gone}".encode(), b"", 2))), input=one.encode())


def try_long(tally, refusing, files):
    """Files and outputs of several pieces."""
    comment = "#C " + "c" * (3 * PIECE) + "\n"
    path = files.path("long.rle", comment + DOT)
    for words, wanted in ((["show", path], SHOWN), (["convert", path, "--to", "mc"], AS_MACROCELL)):
        for most in (PIECE - 1, 4096, 1000):
            got, _ = refusing.run(words, {"READ_MOST": most})
            tally.expect(f"{words[0]} a long file by {most} bytes", got, wanted)
        outcomes = refusing.until_unmet(words, "READ_FAILS", range(1, 100))
        tally.tell(f"{words[0]} a long file, {len(outcomes)} reads",
                   [f"read {number}: {it}" for number,
                    it in outcomes.items() if it != fault(f"cannot read {path}")] or ([] if len(outcomes) > 1 else ["wanted some"]))
    text = files.path("many.claims", "load block examples/block.rle\n" + "still block\n" * 3000)
    printed = b"".join(b"line %d: yes\n" % line for line in range(2, 3002))
    got, _ = refusing.run(["verify", text], {"WRITE_MOST": 3})
    tally.expect("3000 lines by three bytes", got, ample(printed))
    for byte in (10, 20000, len(printed)):
        got, is_met = refusing.run(["verify", text], {"WRITE_FAILS": byte, "WRITE_MOST": 1})
        tally.tell(f"3000 lines, byte {byte}", [] if is_met and got == Outcome(printed[:byte - 1], b"cafile: write\n", 2) else [str(got)])


def written_to(refusing, words, folder):
    """The descriptor by which a run writes the files of its folder `into`."""
    for descriptor in range(3, 20):
        shutil.rmtree(os.path.join(folder, "into"), ignore_errors=True)
        if descriptor != refusing.told and refusing.run(words, {"WRITE_TO": descriptor, "WRITE_FAILS": 1}, cwd=folder)[1]:
            return descriptor
    return None


def try_files(tally, refusing, files):
    """Each byte in turn of the files that censuses write can't be written, or of standard output; and they are written by a byte at a time."""
    files.path("dot.rle", DOT)
    files.path("row.rle", ROW)
    each = [Settled("dot.rle", "dot", [], 1), Settled("row.rle", "row", [Object({(x, 0): 1 for x in range(3)}, "oscillator", " 2", "xp2_7")])]
    words, into = ["census", *(it.path for it in each), "--into", "into"], files.path("into")
    texts, written = [it.counts() for it in each], [it.files("into") for it in each]
    descriptor, whole = written_to(refusing, words, files.folder), {**written[0], **written[1]}

    def judged(name, faults, numbers, wanted):
        complaints = []
        for number in itertools.chain(numbers, [0]):
            shutil.rmtree(into, ignore_errors=True)
            got, is_met = refusing.run(words, {name: number, "WRITE_MOST": 1, **faults}, cwd=files.folder)
            outcome, there = wanted(number) if number else (ample(b"".join(texts)), whole)
            if is_met != bool(number) or (got, contents_of(into)) != (outcome, there):
                complaints.append(f"byte {number}, met: {is_met}: {got}, with {contents_of(into)}; wanted {outcome} with {there}")
        tally.tell(f"{named(words)}, {name}, {'files' if faults else 'standard output'}", complaints)

    # to which census and file each byte belongs
    places = [(at, name) for at, its in enumerate(written) for name, content in its.items() for _ in content]
    printed = [at for at, text in enumerate(texts) for _ in text]

    def without_file(number):
        at, name = places[number - 1]
        return Outcome(texts[0] * at, fault(f"cannot write into/{name}").complaint, 2), written[0] if at else {}

    def without_output(number):
        return Outcome(b"".join(texts)[:number - 1], b"cafile: write\n", 2), whole if printed[number - 1] else written[0]
    for name, step in (("WRITE_FAILS", 1), ("WRITE_TAKES_NONE", 7)):
        judged(name, {"WRITE_TO": descriptor or 0}, range(1, len(places) + 1, step), without_file)
        judged(name, {}, range(1, len(printed) + 1, step), without_output)


def without(descriptor, words):
    """The outcome of a run that is started with this descriptor closed."""
    script = f'exec "$0" "$@" {descriptor}>&-'
    ran = subprocess.run(["sh", "-c", script, PROGRAM, *words], stdin=subprocess.DEVNULL, stdout=subprocess.PIPE, stderr=subprocess.PIPE, cwd=ROOT,
                         timeout=MOST_WAITING, check=False)
    return Outcome(ran.stdout, ran.stderr, ran.returncode)


def try_no_output(tally, _):
    """Standard output or standard error takes nothing at all."""
    with open("/dev/full", "wb") as full, open(os.devnull, "rb") as unwritable:
        for words in (VERIFY, ["verify", "examples/several.claims"], SHOW, CONVERT, BACK, IDENTIFY, CENSUS, DRAW, IMAGE, ["--help"], ["--version"]):
            name = " ".join(words)
            tally.expect(f"a full standard output, {name}", run(words, stdout=full), FAILED_WRITE)
            tally.expect(f"a closed standard output, {name}", without(1, words), FAILED_WRITE)
            tally.expect(f"a standard output that is open for reading alone, {name}", run(words, stdout=unwritable), FAILED_WRITE)
        tally.expect("a full standard output, and a text that has a fault", run(["verify", "tests/golden/verify/syntax/claims"], stdout=full),
                     fault("claims line 2: syntax"))
        tally.expect("a full standard output, and a pattern that has a fault", run(["show", "tests/files/bad/syntax.mc"], stdout=full),
                     fault("bad pattern: macrocell syntax"))
        tally.expect("a full standard output, and no window", run(["draw", "examples/macrocell/full_square.mc", "--scale", "0"], stdout=full),
                     fault("window too large"))
        for name in ("no_claims", "nothing"):
            tally.expect(f"a full standard output, and no claims, {name}", run(golden.words(f"verify/{name}"), stdout=full), Outcome(b"", b"", 0))
        for words in (["verify", "tests/golden/verify/syntax/claims"], ["verify", "examples/lost"], ["verify"], ["show", "examples/lost"], ["show"],
                      ["identify"], ["census"], ["census", "--rule", "examples/lost", "examples/block.rle"],
                      ["identify", "--rule", "examples/lost", "examples/block.rle"]):
            tally.expect(f"a full standard error, {' '.join(words)}", run(words, stderr=full), Outcome(b"", b"", 2))
            tally.expect(f"a closed standard error, {' '.join(words)}", without(2, words), Outcome(b"", b"", 2))
        tally.expect("a full standard output and a full standard error", run(VERIFY, stdout=full, stderr=full), Outcome(b"", b"", 2))
        reading, writing = os.pipe()
        os.close(reading)
        with os.fdopen(writing, "wb") as pipe:
            for words in (VERIFY, SHOW, CONVERT, IDENTIFY, CENSUS, DRAW):
                tally.expect(f"a pipe that nothing reads, {words[0]}", run(words, stdout=pipe), FAILED_WRITE)


def main():
    tally = Tally()
    with refusing_program(tally, "failing devices") as (_, refusing):
        parts = (try_bytes, try_output, try_claims, try_errors, try_reads, try_several, try_long, try_files)
        try_each(tally, parts if refusing else (), refusing)
    try_each(tally, (try_no_output,))
    tally.finish()


if __name__ == "__main__":
    main()
