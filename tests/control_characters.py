#!/usr/bin/env -S python3 -B
"""Control characters of paths, names and rule texts: what the program says of its own has each of their bytes as `\\xNN`.

So no terminal obeys them. What a file holds is repeated as it is, in `show`, in `convert` and in the lines of a claim text.
"""
import os

from lib import remedies
from lib.claim_text import ClaimText, outcome
from lib.parts import try_all
from lib.program import Folder, Outcome, ample, fault, figures, run
from lib.refusing import refusing_program

BLOCK = "x = 2, y = 2, rule = B3/S23\n2o$2o!\n"
TABLE = "@RULE %s\n@TABLE\nn_states:3\nneighborhood:oneDimensional\nsymmetries:none\n"
WIPE = b"\r\x1b[K"

# Texts of UTF-8, and how they are written. U+0080 to U+009F are control characters, and other characters that have their bytes aren't.
SPELLED = (
    (b"\x1b[2J", b"\\x1b[2J"), (b"\x01\x02\x1f", b"\\x01\\x02\\x1f"), (b"\x7f", b"\\x7f"), (b"~ !", b"~ !"), (b"\x0a\x0d\x09\x0b", b"\\x0a\\x0d\\x09\\x0b"),
    (b"\xc2\x80", b"\\xc2\\x80"), (b"\xc2\x9f", b"\\xc2\\x9f"), (b"\xc2\x9b31m", b"\\xc2\\x9b31m"), (b"\xc2\xa0", b"\xc2\xa0"), (b"\xc3\x80", b"\xc3\x80"),
    (b"\xe3\x82\x80", b"\xe3\x82\x80"), (b"\xe2\x82\xac", b"\xe2\x82\xac"), (b"\xc2\x80\xc2\x80\x1b", b"\\xc2\\x80\\xc2\\x80\\x1b"), (b"\\x1b", b"\\x1b"),
    (b"\\", b"\\"),
    (b"a\x1bb\x1b", b"a\\x1bb\\x1b"), (b"\x1b" * 40 + b"a", b"\\x1b" * 40 + b"a"),
)

# Bytes that are no UTF-8, as names and rule texts may have: two bytes that would be a control character, and others that wouldn't.
ODD = (
    (b"\xc2", b"\xc2"), (b"\x80\x9f", b"\x80\x9f"), (b"\xc2\xc2\x80", b"\xc2\\xc2\\x80"), (b"\xe3\xc2\x80", b"\xe3\\xc2\\x80"),
    (b"\x00\xff\x00", b"\\x00\xff\\x00"), (b"\xc2\x1b", b"\xc2\\x1b"),
    (b"\xc2\x7f", b"\xc2\\x7f"), (b"\xc2\xa0\x1b", b"\xc2\xa0\\x1b"), (b"\xc2\x80\x80", b"\\xc2\\x80\x80"),
)

# Each byte that a name can have, before a letter, and how it is written. A rule text with a colon is another fault.
BYTES = tuple((b"%ca" % it, b"\\x%02xa" % it if it < 32 or it == 127 else b"%ca" % it) for it in range(256) if it not in b"\t\n\r :")


def is_word(text):
    """Whether a claim text can have this as a word."""
    return not any(it in text for it in b"\t\n\r ")


def try_paths(tally, files):
    """Paths of files that aren't there, as standard error tells them."""
    complaints = []
    for text, spelled in SPELLED:
        path, told = os.path.join(files.folder.encode(), text), os.path.join(files.folder.encode(), spelled)
        wanted = fault(b"cannot read " + told)
        runs = [(["show", path], wanted), (["draw", path], wanted), (["show", "examples/block.rle", "--rule", path], wanted), (["verify", path], wanted),
                (["verify", path, "tests/golden/verify/no_claims/claims"], fault(b"%s: cannot read %s" % (told, told)))]
        if not is_word(text):
            runs.append((["identify", "examples/block.rle", "--rules", path], fault(b"no claim text can name " + told)))
        lost, lost_told = (os.path.join(files.folder.encode(), b"lost", it) for it in (text, spelled))
        runs.append((["census", "examples/block.rle", "--into", lost], fault((b"cannot write " if is_word(text) else b"no claim text can name ") + lost_told)))
        for words, it in runs:
            got = run(words)
            if got != it:
                complaints.append(f"{words}: wanted {it}, got {got}")
    tally.tell("paths that can't be read", complaints)


def try_faults(tally, files):
    """Paths of files that are faulty, and rule texts."""
    complaints = []
    for text, spelled in SPELLED:
        path, told = files.path(text.decode(), b"x = 1, y = 1\nz!").encode(), os.path.join(files.folder.encode(), spelled)
        for words, it in ((["show", "--explain", path],
                           Outcome(b"", b"cafile: bad pattern: rle syntax\n  %s, line 2\n" % told + remedies.line("bad pattern: rle syntax", path), 2)),
                          (["show", "--explain", "examples/tables/spread.rle", "--rule", path],
                           Outcome(b"", b"cafile: bad table: line 1 no rule line\n  rule file: %s, line 1\n" % told, 2))):
            got = run(words)
            if got != it:
                complaints.append(f"{words}: wanted {it}, got {got}")
    for text, spelled in (*SPELLED, *ODD, *BYTES):
        if is_word(text):
            path = files.path("file", b"x = 1, y = 1, rule = %s\no!\n" % text)
            helps = remedies.line("bad rule: unknown", path.encode(), rule=text)
            got, wanted = run(["show", "--explain", path]), Outcome(b"", b"cafile: bad rule: unknown\n  %s: rule %s\n" % (path.encode(), spelled) + helps, 2)
            if got != wanted:
                complaints.append(f"the rule {text}: wanted {wanted}, got {got}")
    tally.tell("faults of files, and rule texts", complaints)


def try_claims(tally, files):
    """Names, paths and rule texts of claim texts, in what is explained, and the path of a text before its lines."""
    text = ClaimText(files)
    for at, (name, spelled) in enumerate((*ODD, *BYTES)):
        name, spelled = b"%d" % at + name, b"%d" % at + spelled
        text.load(name, BLOCK)
        text.claim(b"oscillator %s 2" % name, "no, the same after 1, shifted by 0,0")
        path = text.load(b"r" + name, b"x = 1, y = 1, rule = %s\no!\n" % name)
        text.claim(b"still r%s" % name, "refused, bad rule: unknown", b"r%s: %s: rule %s" % (spelled, path, spelled))
        text.load(b"d" + name, b"x = 1, y = 1\no!\n")
        text.claim(b"still d%s" % name, "no, cells differ after 1", b"d%s at 0,0: 0 after 1 generation, claimed 1" % spelled)
    for name, spelled in SPELLED:
        if is_word(name):
            text.load_path(b"p" + name, os.path.join(files.folder.encode(), b"lost" + name))
            text.claim(b"still p%s" % name, "refused, no file", b"p%s: %s: no such file" % (spelled, os.path.join(files.folder.encode(), b"lost" + spelled)))
    path = text.write()
    for words in (["verify", path], ["verify", "--explain", path]):
        tally.expect(f"names and rule texts, {len(words)} words", run(words), outcome(text.answers, "--explain" in words))
    one, other = files.path("\x1b[1m\u0085.claims", b"load block examples/block.rle\nload lost lost.rle\nstill block\nstill lost\n"), files.path("faulty\x7f", "x")
    told = os.path.join(files.folder, "\\x1b[1m\\xc2\\x85.claims").encode()
    printed = b"%s: line 3: yes\n%s: line 4: refused, no file\n%s:   lost: lost.rle: no such file\n" % (told, told, told)
    complaint = b"cafile: %s: claims line 1: syntax\n" % os.path.join(files.folder, "faulty\\x7f").encode()
    tally.expect("the path of a text", run(["verify", "--explain", one, other]), Outcome(printed, complaint, 2))
    text = ClaimText(files)
    text.load_path("block", "examples/block.rle")
    path = text.rule_path(files.path("\x1b[0mfaulty", "faulty"))
    text.claim("still block", "refused, bad table: no rule line", b"rule file: %s, line 1" % path.replace(b"\x1b", b"\\x1b"))
    tally.expect("the path of a rule file", run(["verify", "--explain", text.write()]), outcome(text.answers, True))


def try_folder(tally, files):
    """A faulty rule file that was found by its name."""
    os.mkdir(files.path("rules\x1b"))
    rule = files.path("rules\x1b/Odd\x7f.rule", "faulty").encode()
    pattern = files.path("odd.rle", b"x = 1, y = 1, rule = Odd\x7f\nA!\n")
    told = rule.replace(b"\x1b", b"\\x1b").replace(b"\x7f", b"\\x7f")
    text = ClaimText(files)
    text.load_path("a", pattern)
    text.claim("still a", "refused, bad rule: unknown", b"a: %s: rule Odd\\x7f: %s: line 1 no rule line" % (pattern.encode(), told))
    tally.expect("a rule file of a folder", run(["verify", "--explain", "--rules", files.path("rules\x1b"), text.write()]), outcome(text.answers, True))
    wanted = Outcome(b"", b"cafile: bad table: line 1 no rule line\n  rule file: %s, line 1\n" % told, 2)
    tally.expect("one of a folder, shown", run(["show", "--explain", pattern, "--rules", files.path("rules\x1b")]), wanted)


def try_contents(tally, files):
    """What a file holds is repeated as it is."""
    rule = files.path("a.rule", TABLE % "N\x1b[1m\u0085\x7f")
    pattern = files.path("a.rle", "x = 1, y = 1, rule = N\x1b[1m\u0085\x7f\nB!\n")
    name = "N\x1b[1m\u0085\x7f".encode()
    tally.expect("show repeats a rule's name", run(["show", pattern, "--rule", rule]), ample(b"format rle\nrule %s\ngen 0\ncells 1\nbox 0 0 1 1\n" % name))
    tally.expect("convert repeats a rule's name", run(["convert", pattern, "--rule", rule, "--to", "mc"]), ample(b"[M2] (cafile)\n#R %s\n1 0 0 0 2\n" % name))


def try_progress(tally, _):
    """The line of progress."""
    with refusing_program(tally, "progress") as (folder, refusing):
        if refusing is None:
            return
        files = Folder(folder)
        block = files.path("\x1b[5mblock\u009b", BLOCK)
        told = os.path.join(folder, "\\x1b[5mblock\\xc2\\x9b").encode()
        got, _ = refusing.run(["show", block, "--after", "1", "--progress"], {"CLOCK_STEP": 1000})
        shown = WIPE + told + b": 0 of 1 generation" + WIPE + told + b": 1 of 1 generation" + WIPE
        tally.expect("the progress of a run", got, Outcome(figures(1, 4, "0 0 2 2", "rle").printed, shown, 0))
        text = files.path("\x1b[5m.claims", "load block examples/block.rle\nstill block\n")
        before = os.path.join(folder, "\\x1b[5m.claims: line 2: ").encode()
        got, _ = refusing.run(["verify", "--progress", text, "tests/golden/verify/no_claims/claims"], {"CLOCK_STEP": 1000})
        shown = WIPE + before + b"0 of 1 generation" + WIPE + before + b"1 of 1 generation" + WIPE
        tally.expect("the progress of a claim", got, Outcome(before + b"yes\n", shown, 0))
        got, _ = refusing.run(["identify", "--progress", "--limit", "20", block], {"CLOCK_STEP": 1000})
        lines = [it for it in got.complaint.split(WIPE) if it]
        tally.tell("the progress of a file", [] if lines and all(it.startswith(told + b": ") for it in lines) else [str(got)])


if __name__ == "__main__":
    try_all(try_paths, try_faults, try_claims, try_folder, try_contents, try_progress)
