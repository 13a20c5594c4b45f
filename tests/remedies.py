#!/usr/bin/env -S python3 -B
"""What helps where a run is refused: the last line of `--explain`, and the hint on a terminal that there is more to tell.

- Files with the usual mistakes, and what docs/COMMANDS.md says of each under 'What to do': its fault, that its remedy helps, and that `--explain` ends with it.
- A claim text that is a pattern file is distinguished from others.
- On a terminal a run ends with a line that says where `--explain` says more. Elsewhere standard error stays as it is.
"""
import gzip
import os
import re
import subprocess

from lib import remedies
from lib.parts import try_all
from lib.program import PROGRAM, Outcome, escaped, fault, file_word, lines_outcome, run
from lib.terminal import on_terminal

GOOD = b"x = 3, y = 3, rule = B3/S23\nbo$2bo$3o!\n"

# the file, what `show` complains of, and the file after its remedy, where there is one
MISTAKES = {
    "byte order mark": (b"\xef\xbb\xbf" + GOOD, "bad pattern: rle header", GOOD),
    "gzip": (gzip.compress(GOOD), "bad pattern: rle header", GOOD),
    "gzip of a macrocell": (gzip.compress(b"[M2]\n4 0 0 0 0\n"), "bad pattern: rle header", b"[M2]\n4 0 0 0 0\n"),
    "plaintext": (b"!Name: Glider\n.O.\n..O\nOOO\n", "bad pattern: rle header", b"#CXRLE Pos=0,0\n" + GOOD),
    "Life 1.05": (b"#Life 1.05\n#P -1 -1\n.*.\n..*\n***\n", "bad pattern: rle header", b"#CXRLE Pos=-1,-1\n" + GOOD),
    "Life 1.06": (b"#Life 1.06\n0 -1\n1 0\n", "bad pattern: rle header", b"#CXRLE Pos=0,-1\nx = 2, y = 2, rule = B3/S23\no$bo!\n"),
    "no commas": (b"x = 3 y = 3 rule = B3/S23\nbo$2bo$3o!\n", "bad pattern: rle header", GOOD),
    "CR alone": (GOOD.replace(b"\n", b"\r"), "bad pattern: rle no end", GOOD),
    "CR alone after a comment": (b"#N Glider\r" + GOOD.replace(b"\n", b"\r"), "bad pattern: rle header", b"#N Glider\n" + GOOD),
    "cut off": (GOOD[:-3], "bad pattern: rle no end", GOOD),
    "another letter": (GOOD.replace(b"3o", b"3z"), "bad pattern: rle syntax", GOOD),
    "a rule line of XLife": (b"#r 23/3\nx = 3, y = 3\nbo$2bo$3o!\n", "bad pattern: rle xlife rule", GOOD),
    "a capital O": (GOOD.replace(b"o", b"O"), "state too large", GOOD),
    "a rule's name": (GOOD.replace(b"B3/S23", b"Life"), "bad rule: unknown", GOOD),
    "LifeHistory": (GOOD.replace(b"B3/S23", b"LifeHistory"), "bad rule: unknown", None),
    "a comma after the rule": (GOOD.replace(b"B3/S23", b"B3/S23, more"), "bad rule: unknown", GOOD),
    "a rule of another kind": (GOOD.replace(b"B3/S23", b"B2-a/S12"), "bad rule: unknown", None),
    "a Generations rule over four neighbours": (GOOD.replace(b"B3/S23", b"2/3/4V"), "bad rule: unknown", None),
    "a grid": (GOOD.replace(b"B3/S23", b"B3/S23:T30,20"), "bad rule: bounded", None),
    "a timeline": (b"[M2]\n#FRAMES 2 0 1\n", "bad pattern: macrocell timeline", None),
}

# What the last line of an explained run says of some of these, word for word; None where there is no such line.
WORDS = {
    "byte order mark": rb"sed '1s/^\xef\xbb\xbf//' FILE", "gzip": b"gunzip -c FILE", "gzip of a macrocell": b"gunzip -c FILE",
    "plaintext": b"cafile import FILE",
    "Life 1.05": b"cafile import FILE", "Life 1.06": b"cafile import FILE",
    "no commas": b"write the header as x = 3, y = 3, rule = B3/S23",
    "CR alone": rb"tr '\r' '\n' < FILE", "CR alone after a comment": rb"tr '\r' '\n' < FILE", "cut off": b"get the file again, or put ! at its end",
    "another letter": b"look for bytes other than b o . $ !, A to X, p to y and digits", "a rule line of XLife": b"write the rule into the header",
    "a capital O": b"write o for a live cell, or name the right rule", "a rule's name": b"name the folder of Life.rule by --rules",
    "LifeHistory": b"name the folder of LifeHistory.rule by --rules",
    "a comma after the rule": b"take away what follows the rule", "a rule of another kind": None, "a Generations rule over four neighbours": None,
    "a grid": None,
    "a timeline": b"open it in Golly and save one of its planes",
}

# Files that seem to be what another one is, with their faults and what helps.
SEEMING = {
    "gzip's first byte": (b"\x1f" + GOOD, "rle header", b"write the header as x = 3, y = 3, rule = B3/S23"),
    "gzip's first bytes alone": (b"\x1f\x8b", "rle header", b"gunzip -c FILE"),
    "gzip's first bytes after another": (b"x\x1f\x8b", "rle header", b"write the header as x = 3, y = 3, rule = B3/S23"),
    "packed, and with a `!` in it": (b"\x1f\x8b!\r", "rle header", b"gunzip -c FILE"),
    "two bytes of a byte order mark": (b"\xef\xbb" + GOOD, "rle header", b"write the header as x = 3, y = 3, rule = B3/S23"),
    "a byte order mark, and CR": (b"\xef\xbb\xbf" + GOOD.replace(b"\n", b"\r"), "rle header", rb"sed '1s/^\xef\xbb\xbf//' FILE"),
    "`!` behind a blank": (b" !Name\n.O\n", "rle header", b"write the header as x = 3, y = 3, rule = B3/S23"),
    "Life of another version": (b"#Life 2\n.*\n", "rle header", b"write the header as x = 3, y = 3, rule = B3/S23"),
    "a comment on life": (b"#life 1.05\n.*\n", "rle header", b"write the header as x = 3, y = 3, rule = B3/S23"),
    "CR and LF": (GOOD[:-2].replace(b"\n", b"\r\n"), "rle no end", b"get the file again, or put ! at its end"),
    "CR and one LF": (GOOD[:-2].replace(b"\n", b"\r") + b"\n", "rle no end", b"get the file again, or put ! at its end"),
    "an end alone": (b"!", "rle header", b"cafile import FILE"),
    "nothing": (b"", "rle header", b"write the header as x = 3, y = 3, rule = B3/S23"),
    "a byte order mark before a faulty item": (GOOD.replace(b"3o", b"\xef\xbb\xbf3o"), "rle syntax",
                                               b"look for bytes other than b o . $ !, A to X, p to y and digits"),
    "a state above 255": (GOOD.replace(b"3o", b"yX"), "rle bad state", None), "a faulty node": (b"[M2]\nz\n", "macrocell syntax", None),
}

# Rule texts that name no rule, and what helps.
RULES = {
    b"life": b"name the folder of life.rule by --rules", b"B3/S23,": b"take away what follows the rule", b"B3/S23,more": b"take away what follows the rule",
    b"Life,": b"name the folder of Life,.rule by --rules",
    b"B3/S23more": None, b"R5,C0,M1,S34..58,B34..45,NM": None, b"a/b": None, b"..": None, b"a\0b": None,
    b"\x1b[2J": rb"name the folder of \x1b[2J.rule by --rules", b"\xff": b"name the folder of \xff.rule by --rules",
}

MORE = b"cafile: --explain says more\n"

# Texts that are no claim texts, the line of their fault, and whether they seem to be a pattern.
CLAIM_TEXTS = {
    "an RLE": (GOOD, 1, True), "an RLE without blanks": (b"x=3,y=3\nbo$2bo$3o!\n", 1, True), "one with a comment": (b"#C a glider\n" + GOOD, 2, True),
    "one with its place": (b"#CXRLE Pos=0,0 Gen=3\n" + GOOD, 2, True), "one with its name": (b"#N Glider\n#O Richard K. Guy\n" + GOOD, 3, True),
    "one of an author": (b"#O Richard K. Guy\n" + GOOD, 2, True),
    "a macrocell": (b"[M2] (golly 4.2)\n#R B3/S23\n", 1, True), "no pattern": (b"gun\n", 1, False), "a comment": (b"# x = 3\nx\n", 2, False),
    "another comment": (b"#Claims\nx = 3\n", 2, False),
    "a header on the second line": (b"\nx = 3, y = 3\n", 2, False), "plaintext": (b"!Name: Glider\n.O.\n", 1, False),
    "a pattern's first byte": (b"x\n", 1, False),
}


def write(path, data):
    """Writes a file."""
    with open(path, "wb") as file:
        file.write(data)


def judge_mistake(tally, folder, name, data, cause, mended):
    """A file with a usual mistake: it is refused for its cause, explained, and read where it is mended."""
    path = os.path.join(folder, "file")
    write(path, data)
    tally.expect(f"{name}, shown", run(["show", path]), fault(cause))
    claims = os.path.join(folder, "claims")
    write(claims, f"load a {path}\nbecomes a 0 a\n".encode())
    tally.expect(f"{name}, verified", run(["verify", claims]), lines_outcome([(2, f"refused, {cause}")]))
    try_explained(tally, name, path, cause, WORDS[name])
    if mended is not None:
        write(path, mended)
        tally.expect(f"{name}, mended", run(["verify", claims]), lines_outcome([(2, "yes")]))


def try_mistakes(tally, files):
    """Files with the usual mistakes."""
    for name, (data, cause, mended) in MISTAKES.items():
        judge_mistake(tally, files.folder, name, data, cause, mended)


def last_line(path, words):
    """The line that says what helps, of the file of a path."""
    return b"" if words is None else b"  try: " + words.replace(b"FILE", file_word(os.fsencode(path))) + b"\n"


def try_explained(tally, name, path, cause, words):
    """The last line of each explained run on a file is that of the table, and stands there once; and the lines before are as ever."""
    helps, note, complaints = last_line(path, words), rb"  %s(?:, line \d+|: rule [^\n]*)?\n" % re.escape(escaped(os.fsencode(path))), []
    claims = f"{os.path.dirname(path)}/explained.claims"
    write(claims, b"load a %s\nbecomes a 0 a\nload b examples/block.rle\nstill b\n" % os.fsencode(path))
    told = b"cafile: %s\n" % cause.encode()
    for command in (["show"], ["convert", "--to", "mc"], ["draw"]):
        got = run([*command, "--explain", path])
        if (got.printed, got.status) != (b"", 2) or not re.fullmatch(re.escape(told) + note + re.escape(helps), got.complaint):
            complaints.append(f"{command[0]}: {got}, wanted {helps}")
    for before, texts in ((b"", [claims]), (claims.encode() + b": ", [claims, "tests/golden/verify/no_claims/claims"])):
        got = run(["verify", "--explain", *texts])
        wanted = rb"%sline 2: refused, %s\n%s  a:%s%s%sline 4: yes\n" % (before, re.escape(cause.encode()), before, note[1:],
                                                                         re.escape(helps and before + helps), before)
        if (got.complaint, got.status) != (b"", 2) or not re.fullmatch(wanted, got.printed):
            complaints.append(f"verify: {got}, wanted {helps}")
    got = run(["identify", "--explain", path, "examples/block.rle", path])
    if got.status != 2 or not re.fullmatch(b"(?:%s%s){2}" % (note, re.escape(helps)), got.complaint):
        complaints.append(f"identify: {got}, wanted {helps}")
    tally.tell(f"{name}, explained: {helps}", complaints)


def try_seeming(tally, files):
    """Files that are taken for others, or aren't, by their bytes; and rule texts."""
    for name, (data, cause, words) in SEEMING.items():
        path = os.path.join(files.folder, "seeming")
        write(path, data)
        try_explained(tally, name, path, f"bad pattern: {cause}", words)
    for rule, words in RULES.items():
        path = os.path.join(files.folder, "ruled")
        write(path, b"x = 1, y = 1, rule = %s\no!\n" % rule)
        try_explained(tally, f"the rule {rule}", path, "bad rule: unknown", words)


def try_paths(tally, files):
    """A path with a byte that a shell doesn't take as it stands, or that seems to be an option, is the word FILE in what helps."""
    for name in (b"a\x1b[2J", b"b\x7f", b"c\xc2\x9b", b"\xc3\xa9", b"d\\x1b", b"e;f", b"$(g)", b"`h`", b"i*", b"j'", b"k&l", b"m>n", b"o~p", b"{q,r}",
                 b"-s,t:u=v@w_x.y+Z"):
        path = os.path.join(files.folder, os.fsdecode(name))
        for data, words in ((gzip.compress(GOOD), b"gunzip -c FILE"), (b"\xef\xbb\xbf" + GOOD, rb"sed '1s/^\xef\xbb\xbf//' FILE"),
                            (b"#C\rx", rb"tr '\r' '\n' < FILE")):
            write(path, data)
            try_explained(tally, f"the path {name}", path, "bad pattern: rle header", words)
    write(os.path.join(files.folder, "-packed"), gzip.compress(GOOD))
    claims = files.path("option.claims", "load a -packed\nstill a\n")
    wanted = Outcome(b"line 2: refused, bad pattern: rle header\n  a: -packed, line 1\n  try: gunzip -c FILE\n", b"", 2)
    tally.expect("a path that seems to be an option", run(["verify", "--explain", "--root", files.folder, claims]), wanted)


def try_commands(tally, files):
    """What is printed as a command mends the file."""
    for name, (data, cause, mended) in MISTAKES.items():
        if WORDS[name] and WORDS[name].endswith(b"FILE"):
            path = os.path.join(files.folder, "broken")
            write(path, data)
            command = run(["show", "--explain", path]).complaint.split(b"  try: ")[-1]
            command = re.sub(rb"^cafile ", b"%s " % os.fsencode(PROGRAM), command)
            done = subprocess.run(["sh", "-c", os.fsdecode(command)], capture_output=True, check=False)
            tally.tell(f"{name}, mended by {command}", [] if done.stdout.strip() == mended.strip() else [str(done)])


def try_others(tally, files):
    """Want of work and too many cells, of runs and of claims; and refusals that no line helps."""
    soup, full = "tests/files/soup/soup.rle", "examples/macrocell/full_square.mc"
    for command in (["show"], ["convert", "--to", "mc"], ["draw"]):
        wanted = Outcome(b"", f"cafile: work\n  {soup}\n".encode() + last_line(soup, b"allow more by --work"), 2)
        tally.expect(f"want of work, {command[0]}", run([*command, soup, "--after", "1000", "--work", "100", "--explain"]), wanted)
    wanted = Outcome(b"", f"cafile: too many cells\n  {full}\n".encode() + last_line(full, b"convert it --to mc, which takes any number of cells"), 2)
    tally.expect("too many cells, convert", run(["convert", full, "--to", "rle", "--explain"]), wanted)
    claims = files.path("full.claims", f"load full {full}\nspaceship full 1 1 0\nload lost nowhere\nstill lost\n")
    helps = last_line(full, b"claim that it becomes a file of its moved plane, without a shift").decode()
    wanted = f"line 2: refused, too many cells\n  full: {full}\n{helps}line 4: refused, no file\n  lost: nowhere: no such file\n"
    tally.expect("too many cells, verify", run(["verify", "--explain", claims]), Outcome(wanted.encode(), b"", 2))
    for words in (["verify", "--explain", "--rules", "examples/rules", "examples/rules/slow.claims"],
                  ["show", "--explain", "--rules", "examples/rules", "examples/rules/slow.rle"],
                  ["verify", "--explain", "tests/golden/verify/bad_table/claims"], ["verify", "--explain", "--work", "0", "examples/glider.claims"],
                  ["identify", "--explain", "examples/lost.rle"],
                  ["identify", "--explain", "--rules", "examples/rules", "examples/rules/slow.rle"]):
        got = run(words)
        said = got.printed + got.complaint
        is_noted = b"  " in said or "0" in words or "examples/lost.rle" in words
        tally.tell(f"nothing helps, {' '.join(words)}", [] if is_noted and b"  try: " not in said else [str(got)])


def try_table(tally, _):
    """Each remedy of the table is one of those here, word for word; and these are in the table."""
    told = {it.decode() for it in (*WORDS.values(), *(words for _, _, words in SEEMING.values())) if it}
    told |= {"allow more by --work", "convert it --to mc, which takes any number of cells", "claim that it becomes a file of its moved plane, without a shift"}
    told = {re.sub(r"\w+\.rule", "NAME.rule", it) for it in told}
    table = set(remedies.table().values())
    tally.tell("the table of docs/COMMANDS.md", [f"in one alone: {it}" for it in sorted(told ^ table)])


def run_on_terminal(words):
    """The outcome of a run whose standard error is a terminal."""
    got, shown = on_terminal(lambda terminal: run(words, stderr=terminal))
    return Outcome(got.printed, shown, got.status)


def try_claim_texts(tally, files):
    """Claim texts that are patterns, explained and not, and on a terminal."""
    for name, (text, line, is_pattern) in CLAIM_TEXTS.items():
        path = files.path("text", text)
        told = fault(f"claims line {line}: syntax")
        helps = f"  try: cafile identify {path}\n".encode() if is_pattern else b""
        helped = Outcome(b"", told.complaint + helps, 2)
        tally.expect(f"{name}", run(["verify", path]), told)
        tally.expect(f"{name}, explained", run(["verify", "--explain", path]), helped)
        tally.expect(f"{name}, on a terminal", run_on_terminal(["verify", path]), helped)
        tally.expect(f"{name}, explained on a terminal", run_on_terminal(["verify", "--explain", path]), helped)
    path = files.path("text", GOOD)
    several = Outcome(b"examples/block.claims: line 2: yes\n", f"cafile: {path}: claims line 1: syntax\n  try: cafile identify {path}\n".encode(), 2)
    tally.expect("with another text", run(["verify", "--explain", path, "examples/block.claims"]), several)
    tally.expect("with another text, on a terminal", run_on_terminal(["verify", path, "examples/block.claims"]), several)
    for name in ("a\x1b[2J.rle", "b\u0085.rle", "c;reboot", "$(d)"):
        told = b"cafile: claims line 1: syntax\n  try: cafile identify FILE\n"
        tally.expect(f"a path that a shell would take otherwise, {name!r}", run(["verify", "--explain", files.path(name, GOOD)]), Outcome(b"", told, 2))
    # `identify` takes no such path
    for path in (files.path("my glider.rle", GOOD), "-"):
        tally.expect(f"a path that no claim text names, {os.path.basename(path)}", run(["verify", "--explain", path], input=GOOD),
                     fault("claims line 1: syntax"))
    tally.expect("another fault of a text like a pattern", run(["verify", "--explain", files.path("text", b"#C c\nload a b\nstill c\n")]),
                 fault("claims line 3: unknown name"))
    got = run(["identify", files.path("glider.rle", GOOD)])
    tally.tell("and it helps", [] if b"spaceship glider 4 1 1\n" in got.printed and got.status == 0 else [str(got)])


def try_more(tally, files):
    """On a terminal a run with a refusal or a fault of which there is more to tell ends with a line that says so, once; explained, and elsewhere, none does."""
    unknown, full, lost = "examples/unknown.rle", "examples/macrocell/full_square.mc", "examples/lost.rle"
    bad = files.path("bad.rule", "faulty")
    mixed = files.path("mixed.claims", "load a examples/block.rle\nload b tests/files/generations/brians_brain_oscillator.rle\nbecomes a 0 b\n")
    has_more = (
        ["show", unknown], ["convert", unknown, "--to", "mc"], ["draw", unknown], ["show", "examples/bad/syntax.rle"], ["convert", full, "--to", "rle"],
        ["show", unknown, "--rule", bad],
        ["show", "tests/files/soup/soup.rle", "--after", "1000", "--work", "1"],
        ["draw", "examples/glider.rle", "--at", "21267647932558653966460912964485513216,0"],
        ["verify", "tests/golden/verify/bad_patterns/claims"], ["verify", "examples/several.claims"],
        ["verify", "examples/several.claims", "tests/golden/verify/bad_table/claims"], ["verify", "tests/golden/verify/lost/claims", "examples/block.claims"],
        ["verify", "tests/golden/verify/bad_table/claims"], ["identify", "examples/block.rle", unknown, "examples/bad/syntax.rle"],
        ["identify", "--rules", "examples/rules", "examples/rules/slow.rle"], ["identify", "--rule", bad, unknown],
        ["verify", "nowhere.claims", "examples/several.claims"],
    )
    has_none = (
        ["show", "examples/block.rle"], ["show", lost], ["show", "examples/block.rle", "--rule", "nowhere"], ["verify", "examples/block.claims"],
        ["verify", "nowhere.claims"], ["verify", mixed],
        ["verify", "--work", "0", "examples/glider.claims"], ["verify", "tests/golden/verify/syntax/claims"], ["identify", lost, "examples/block.rle"],
        ["identify", "examples/block.rle"], ["identify", "--work", "0", "examples/glider.rle"],
        ["identify", "my block.rle"], ["identify", "--rule", "nowhere", "examples/block.rle"], ["verify", "tests/golden/verify/no_claims/claims"],
        ["draw", "examples/glider.rle"], ["verify", "--help"],
    )
    for words in (*has_more, *has_none):
        plain, shown, name = run(words), run_on_terminal(words), " ".join(words).replace(files.folder, "")
        more = MORE if words in has_more else b""
        tally.expect(f"on a terminal, {name}", shown, Outcome(plain.printed, plain.complaint + more, plain.status))
        tally.tell(f"elsewhere, {name}", [str(plain)] if b"--explain says" in plain.complaint else [])
        if words[-1] != "--help":
            explained = [words[0], "--explain", *words[1:]]
            told = run(explained)
            tally.expect(f"explained on a terminal, {name}", run_on_terminal(explained), told)
            if more:
                tally.tell(f"and there is more, {name}", [] if len(told.printed + told.complaint) > len(plain.printed + plain.complaint) else [str(told)])


if __name__ == "__main__":
    try_all(try_mistakes, try_seeming, try_paths, try_commands, try_others, try_claim_texts, try_more, try_table)
