#!/usr/bin/env -S python3 -B
"""What ./dist packs, and what it refuses, in a small repository whose ./check leaves the record of an `rt` that proves nothing. The program that is packed is
the one under test. The archive is unpacked elsewhere, and what its pages say is done there; zsh, fish, groff and mandoc judge it too, where they are there."""
import gzip
import hashlib
import io
import os
import re
import shlex
import shutil
import tarfile

from lib.parts import try_all
from lib.program import PROGRAM, Folder, Outcome, ample, contents, fault
from lib.quoted import QUOTED
from lib.checked_repository import CI, FASTER, KEPT, SHARE, TIME, VERDICTS, CheckedRepository
from lib.unpacked import Unpacked

# How roff spells characters.
SPELLED = {r"\-": "-", r"\(aq": "'", r"\(dq": '"', r"\(ha": "^", r"\(ti": "~", r"\(ga": "`", r"\(rs": "\\", r"\&": ""}

# It completes the words after it.
COMPLETE = """source completions/cafile.bash
complete_words() { COMP_WORDS=("$@"); COMP_CWORD=$(($# - 1)); _cafile || true; printf '%s\\n' "${COMPREPLY[@]}"; }
complete_words"""


def listed(text):
    """A file of names, a line each."""
    return sorted(it for it in text.decode().split("\n") if it)


class Refusals:
    """A small repository whose ./dist is to refuse."""

    def __init__(self, tally, room):
        self.tally, self.repository = tally, CheckedRepository(room)

    def expect(self, name, text, **more):
        """./dist refuses with this line, and leaves nothing."""
        before = self.repository.archives()
        got = self.repository.dist(**more)
        complaints = [] if got == fault(text) else [f"wanted {text!r}", f"got {got}"]
        self.tally.tell(f"refused: {name}", complaints + [f"left {it}" for it in self.repository.archives() if it not in before])

    def expect_after(self, name, text, **more):
        """It refuses with this line after a check with more that is known, of which all that isn't committed is taken away."""
        self.repository.check(**more)
        self.repository.restore()
        self.expect(name, text)


def try_checkouts(tally, files):
    """Checkouts that aren't those of a check that passed."""
    refusals = Refusals(tally, files.folder)
    repository = refusals.repository
    refusals.expect("no check", "there is no record of ./check: run ./check first")
    got = repository.check()
    wanted = CI.replace("4 passed, 0 failed\n", "== tests/small.py\npassed a test\n5 passed, 0 failed\n")
    tally.expect("a check prints what it did, and nothing of the record", got, ample(wanted.encode()))
    began, made = (os.stat(it).st_mtime for it in (os.path.join(repository.tools, "rt.began"), repository.program))
    tally.tell("what is edited during a check is newer than its program", [] if made < began else [f"{made} isn't before {began}"])
    for name, remedy in (("git", "what is committed: install it"), ("rt", "which kit this is: install a kit of Rattle")):
        refusals.expect(f"no {name}", f"there is no command {name} on the path, which tells {remedy} first", PATH=repository.without(name))
    refusals.expect("another kit", "./check ran with another kit of Rattle: run ./check again", KIT="another-kit")
    loose = "not all is committed, as {}: commit it or take it away, and run ./check"
    repository.path("new\nname.py", "")
    refusals.expect("a new file", loose.format('"new\\nname.py"'))
    repository.restore()
    page = contents(repository.path("LICENSE-MIT"))
    repository.path("LICENSE-MIT", page + b"\n")
    refusals.expect("an edit", loose.format("LICENSE-MIT"))
    repository.git("add", "LICENSE-MIT")
    refusals.expect("an edit that is staged", loose.format("LICENSE-MIT"))
    repository.restore()
    repository.commit()
    refusals.expect("another commit", "the last ./check was of another commit: run ./check again")
    shutil.rmtree(repository.path(".git"))
    refusals.expect("no repository", "git knows no commit of this folder: run ./dist in a clone of the repository")
    repository.git("init", "--quiet", files.folder)
    repository.git("commit", "--quiet", "--allow-empty", "--message", "x")
    refusals.expect("a repository round it", "git knows no commit of this folder: run ./dist in a clone of the repository")


def try_checks(tally, files):
    """Checks that don't say what a program is."""
    refusals = Refusals(tally, files.folder)
    repository = refusals.repository
    moved = "not all was committed, or something changed, while ./check ran: run ./check again"
    failed = "./check failed, with 4 passed, 1 failed: mend what failed, and run ./check again"
    refusals.expect_after("a test that failed", failed, DOES="print('0 passed, 1 failed'); raise SystemExit(1)")
    refusals.expect_after("a proof that failed", failed, IS_OPEN="yes")
    repository.check(DOES="os.system('git commit --quiet --allow-empty --message y')")
    repository.restore("HEAD~")
    refusals.expect("a commit meanwhile", moved)
    repository.path("early", "")
    refusals.expect_after("a new file at the beginning", moved)
    refusals.expect_after("a new file at the end", moved, DOES="open('late', 'w')")
    other = "./check tested another program than it proved: run ./check again, without CAFILE"
    refusals.expect_after("a program that changed meanwhile", other, DOES="open('crates/cafile/out/cafile', 'ab').write(b'x')")
    refusals.expect_after("another program under test", other, CAFILE=repository.path("check"))
    for crate, verdict in VERDICTS.items():
        Folder(repository.tools).path("rt.ci", CI.replace(verdict, "").replace("logic=proved functions=1", "logic=not-proved functions=1"))
        refusals.expect_after(f"no verdict on {crate}", f"the log of ./check has no verdict on {crate}: run ./check again")
    Folder(repository.tools).path("rt.ci", CI.replace(f"rt: {KEPT}\n", ""))
    refusals.expect_after("no word on a crate", "the log of ./check has no verdict on left: run ./check again", DOES=f"print('rt: {KEPT}')")


def try_programs(tally, files):
    """Programs that aren't the one that was checked, of which the check keeps a copy: a later build changes nothing."""
    refusals = Refusals(tally, files.folder)
    repository = refusals.repository
    repository.check()
    os.remove(repository.program)
    got = repository.dist()
    tally.tell("a program that was built later", [] if got.status == 0 else [str(got)])
    program = contents(repository.checked)
    Folder(os.path.dirname(repository.checked)).path("cafile", program + b"\0")
    refusals.expect("another program", "out/check/cafile isn't the program that ./check tested: run ./check again")
    os.remove(repository.checked)
    refusals.expect("no program", "there is no program out/check/cafile: run ./check again")
    repository.check()
    got = repository.dist()
    tally.tell("the program is there again", [] if got.status == 0 else [str(got)])


def names_in(archive):
    """The names of an archive, without the folder that all are in."""
    with tarfile.open(fileobj=io.BytesIO(gzip.decompress(archive))) as file:
        return [it.partition("/")[2] for it in file.getnames()]


def try_faster(tally, files):
    """A program for processors of a higher level is packed only if ./build made it of this commit alone, and said its sum."""
    repository = CheckedRepository(files.folder)
    repository.check()
    commit = repository.git("rev-parse", "HEAD")
    note = b"cafile: packed without x86-64-v3/cafile, which ./build makes of a commit on such a processor\n"
    for name, more in (("none", None), ("another commit", {"commits": [commit, "0" * 40]}), ("an edit", {"changes": [["build"], []]}), ("no level", {"level": None}),
                       ("another sum", {"sum": "0" * 64}), ("a record of another kind", {"other": 1}), ("this commit", {})):
        if more is not None:
            repository.build(FASTER, **more)
        got = repository.dist()
        found = names_in(contents(repository.path("out/" + "".join(repository.archives()))))
        is_packed = "x86-64-v3/cafile" in found
        well = got.status == 0 and is_packed == (more == {}) and got.complaint == (b"" if is_packed else note) and "cafile" in found
        tally.tell(f"a faster program: {name}", [] if well else [str(got), str(found)])


def heads_of(archive):
    """What is wrong with the names, owners, modes and times of an archive."""
    with tarfile.open(fileobj=io.BytesIO(gzip.decompress(archive))) as file:
        members = file.getmembers()
    names = [it.name for it in members]
    top = names[0]
    runnable = {top + "/cafile", top + "/x86-64-v3/cafile"}
    complaints = [] if names == sorted({*names}) and all(it == top or it.startswith(top + "/") for it in names) else [f"names: {names}"]
    for it in members:
        wanted = 0o755 if it.isdir() or it.name in runnable else 0o644
        if (it.uid, it.gid, it.uname, it.gname, it.mode, it.mtime, it.isdir() or it.isreg()) != (0, 0, "", "", wanted, TIME, True):
            complaints.append(f"{it.name}: {it.uid} {it.gid} {it.uname!r} {it.gname!r} {it.mode:o} {it.mtime} {it.type}")
    return complaints


def try_archive(unpacked):
    """What the archive is."""
    tally, archive = unpacked.tally, unpacked.archive
    version = unpacked.run("./cafile --version").printed.decode().split()[1]
    folder = f"cafile-{version}-x86_64-linux"
    tally.expect("./dist", unpacked.outcome, ample(f"out/{folder}.tar.gz\n".encode()))
    tally.tell("its folder", [] if os.path.basename(unpacked.folder) == folder else [unpacked.folder])
    # ID1, ID2, deflated, no name and no comment, no time
    tally.tell("the head of the archive", [] if archive[:8] == b"\x1f\x8b\x08\0\0\0\0\0" else [str(archive[:10])])
    tally.tell("the heads of its files", heads_of(archive))
    tally.tell("the same bytes again", [] if archive == unpacked.again else ["differ"])
    tally.tell("the program is the one under test", [] if contents(unpacked.path("cafile")) == contents(PROGRAM) else ["differs"])
    tally.tell("the faster program is the one that was built", [] if contents(unpacked.path("x86-64-v3/cafile")) == FASTER else ["differs"])


def try_proved(unpacked):
    """PROVED says what was proved, and its sums are those of all other files."""
    tally, proved = unpacked.tally, contents(unpacked.path("PROVED")).decode()
    version = unpacked.run("./cafile --version").printed.decode().split()[1]
    says = [it for it in proved.split("\n") if it.startswith("#")]
    verdicts = [f"# low: {VERDICTS['low']}", f"# {KEPT}", f"# right: {VERDICTS['right']}", f"# cafile: {VERDICTS['cafile']}"]
    wanted = [
        f"# cafile {version}, whose answers are proved.",
        "# x86-64-v3/cafile is made of the same proved sources by ./build, for processors of that level. The tests ran over cafile.",
        f"# Commit: {unpacked.commit}", "# Kit: some-kit logic 0123", "# ./check ended with: 5 passed, 0 failed", f"# rt ci ended with: {SHARE}",
        "#", "# What rt ci said of each crate, on the machine where it ran:", *verdicts,
        "#", "# The SHA-256 sum of each other file, which `sha256sum -c PROVED` checks:"]
    tally.expect("what PROVED says", says, wanted)
    found = [os.path.relpath(os.path.join(at, it), unpacked.folder) for at, _, names in os.walk(unpacked.folder) for it in names if it != "PROVED"]
    sums = [f"{hashlib.sha256(contents(unpacked.path(it))).hexdigest()}  {it}" for it in sorted(found)]
    tally.tell(f"the sums of {len(sums)} files", [] if proved.split("\n")[len(says):] == [*sums, ""] else ["differ"])
    got = unpacked.run("sha256sum -c --quiet PROVED")
    tally.expect("sha256sum", got, ample(b""))
    page = contents(unpacked.path("README.md"))
    unpacked.path("README.md", page + b" ")
    got = unpacked.run("sha256sum -c --quiet PROVED 2>/dev/null")
    unpacked.path("README.md", page)
    tally.expect("sha256sum after an edit", got, Outcome(b"README.md: FAILED\n", b"", 1))


def try_installed(unpacked, block):
    """What README.md says puts the program on the path."""
    tally, home = unpacked.tally, unpacked.path("home")
    unpacked.run(block, HOME=home)
    got = unpacked.run("cafile show examples/block.rle", PATH=f"{home}/.local/bin:/usr/bin:/bin")
    tally.tell("the program on the path", [] if got.status == 0 else [str(got)])
    installed = sorted(it for _, _, names in os.walk(home) for it in names)
    tally.tell("what is put in its place", [] if installed == ["cafile", "cafile", "cafile.1", "cafile.fish"] else installed)
    shutil.rmtree(home)


def try_quoted(unpacked, said, block):
    """The command that a paragraph of README.md names prints what is quoted below it."""
    command = next(it for it in re.findall("`([^`]*)`", said) if "./cafile" in it)
    got = unpacked.run(command)
    unpacked.tally.tell(f"the page: {command}", [] if got.printed == block.encode() and got.complaint == b"" else [f"wanted {block!r}", f"got {got}"])


def try_page(unpacked):
    """README.md: its commands print what it quotes, it can be put on the path, and names the C library that the program needs."""
    tally, page = unpacked.tally, contents(unpacked.path("README.md")).decode()
    for said, kind, block in QUOTED.findall(page):
        try_installed(unpacked, block) if kind == "sh" else try_quoted(unpacked, said, block)
    versions = re.findall(rb"\0GLIBC_([0-9]+)\.([0-9]+)", contents(unpacked.path("cafile")))
    needed = max((int(major), int(minor)) for major, minor in versions)
    tally.tell("the C library that is needed", [] if f"glibc {needed[0]}.{needed[1]} or later" in page else [f"{needed} isn't named"])
    words = len(page.split())
    tally.tell("the page is short", [] if words <= 500 else [f"{words} words"])
    named = {*re.findall(r"(?<![\w/])(?:examples|docs|man|completions)/[\w/.]*\w", "\n".join([page, *unpacked.helps.values()]))} - {"examples/lost.rle"}
    tally.tell(f"files that page and help name: {len(named)}", sorted(it for it in named if not os.path.exists(unpacked.path(it))))


def words_of(text):
    """The words of a text, without what surrounds them."""
    return [it for it in (word.strip(".,:;") for word in re.sub(r"[`()\[\]<>]|possible values: ", "", text).split()) if it]


def read_roff(page):
    """The text of a page of roff."""
    lines = [re.sub(r"^\.(SS|SH) ", "", it) for it in page.split("\n")]
    text = re.sub(r"\\f[BIR]", "", "\n".join(it for it in lines if not it.startswith(".")))
    return re.sub(r"\\(?:\(..|.)", lambda found: SPELLED[found[0]], text)


def try_section(unpacked, page, name):
    """The man page has the lines and options of a command's help."""
    tally, text = unpacked.tally, f" {' '.join(words_of(read_roff(page)))} "
    said = re.sub("^(?:Commands|Arguments|Options|Examples):$|^Usage: ", "", unpacked.helps[name], flags=re.MULTILINE)
    lines = said.replace("The status is ", "\n").split("\n")
    tally.tell(f"the manual: {name or 'cafile'}, {len(lines)} lines", [it for it in lines if words_of(it) and f" {' '.join(words_of(it))} " not in text])
    section = page.partition(f".SS \\fBcafile\\fR \\fB{name}\\fR")[2].partition(".SS ")[0] if name else page.partition(".SH COMMANDS")[0]
    tags = [re.escape(rf"\fB{it}\fR".replace("-", r"\-")) for it in unpacked.option_names(name)]
    tally.tell(f"the manual: {len(tags)} options of {name or 'cafile'}", [it for it in tags if not re.search(rf"^\.TP\n(.*, )?{it}", section, re.MULTILINE)])


def try_manual(unpacked):
    """The man page has each line of each help, its options as such, and is good roff."""
    tally, page = unpacked.tally, contents(unpacked.path("man/cafile.1")).decode()
    for name in unpacked.helps:
        try_section(unpacked, page, name)
    titles = re.findall(r"^\.SH (.*)", page, re.MULTILINE)
    tally.expect("the sections of the manual", titles, ["NAME", "SYNOPSIS", "DESCRIPTION", "COMMANDS", "EXIT STATUS", "EXAMPLES"])
    macros = {*re.findall(r"^\.[^ \n]*", page, re.MULTILINE)} - {".TH", ".SH", ".SS", ".PP", ".TP", ".RS", ".RE", ".nf", ".fi", ".br"}
    tally.tell("its macros", sorted(macros) + re.findall(r"^'.*", page, re.MULTILINE) + re.findall(r".*[^\\]--.*", page))
    date = re.findall(r"^\.TH CAFILE 1 .*", page)
    tally.tell("the head of the manual", [] if date and '"2001-09-09"' in date[0] else date)
    for tool, command in (("groff", "groff -man -Tutf8 -ww man/cafile.1 >/dev/null"), ("mandoc", "mandoc -T lint -W warning man/cafile.1")):
        if shutil.which(tool):
            tally.expect(f"the manual under {tool}", unpacked.run(command), ample(b""))


def expect_completed(unpacked, wanted, *words):
    """bash completes these words to what is wanted, and complains of nothing."""
    got = unpacked.run(f"{COMPLETE} cafile {' '.join(map(shlex.quote, words))}")
    unpacked.tally.expect(f"bash: {' '.join(words)}", listed(got.printed + got.complaint), sorted(wanted))


def try_bash_values(unpacked, name):
    """bash completes the values of a command's options, after a blank and after =."""
    for _, option, value, choices in unpacked.options(name):
        wanted = choices.split(", ") if choices else unpacked.paths(value)
        word = [] if choices else ["examples/"]
        if value:
            expect_completed(unpacked, wanted, name, option, *(word or [""]))
            expect_completed(unpacked, wanted, name, option, "=", *word)


def try_bash(unpacked):
    """bash completes commands, options and values."""
    tally = unpacked.tally
    expect_completed(unpacked, [*unpacked.commands(), *unpacked.option_names("")], "")
    expect_completed(unpacked, ["show"], "s")
    expect_completed(unpacked, unpacked.commands(), "help", "")
    expect_completed(unpacked, [], "lost", "")
    for name in unpacked.commands()[:-1]:
        expect_completed(unpacked, unpacked.option_names(name), name, "-")
        expect_completed(unpacked, unpacked.paths(unpacked.value_of(name)), name, "examples/")
        try_bash_values(unpacked, name)
    got = unpacked.run("source completions/cafile.bash; complete -p cafile")
    tally.expect("bash: the command is known", got, ample(b"complete -F _cafile cafile\n"))


def try_zsh_case(unpacked, text, name):
    """The case of a command in zsh's completions has its options, and what their values are."""
    part = re.search(rf"^ +{name}\)\n(.*?);;$", text, re.MULTILINE | re.DOTALL)[1] if name else text.partition("case $state")[0]
    found = sorted(it for names in re.findall(r"(?:'|\{)(-[\w,-]+)", part) for it in names.split(","))
    unpacked.tally.expect(f"zsh: the options of {name or 'cafile'}", found, unpacked.option_names(name))
    actions = {"DIR": "_files -/", "FILE": "_files", "CLAIMS": "_files", "RULEFILE": "_files"}
    actions = {option: f"({choices.replace(',', '')})" if choices else actions.get(value, " ") for _, option, value, choices in unpacked.options(name)}
    values = {option: value for _, option, value, _ in unpacked.options(name) if value}
    lost = [it for it, value in values.items() if not re.search(rf"'{it}=\[.*\]:{value}:{re.escape(actions[it])}'", part)]
    unpacked.tally.tell(f"zsh: the values of {name or 'cafile'}", lost)


def try_zsh(unpacked):
    """The completions of zsh have each option in its command's case."""
    tally, text = unpacked.tally, contents(unpacked.path("completions/_cafile")).decode()
    tally.tell("zsh: its first line", [] if text.startswith("#compdef cafile\n") else [text[:40]])
    for name in unpacked.helps:
        try_zsh_case(unpacked, text, name)
    if shutil.which("zsh"):
        tally.expect("zsh reads it", unpacked.run("zsh -n completions/_cafile"), ample(b""))


def try_fish(unpacked):
    """The completions of fish have each option in a line of its command."""
    tally, text = unpacked.tally, contents(unpacked.path("completions/cafile.fish")).decode()
    for name in unpacked.helps:
        start = "complete -c cafile -n '__cafile_has %s' " % (name or '""')
        lines = [it.partition(" -d ")[0] for it in text.split("\n") if it.startswith(start)]
        found = sorted(dashes + it for line in lines for dashes, letter in (("--", "l"), ("-", "s")) for it in re.findall(rf" -{letter} ([\w-]+)", line))
        tally.expect(f"fish: the options of {name or 'cafile'}", found, unpacked.option_names(name))
    if shutil.which("fish"):
        tally.expect("fish reads it", unpacked.run("fish -n completions/cafile.fish"), ample(b""))
        for words, wanted in (("", unpacked.commands()), ("draw --to ", ["pgm", "text"]), ("show --rules examples/b", ["examples/bad/"]), ("rule ", [])):
            got = unpacked.run(f"fish -N -c 'source completions/cafile.fish; complete -C \"cafile {words}\"'")
            tally.expect(f"fish: {words}", [it.split("\t")[0] for it in listed(got.printed + got.complaint)], sorted(wanted))


def try_unpacked(tally, files):
    """What is packed, unpacked elsewhere."""
    unpacked = Unpacked(tally, files.folder)
    for part in (try_archive, try_proved, try_page, try_manual, try_bash, try_zsh, try_fish):
        part(unpacked)


if __name__ == "__main__":
    try_all(try_checkouts, try_checks, try_programs, try_faster, try_unpacked)
