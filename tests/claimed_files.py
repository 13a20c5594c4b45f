#!/usr/bin/env -S python3 -B
"""The files that a claim text names: which are opened, and what `--explain` tells where there is none.

- Where a text has a claim, each rule file is read, and each `load` file that a claim names. No other file is opened: it may be missing, a folder, or a pipe that
  nobody writes. It can't fail a run, nor fill its memory.
- With `--root DIR` paths are looked for in DIR. One that is absolute, or has `..` among its parts, is never opened, whatever is there. The paths of the words are
  as ever.
"""
import os
import resource
import subprocess
import tempfile

from lib.claim_text import ClaimText, outcome
from lib.program import MAX_FILE, Folder, Outcome, Tally, fault, lines_outcome, run
from lib.refusing import refusing_program
from lib.small_files import SPREAD

BLOCK = "x = 2, y = 2, rule = B3/S23\n2o$2o!\n"
NONE, FOLDER, UNREAD, LONG, ODD, OUTSIDE = "no such file", "a folder", "it can't be read", "more than 67108864 bytes", "not UTF-8", "outside the root"

# Waits for each reader of a pipe, and notes that there was one. So a run that opens the pipe finds it empty, and doesn't wait for ever.
WRITER = 'while : > "$0"; do echo opened >> "$1"; done'

# Under this limit of a run's address space, in bytes, a file of 67108864 bytes can't be read.
SPACE = 50_000_000

STILL_TABLE = "@RULE %s\n@TABLE\nn_states:3\nneighborhood:oneDimensional\nsymmetries:none\n"
CELL = "x = 1, y = 1, rule = %s\nB!\n"

# Paths at which the block stands in the root, and below it.
INSIDE = ("block.rle", "./block.rle", "sub/block.rle", "sub//block.rle", "sub/./block.rle", "..rle", "...", "a..b", "sub/..b", "sub/b..", "link.rle",
          "out/block.rle", "-", "\\x..", "~")

# Paths that may lead out, though some lead to the block again.
LEADING_OUT = ("..", "../block.rle", "sub/../block.rle", "sub/..", "../root/block.rle", "./../root/block.rle", "sub/../../root/block.rle", "sub//../block.rle",
               "a/../block.rle", "out/../root/block.rle",
           "/dev/stdin", "/dev/zero", "/", "//block.rle", "/block.rle", "../", "/..")

REFUSED = "refused, no file"


def paths_of(files):
    """Paths below a folder at which there is no pattern's file, and why."""
    os.mkdir(files.path("sub"))
    os.symlink("nowhere", files.path("dangling"))
    os.symlink("loop", files.path("loop"))
    os.symlink("sub", files.path("folder_by_a_link"))
    files.path("block.rle", BLOCK)
    files.path("long.rle", BLOCK.ljust(MAX_FILE + 1))
    with open(os.path.join(files.folder.encode(), b"\xff.rle"), "wb") as file:
        file.write(BLOCK.encode())
    return [(b"lost.rle", NONE), (b"sub/lost.rle", NONE), (b"lost/lost.rle", NONE), (b"block.rle/lost.rle", NONE), (b"block.rle/", NONE), (b"dangling", NONE),
            (b"loop", UNREAD), (b"sub", FOLDER),
            (b"sub/", FOLDER), (b".", FOLDER), (b"folder_by_a_link", FOLDER), (b"long.rle", LONG), (b"\xff.rle", ODD), (b"n" * 300, UNREAD),
            (b"a\x00b", UNREAD)]


def judge_missing(tally, name, files, reasons, words=(), before=b""):
    """Each of these paths is refused for its reason, as a pattern's and as a rule file's, and a file that is there isn't."""
    text = ClaimText(files)
    text.load_path("there", before + b"block.rle")
    for at, (path, why) in enumerate(reasons):
        text.load_path(f"a{at}", path)
        spelled = path.replace(b"\x00", b"\\x00")
        text.claim(f"still a{at}", "refused, no file", b"a%d: %s: %s" % (at, spelled, why.encode()))
        text.claim(f"becomes there 0 a{at}", "refused, no file", b"a%d: %s: %s" % (at, spelled, why.encode()))
    text.claim("still there", "yes")
    path = text.write()
    for more in ([], ["--explain"]):
        tally.expect(f"{name}, {len(more)}", run(["verify", *words, *more, path]), outcome(text.answers, bool(more)))
    for path, why in reasons:
        text = ClaimText(files)
        text.load_path("there", before + b"block.rle")
        text.rule_path(path)
        text.claim("still there", "refused, no file", b"rule file: %s: %s" % (path.replace(b"\x00", b"\\x00"), why.encode()))
        tally.expect(f"{name}, a rule file, {path[:20]}", run(["verify", "--explain", *words, text.write("rules.claims")]), outcome(text.answers, True))


def try_unread(tally):
    """A file that can't be read to its end."""
    with refusing_program(tally, "a file that can't be read") as (folder, refusing):
        if refusing is None:
            return
        files = Folder(folder)
        text = ClaimText(files)
        path = text.load("block", BLOCK.ljust(100000))
        text.claim("still block", "refused, no file", b"block: " + path + b": it can't be read")
        name = text.write()
        got, _ = refusing.run(["verify", "--explain", name], {"READ_FAILS": 4})
        tally.expect("a file that can't be read", got, outcome(text.answers, True))


def limit_space():
    """Limits the address space of a run."""
    resource.setrlimit(resource.RLIMIT_AS, (SPACE, SPACE))


class Unwanted:
    """Files that are better left alone."""

    def __init__(self, folder):
        self.files = Folder(folder)
        pipe = self.files.path("pipe")
        os.mkfifo(pipe)
        longer, longest = (self.files.path(name, b"") for name in ("longer", "longest"))
        os.truncate(longer, MAX_FILE + 1)
        os.truncate(longest, MAX_FILE)
        self.paths = {"missing": self.files.path("missing"), "folder": folder, "longer": longer, "endless": "/dev/zero", "not_utf_8": b"\xff", "pipe": pipe,
                      "longest": longest}
        self.count = 0

    def text(self):
        """A new claim text, whose files stand in a folder of their own."""
        return ClaimText(Folder(tempfile.mkdtemp(dir=self.files.folder)))

    def expect(self, tally, name, text, **how):
        """Runs the program over the text, with notes and without."""
        path = text.write()
        for words in (["verify", path], ["verify", "--explain", path]):
            tally.expect(f"{name}{', explained' * (len(words) - 2)}", run(words, **how), outcome(text.answers, len(words) > 2))


def try_unneeded(tally, files):
    """Files that no claim names, by themselves and together."""
    for name, path in [*files.paths.items(), ("all", None)]:
        text = files.text()
        text.load("block", BLOCK)
        for other, its in files.paths.items() if path is None else [(name, path)]:
            text.load_path(other, its)
        text.claim("still block", "yes")
        text.claim("becomes block 3 block", "yes")
        files.expect(tally, f"not needed, {name}", text, preexec_fn=limit_space)


def try_no_claims(tally, files):
    """Without a claim no file is read, not even a rule file."""
    for name, path in files.paths.items():
        text = files.text()
        text.load_path("a", path)
        text.rule_path(path)
        files.expect(tally, f"no claims, {name}", text, preexec_fn=limit_space)


def try_needed(tally, files):
    """Files that a claim names as its first pattern or its second, under another name or in another text too."""
    missing = files.paths["missing"].encode()
    for claim, name in (("still a", "a"), ("oscillator a 2", "a"), ("spaceship a 1 1 0", "a"), ("becomes a 1 block", "a"), ("becomes block 0 a", "a"),
                        ("becomes block 0 b", "b"), ("still b", "b")):
        text = files.text()
        text.load("block", BLOCK)
        text.load_path("a", missing)
        text.load_path("b", missing)
        text.load_path("pipe", files.paths["pipe"])
        text.claim("still block", "yes")
        text.claim(claim, "refused, no file", name.encode() + b": " + missing + b": no such file")
        files.expect(tally, f"needed, {claim}", text)
    text = files.text()
    path = text.load("a", BLOCK)
    text.load_path("b", path)
    text.claim("still b", "yes")
    files.expect(tally, "needed by another name", text)
    text = files.text()
    path = text.load("a", SPREAD)
    text.load("two", "x = 1, y = 1, rule = Spread\nB!")
    text.rule_path(path)
    text.claim("becomes two 0 two", "yes")
    files.expect(tally, "needed as a rule file, and loaded", text)
    text = files.text()
    paths = [text.load(f"p{at}", BLOCK if at % 3 else "x = 1, y = 1\nz!") for at in range(30)]
    for at in (29, 1, 3, 20, 0, 1):
        note = b"" if at % 3 else b"p%d: %s, line 2" % (at, paths[at])
        text.claim(f"still p{at}", "yes" if at % 3 else "refused, bad pattern: rle syntax", note)
    files.expect(tally, "some of many", text)


def try_rule_files(tally, files):
    """Every rule file is read where there is a claim."""
    for name, why in (("missing", NONE), ("folder", FOLDER), ("not_utf_8", ODD)):
        path = files.paths[name]
        text = files.text()
        text.load("block", BLOCK)
        text.rule_path(path)
        text.claim("still block", "refused, no file", b"rule file: " + (path if isinstance(path, bytes) else path.encode()) + b": " + why.encode())
        files.expect(tally, f"a rule file, {name}", text)


def try_several(tally, files):
    """Each text's files are those that its own claims need."""
    paths = []
    for other in ("a", "b"):
        text = files.text()
        text.load("a" if other == "a" else "c", BLOCK)
        text.load_path("b" if other == "a" else "a", files.paths["pipe"])
        text.claim(f"still {'a' if other == 'a' else 'c'}", "yes")
        paths.append(text.write())
    wanted = Outcome("".join(f"{path}: line 3: yes\n" for path in paths).encode(), b"", 0)
    tally.expect("several texts", run(["verify", *paths]), wanted)


class Root(Folder):
    """A folder with a root below it, and a block in each."""

    def __init__(self, folder):
        super().__init__(folder)
        for it in ("root", "root/sub", "rules"):
            os.mkdir(self.path(it))
        for it in ("block.rle", *(os.path.join("root", it) for it in INSIDE if "link" not in it and "out/" not in it)):
            self.path(it, BLOCK)
        os.symlink("../block.rle", self.path("root/link.rle"))
        os.symlink("..", self.path("root/out"))
        self.root = self.path("root")

    def judge(self, tally, name, text, verdicts, *words):
        """The claim text has these verdicts, each on its line, below the root."""
        path = self.path("text.claims", text)
        got, wanted = run(["verify", "--root", self.root, *words, path], timeout=60), lines_outcome(verdicts)
        tally.expect(name, got, wanted)


def text_of(paths, lines=()):
    """A claim text that says of each of these paths' patterns that it is still."""
    loads = [f"load {at} {path}" for at, path in enumerate(paths)]
    return "".join(f"{it}\n" for it in (*lines, *loads, *(f"still {at}" for at in range(len(paths)))))


def try_root_paths(tally, files):
    """Which paths are opened."""
    for name, paths, verdict in (("in the root", INSIDE, "yes"), ("outside", LEADING_OUT, REFUSED),
                                 ("absolute", (files.path("root/block.rle"), files.path("block.rle")), REFUSED)):
        count = len(paths)
        files.judge(tally, f"paths {name}", text_of(paths), [(count + 1 + at, verdict) for at in range(count)])
    got = run(["verify", files.path("text.claims", text_of([files.path("block.rle")]))])
    tally.expect("an absolute path without a root", got, lines_outcome([(2, "yes")]))
    files.judge(tally, "a file of the working directory", text_of(["examples/block.rle"]), [(2, REFUSED)])
    with open(os.path.join(files.root.encode(), b"\xff"), "wb") as file:
        file.write(BLOCK.encode())
    files.judge(tally, "a path that isn't UTF-8", b"load a \xff\nstill a\n", [(2, REFUSED)])


def try_root_rule_lines(tally, files):
    """Rule files of rule lines."""
    files.path("root/near.rule", STILL_TABLE % "Near")
    files.path("root/near.rle", CELL % "Near")
    files.path("near.rule", STILL_TABLE % "Near")
    files.judge(tally, "a rule file in the root", text_of(["near.rle"], ["rule near.rule"]), [(3, "yes")])
    for path in ("../near.rule", files.path("near.rule"), "sub/../near.rule", "rules/near.rule"):
        files.judge(tally, f"a rule file, {os.path.basename(os.path.dirname(path))}", text_of(["near.rle", "block.rle"], [f"rule {path}"]),
                    [(4, REFUSED), (5, REFUSED)])


def try_root_and_folder(tally, files):
    """The folder of `--rules` is none of the root's, and its files stand for no path of a text."""
    rules = files.path("rules")
    rule = files.path("rules/Found.rule", STILL_TABLE % "Found")
    files.path("root/found.rle", CELL % "Found")
    words = ("--rules", rules)
    files.judge(tally, "a table of the folder", text_of(["found.rle"]), [(2, "yes")], *words)
    os.mkdir(files.path("root/rules"))
    files.path("root/rules/Found.rule", BLOCK)
    for name, path in (("absolute", rule), ("of the same name", "rules/Found.rule"), ("outside", "../rules/Found.rule")):
        verdict = "yes" if name == "of the same name" else REFUSED
        files.judge(tally, f"a path of a rule file, {name}", text_of(["found.rle", path]), [(3, "yes"), (4, verdict)], *words)
    os.remove(files.path("root/rules/Found.rule"))
    text = files.path("text.claims", text_of(["found.rle", "rules/Found.rule"]))
    got = run(["verify", "--root", "root", "--rules", "rules", text], cwd=files.folder)
    tally.expect("a path of a rule file, relative", got, lines_outcome([(3, "yes"), (4, REFUSED)]))
    got = run(["verify", "--rules", "root", "--root", "root", files.path("text.claims", text_of(["found.rle"]))], cwd=files.folder)
    tally.expect("no table in the folder", got, lines_outcome([(2, "refused, bad rule: unknown")]))


def try_root_words(tally, files):
    """The root is a folder, and claim texts are opened as ever."""
    text = files.path("text.claims", text_of(["block.rle"]))
    for path in (files.path("nowhere"), files.path("block.rle"), "", "-"):
        for texts in ([text], [text, text], [files.path("lost.claims")], ["tests/golden/verify/syntax/claims"]):
            tally.expect(f"a root that is none, {os.path.basename(path)}", run(["verify", "--root", path, *texts]), fault(f"cannot read {path}"))
    tally.expect("a root with a slash", run(["verify", "--root", files.root + "/", text]), lines_outcome([(2, "yes")]))
    tally.expect("a root with a rest", run(["verify", text, "--root", files.root + "/sub/..", "--explain"]), lines_outcome([(2, "yes")]))
    tally.expect("standard input", run(["verify", "--root", files.root, "-"], input=text_of(["block.rle", "../block.rle"]).encode()),
                 lines_outcome([(3, "yes"), (4, REFUSED)]))
    lines = f"{text}: line 2: yes\nexamples/block.claims: line 2: {REFUSED}\n"
    tally.expect("several texts", run(["verify", "--root", files.root, text, "examples/block.claims"]), Outcome(lines.encode(), b"", 2))
    for command in (["show", "examples/block.rle"], ["identify", "examples/block.rle"], ["convert", "examples/block.rle", "--to", "mc"],
                    ["draw", "examples/block.rle"]):
        got = run([*command, "--root", files.root])
        tally.tell(f"{command[0]} has no root", [] if got.status == 2 and not got.printed else [str(got)])


def try_root_of_many(tally, files):
    """Each of up to twelve texts is judged under the root: what is in it is found, though the working directory has another file there, and nothing outside is
    opened, though it is there too, or is a pipe that nobody writes."""
    os.mkdir(files.path("work"))
    os.mkdir(files.path("root/own"))
    files.path("root/own/one.rle", BLOCK)
    for it in ("work/block.rle", "work/only.rle"):
        files.path(it, BLOCK.replace("2o$2o", "3o"))
    os.mkfifo(files.path("work/pipe"))
    paths = ("block.rle", "own/one.rle", "only.rle", files.path("work/block.rle"), files.path("root/block.rle"), "../root/block.rle", "../work/block.rle",
             "sub/block.rle")
    inside = ("block.rle", "own/one.rle", "sub/block.rle")
    for count in (1, 2, 5, 6, 12):
        texts, told, status = [], "", 0
        for at in range(count):
            own = [paths[(at + step) % len(paths)] for step in range(1 + at % 3)]
            texts.append(files.path(f"{at}.claims", text_of(own)))
            verdicts = ["yes" if it in inside else REFUSED for it in own]
            before = f"{texts[-1]}: " if count > 1 else ""
            told += "".join(f"{before}line {len(own) + 1 + number}: {verdict}\n" for number, verdict in enumerate(verdicts))
            status = max(status, 2 * (REFUSED in verdicts))
        for words in (["verify", "--root", files.root, *texts], ["verify", *texts, "--root", files.root, "--progress"]):
            tally.expect(f"{count} texts under a root", run(words, cwd=files.path("work")), Outcome(told.encode(), b"", status))
    texts = [files.path("pipe.claims", text_of(["pipe"])), *[files.path("block.claims", text_of(["block.rle"]))] * 5]
    told = "".join(f"{it}: line 2: {'yes' if at else REFUSED}\n" for at, it in enumerate(texts))
    tally.expect("a pipe beside a root", run(["verify", "--root", files.root, *texts], cwd=files.path("work"), timeout=60), Outcome(told.encode(), b"", 2))


def try_pipe_outside(tally, files):
    """A pipe outside isn't opened: a run that opens it waits."""
    pipe = files.path("pipe")
    subprocess.run(["mkfifo", pipe], check=True)
    for path in (pipe, "../pipe", "sub/../../pipe"):
        files.judge(tally, "a pipe outside", text_of([path]), [(2, REFUSED)])


def try_missing(tally):
    """Why there is no file, with a root and without."""
    with tempfile.TemporaryDirectory() as folder:
        files = Folder(folder)
        reasons = paths_of(files)
        start = folder.encode() + b"/"
        judge_missing(tally, "without a root", files, [(start + path, why) for path, why in reasons], before=start)
        outside = [(b"../" + path, OUTSIDE) for path, _ in reasons] + [(start + path, OUTSIDE) for path, _ in reasons]
        outside += [(path, OUTSIDE) for path in (b"sub/../lost.rle", b"/", b"..", b"/\xff")]
        judge_missing(tally, "with a root", files, [*reasons, *outside], ("--root", folder))
    try_unread(tally)


def try_opened(tally):
    """Which files are opened: a pipe that no claim needs isn't."""
    with tempfile.TemporaryDirectory() as folder:
        files, note = Unwanted(folder), os.path.join(folder, "note")
        with subprocess.Popen(["sh", "-c", WRITER, files.paths["pipe"], note]) as writer:
            for it in (try_unneeded, try_no_claims, try_needed, try_rule_files, try_several):
                it(tally, files)
            writer.kill()
        tally.tell("no run opens the pipe", ["it was opened"] if os.path.exists(note) else [])


def main():
    tally = Tally()
    try_missing(tally)
    try_opened(tally)
    for it in (try_root_paths, try_root_rule_lines, try_root_and_folder, try_root_words, try_root_of_many, try_pipe_outside):
        with tempfile.TemporaryDirectory() as folder:
            it(tally, Root(folder))
    tally.finish()


if __name__ == "__main__":
    main()
