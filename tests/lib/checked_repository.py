"""A small repository with ./check and ./dist, over an `rt` that proves nothing and puts a program in place."""
import hashlib
import json
import os
import shutil
import subprocess
import sys

from lib.program import PROGRAM, ROOT, Folder, Outcome, contents

# The files and folders that ./dist reads, or is made of.
PARTS = ("dist", "check", ".gitignore", "LICENSE-MIT", "LICENSE-APACHE", "packing", "examples", "scripts",
         "docs/CLAIMS.md", "docs/COMMANDS.md", "docs/FORMATS.md")

# It says what the file ci holds, and puts the program in place as `rt ci` does, unless that fails.
RT = """#!/bin/sh
if [ "$1" = version ]; then
    echo "${KIT:-some-kit logic 0123}"
    exit 0
fi
touch "$0.began"
cat "$0.ci"
[ -z "$IS_OPEN" ] || exit 1
mkdir -p crates/cafile/out && cp "$0.program" crates/cafile/out/cafile
"""

CRATES = "# the libraries, and the program\nlow: thiserror\nleft: low\nright: low\ncafile: low left right clap\n"

# What `rt ci` says: of a crate that was proved, whose verdict comes after one that doesn't count, of one that is kept, and of one with tests.
VERDICTS = {
    "low": "logic=proved functions=2 sum=01 native=nat",
    "right": "logic=proved functions=3 sum=01 native=nat",
    "cafile": "logic=proved functions=4 sum=01 native=nat",
}
KEPT = "left is kept: an earlier run on this machine proved the same files over the same libraries"
SHARE = "ok; handles allowed: none; done in this run: 4 of the 5 proofs"
CI = f"""== low
fn low::one: proved
logic=proved functions=1 sum=01 native=nat
rt: the check was killed, most likely for memory: once more
fn low::one: proved
{VERDICTS["low"]}
rt: low proved
rt: {KEPT}
== right
{VERDICTS["right"]}
rt: right proved
== right: its tests
logic=proved tests=1 functions=9 sum=01 native=nat
rt: right: its tests are proved
== cafile
{VERDICTS["cafile"]}
rt: cafile proved
rt: {SHARE}
4 passed, 0 failed
"""

# The one script of its tests, which does what DOES says.
SCRIPT = """import os
print("passed a test")
exec(os.environ.get("DOES", ""))
print("1 passed, 0 failed")
"""

# When its first commit was made, in seconds since 1970: 9 September 2001.
TIME = 1000000000


# A program for processors of a higher level.
FASTER = b"#!/bin/sh\necho faster\n"


class CheckedRepository(Folder):
    """A small repository in a folder, beside which its tools are."""

    def __init__(self, room):
        super().__init__(os.path.join(room, "repository"))
        self.room, self.tools = room, os.path.join(room, "tools")
        self.program, self.checked = (os.path.join(self.folder, *it, "cafile") for it in (("crates", "cafile", "out"), ("out", "check")))
        for it in ("docs", "tests"):
            os.makedirs(os.path.join(self.folder, it))
        for it in PARTS:
            self.take(it)
        self.path("crates.txt", CRATES)
        self.path("tests/small.py", SCRIPT)
        os.mkdir(self.tools)
        for name, content in (("rt", RT), ("rt.ci", CI), ("rt.program", contents(PROGRAM))):
            os.chmod(Folder(self.tools).path(name, content), 0o755)
        self.git("init", "--quiet")
        self.commit()

    def take(self, name):
        """Copies a part of the repository."""
        source, to = os.path.join(ROOT, name), os.path.join(self.folder, name)
        if os.path.isdir(source):
            shutil.copytree(source, to, ignore=shutil.ignore_patterns("__pycache__"))
        else:
            shutil.copy2(source, to)

    def known(self, **more):
        """What its commands know of the world: nothing of whoever runs this, nor of the program under test."""
        known = {name: value for name, value in os.environ.items() if name != "CAFILE" and not name.startswith("GIT_")}
        who = {f"GIT_{one}_{what}": it for one in ("AUTHOR", "COMMITTER") for what, it in (("NAME", "x"), ("EMAIL", "x"), ("DATE", f"{TIME} +0000"))}
        return {**known, **who, "HOME": self.room, "GIT_CONFIG_NOSYSTEM": "1", "PATH": f"{self.tools}:{known['PATH']}", **more}

    def run(self, words, **more):
        """The outcome of a command in it."""
        how = {"cwd": self.folder, "stdin": subprocess.DEVNULL, "stdout": subprocess.PIPE, "stderr": subprocess.PIPE, "timeout": 600}
        ran = subprocess.run(words, env=self.known(**more), check=False, **how)
        return Outcome(ran.stdout, ran.stderr, ran.returncode)

    def git(self, *words):
        """Runs git."""
        got = self.run(["git", *words])
        if got.status != 0:
            raise RuntimeError(f"git {' '.join(words)}: {got}")
        return got.printed.decode().strip()

    def commit(self):
        """Commits all there is, or nothing new."""
        self.git("add", "--all")
        self.git("commit", "--quiet", "--allow-empty", "--message", "x")
        return self.git("rev-parse", "HEAD")

    def check(self, **more):
        """The outcome of ./check."""
        return self.run([self.path("check")], **more)

    def build(self, program, level="x86-64-v3", **more):
        """Leaves the record that ./build leaves of a program, for processors of this level, of the commit that is there."""
        commit, folder = self.git("rev-parse", "HEAD"), Folder(os.path.join(self.folder, "out", "build"))
        os.makedirs(folder.folder, exist_ok=True)
        folder.path("cafile", program)
        record = {"commits": [commit, commit], "changes": [[], []], "level": level, "sum": hashlib.sha256(program).hexdigest(), **more}
        folder.path("record.json", json.dumps(record))

    def restore(self, commit="HEAD"):
        """Goes back to a commit, without what came after it and what isn't committed."""
        self.git("reset", "--quiet", "--hard", commit)
        self.git("clean", "--quiet", "--force", "-d")

    def dist(self, **more):
        """The outcome of ./dist."""
        return self.run([self.path("dist")], **more)

    def without(self, name):
        """A PATH on which this command isn't, and python3, git and rt are."""
        plain = os.path.join(self.room, f"without-{name}")
        os.mkdir(plain)
        for it, target in (("python3", sys.executable), ("git", shutil.which("git")), ("rt", os.path.join(self.tools, "rt"))):
            if it != name:
                os.symlink(target, os.path.join(plain, it))
        return plain

    def archives(self):
        """The names of what stands in out/, but the records."""
        out = os.path.join(self.folder, "out")
        return sorted({*(os.listdir(out) if os.path.exists(out) else ())} - {"build", "check"})
