#!/usr/bin/env -S python3 -B
"""An unproved program that the kit makes of the sources: ./cafile in a copy of the repository where nothing is built says first that it makes one, answers,
and says that nothing is proved yet; and over that program each golden run comes to what it has to. tests/launcher.py tries the launcher itself."""
import os
import shutil
import subprocess
import tempfile

from lib import golden
from lib.program import MOST_WAITING, ROOT, Outcome, Tally, contents, run

WORDS = ["verify", "examples/several.claims"]

LINES = b"cafile: making an unproved program of the sources, in about 2 minutes\ncafile: not proved yet: ./build proves it, in about 50 minutes\n"


def copy_sources(to):
    """Copies the repository, but for what is built and the history."""
    shutil.copytree(ROOT, to, symlinks=True, ignore=shutil.ignore_patterns("out", ".git", "attacks", "proofs", "__pycache__"))


def launched(folder):
    """What the launcher of a repository comes to."""
    ran = subprocess.run([os.path.join(folder, "cafile"), *WORDS], cwd=ROOT, stdin=subprocess.DEVNULL, capture_output=True, timeout=MOST_WAITING, check=False)
    return Outcome(ran.stdout, ran.stderr, ran.returncode)


def wanted():
    """What the golden run of the same words comes to, besides the lines of the launcher."""
    return Outcome(contents(os.path.join(ROOT, "tests", "golden", "verify", "several", "stdout")), LINES, 2)


def main():
    tally = Tally()
    with tempfile.TemporaryDirectory() as room:
        folder = os.path.join(room, "repository")
        copy_sources(folder)
        tally.expect("the first answer", launched(folder), wanted())
        program = os.path.join(folder, "crates", "cafile", "out", "unproved", "cafile")
        for case in golden.cases():
            got = run(golden.words(case), program, input=contents(golden.part(case, "stdin")))
            tally.expect(f"{case} by an unproved program", got, golden.outcome(case))
    tally.finish()


if __name__ == "__main__":
    main()
