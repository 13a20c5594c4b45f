"""The tests that have to catch edits: scripts of tests/, over unproved programs, and the tests of crates, run unproved."""
import os
import re
import sys
import tempfile

from scripts.attacks.edits import BadEdit
from scripts.repository import PROGRAM

# The unproved program in a copy.
MADE = os.path.join("crates", PROGRAM, "out", "unproved", PROGRAM)

# What tells of an error in a source.
OF_SOURCE = re.compile(r"^.*\.rt:\d+:\d+: error.*$", re.MULTILINE)

# The seconds that each test of a crate has, so that a busy machine fails none.
MOST_SECONDS = "3000"

# A test of a crate that failed, and not for want of time, and the last line where all ran.
FAILED_TEST = re.compile(r"^test (\S+ \.\.\. FAILED)\n(?!.*no-answer)", re.MULTILINE)
ALL_PASSED = re.compile(r"^test result: ok\. [1-9]\d* passed; 0 failed;", re.MULTILINE)

# The last line of a script that passes.
SCRIPT_PASSED = re.compile(r"^[1-9]\d* passed, 0 failed$")


class NotJudged(Exception):
    """A test that neither passed nor failed, and why."""


def why(said):
    """The line that tells best why a command came to nothing."""
    found = OF_SOURCE.search(said)
    return (found[0] if found else said.rstrip("\n").split("\n")[-1])[:300]


class Script:
    """A script of tests/."""

    def __init__(self, commands, name):
        self.commands, self.name = commands, name

    def make(self, copy):
        """Makes the program of a copy's sources, and gives its bytes. None is there before, so an older one is never taken for it."""
        program = os.path.join(copy, MADE)
        if os.path.exists(program):
            os.remove(program)
        status, said = self.commands.run([sys.executable, "-B", "unproved"], copy)
        if status != 0 or not os.access(program, os.X_OK):
            raise NotJudged(f"no program was made, with status {status}: {why(said)}")
        with open(program, "rb") as file:
            return file.read()

    @staticmethod
    def take(copy, made):
        """Puts a program that was made elsewhere into a copy."""
        program = os.path.join(copy, MADE)
        os.makedirs(os.path.dirname(program), exist_ok=True)
        with open(program, "wb") as file:
            file.write(made)
        os.chmod(program, 0o755)

    def failure(self, copy):
        """The first line that tells a failure over the program of a copy, or none where the script passes."""
        program = os.path.join(copy, MADE)
        with tempfile.TemporaryDirectory(prefix="attack-") as folder:
            more = {"CAFILE": program, "TMPDIR": folder}
            status, said = self.commands.run([sys.executable, "-B", self.name], copy, more, "FAILED ")
        lines = said.rstrip("\n").split("\n")
        failed = next((it for it in lines if it.startswith("FAILED ")), None)
        if not os.access(program, os.X_OK):
            raise NotJudged("the program went away")
        if not failed and not (status == 0 and SCRIPT_PASSED.match(lines[-1])):
            raise NotJudged(f"it broke off with status {status}, and no test of it failed: {lines[-1][:300]}")
        return failed


class CrateTests:
    """The tests of a crate."""

    def __init__(self, commands, name):
        self.commands, self.name = commands, name

    def make(self, copy):
        """Nothing has to be made before."""

    def failure(self, copy):
        """The first line that tells a failure of the crate's tests in a copy, or none where they pass."""
        status, said = self.commands.run(["rt", "try", "--test", "--seconds", MOST_SECONDS], os.path.join(copy, "crates", self.name))
        failed = FAILED_TEST.search(said)
        if not failed and not (status == 0 and ALL_PASSED.search(said)):
            raise NotJudged(f"its tests did not run to their end: {why(said)}")
        return failed and failed[1]


def test_of(commands, root, name):
    """The test of this name."""
    if re.fullmatch(r"tests/\w+\.py", name) and os.path.isfile(os.path.join(root, name)):
        return Script(commands, name)
    if re.fullmatch(r"\w+_tests", name) and os.path.isdir(os.path.join(root, "crates", name, "src")):
        return CrateTests(commands, name)
    raise BadEdit(f"'caught by: {name}' names no script of tests/ and no crate of tests")
