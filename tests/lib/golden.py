"""The golden runs of tests/golden/. Each has a folder COMMAND/CASE with the words of a run, a line each, or a claim text for `verify`; with the bytes on its
standard input, if there are any; and with what it comes to: `stdout`, `stderr` and `status`. A file that isn't there is as an empty one."""
import glob
import os

from lib.program import ROOT, Outcome, contents, run

GOLDEN = "tests/golden"


def cases(command="*"):
    """The cases of a command, or all."""
    found = glob.glob(f"{command}/*", root_dir=os.path.join(ROOT, GOLDEN))
    return sorted(it for it in found if os.path.isfile(part(it, "status")))


def part(case, name):
    """The path of a file of a case."""
    return os.path.join(ROOT, GOLDEN, case, name)


def words(case):
    """The words that the program is started with."""
    said = contents(part(case, "words")).decode()
    return said.split("\n")[:-1] if said else ["verify", f"{GOLDEN}/{case}/claims"]


def outcome(case):
    """What a case has to come to."""
    return Outcome(contents(part(case, "stdout")), contents(part(case, "stderr")), int(contents(part(case, "status"))))


def outcome_of_run(case):
    """What the run of a case comes to."""
    return run(words(case), input=contents(part(case, "stdin")))
