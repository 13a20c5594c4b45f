"""The record that ./check leaves in out/check/ when it ends: what was checked, by which kit, and how it ended, and the whole log of it.

    python3 -B -m scripts.record begin FOLDER
    python3 -B -m scripts.record proved FOLDER
    python3 -B -m scripts.record end FOLDER LAST_LINE

`begin` notes the commit, and what isn't committed; `proved` the program that `rt ci` made, of which it keeps a copy; `end` what is there at the end, and puts
the record in place with that copy and FOLDER/log. Until then the record stands in FOLDER. Where something of this isn't known, the record says so.
"""
import hashlib
import json
import os
import re
import shutil
import subprocess
import sys
from dataclasses import asdict, dataclass

from scripts.checkout import find_changes, find_commit
from scripts.repository import PROGRAM, PROVED, ROOT, say

RECORDS = os.path.join(ROOT, "out", "check")

# The program that was checked.
CHECKED = os.path.join(RECORDS, PROGRAM)


@dataclass
class Record:
    """What one run of ./check tested: the commit, what wasn't committed, the kit, and the sums of the programs that were proved and tested."""

    commit: str = None
    changes: list = None
    kit: str = None
    proved: str = None
    tested: str = None
    commit_at_end: str = None
    changes_at_end: list = None
    last_line: str = ""

    def is_of_commit_alone(self):
        """Whether all was committed at the beginning, and nothing changed."""
        return self.changes == [] and self.changes_at_end == [] and self.commit == self.commit_at_end

    def has_passed(self):
        """Whether something passed, and nothing failed."""
        return bool(re.fullmatch("[1-9][0-9]* passed, 0 failed", self.last_line))


def sum_of(path):
    """The SHA-256 sum of a file, or None where it can't be read."""
    try:
        with open(path, "rb") as file:
            return hashlib.sha256(file.read()).hexdigest()
    except OSError:
        return None


def find_kit():
    """The one line that names the kit of the command rt on the path, or None."""
    try:
        ran = subprocess.run(["rt", "version"], stdin=subprocess.DEVNULL, stdout=subprocess.PIPE, stderr=subprocess.DEVNULL, check=False)
    except OSError:
        return None
    return (ran.stdout.decode("ascii", "replace").splitlines() or [None])[0]


def read(folder):
    """The record that stands in a folder, or None."""
    try:
        with open(os.path.join(folder, "record.json"), encoding="utf-8") as file:
            return Record(**json.load(file))
    except (OSError, ValueError, TypeError):
        return None


def read_log():
    """What `rt ci` and the scripts said in the check that left the record."""
    with open(os.path.join(RECORDS, "log"), encoding="utf-8", errors="replace") as file:
        return file.read()


def write(record, folder):
    """Writes a record into a folder."""
    with open(os.path.join(folder, "record.json"), "w", encoding="utf-8") as file:
        json.dump(asdict(record), file, indent=1)


def put_in_place(folder):
    """Puts what stands in a folder in place of the last check's. A record always stands beside its own log and program."""
    os.makedirs(RECORDS, exist_ok=True)
    record = os.path.join(RECORDS, "record.json")
    if os.path.exists(record):
        os.remove(record)
    for name in ("log", PROGRAM, "record.json"):
        source, path = (os.path.join(it, name) for it in (folder, RECORDS))
        if os.path.exists(source):
            shutil.copy2(source, path + ".new")
            os.replace(path + ".new", path)


def note(step, folder, last_line=""):
    """Notes what a step of ./check finds."""
    record = read(folder) or Record()
    if step == "begin":
        record.commit, record.changes, record.kit = find_commit(), find_changes(), find_kit()
    elif step == "proved":
        shutil.copy2(PROVED, folder)
        record.proved = sum_of(os.path.join(folder, PROGRAM))
    else:
        record.tested, record.last_line = sum_of(os.environ.get("CAFILE", PROVED)), last_line
        record.commit_at_end, record.changes_at_end = find_commit(), find_changes()
    write(record, folder)


def main(step, folder, *last_line):
    try:
        note(step, folder, *last_line)
        if step == "end":
            put_in_place(folder)
    except OSError as why:
        say(f"no record is left of this check: {why.strerror}")


if __name__ == "__main__":
    main(*sys.argv[1:])
