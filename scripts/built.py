"""What ./build leaves in out/build/: a copy of the program that it proved and made, and of which commit and for which processors it is. A later ./check puts
another program into its place."""
import hashlib
import json
import os
import shutil
from dataclasses import asdict, dataclass

from scripts.checkout import find_changes, find_commit
from scripts.repository import LEVEL, PROGRAM, PROVED, ROOT, has_level

BUILDS = os.path.join(ROOT, "out", "build")
KEPT, RECORD = os.path.join(BUILDS, PROGRAM), os.path.join(BUILDS, "record.json")


@dataclass
class Built:
    """What was built: the commit and what wasn't committed before and after, the level of processors, and the program's sum."""

    commits: list
    changes: list
    level: str = None
    sum: str = None

    @classmethod
    def begin(cls):
        """What there is before a build."""
        return cls([find_commit()], [find_changes()])

    def finish(self):
        """Keeps the program that is there after the build, and this record of it."""
        self.commits.append(find_commit())
        self.changes.append(find_changes())
        self.level = LEVEL if has_level() else None
        os.makedirs(BUILDS, exist_ok=True)
        shutil.copy2(PROVED, KEPT + ".new")
        self.sum = sum_of(KEPT + ".new")
        os.replace(KEPT + ".new", KEPT)
        with open(RECORD + ".new", "w", encoding="utf-8") as file:
            json.dump(asdict(self), file, indent=1)
        os.replace(RECORD + ".new", RECORD)

    def is_of(self, commit):
        """Whether it was built of this commit, with nothing else."""
        return self.commits == [commit, commit] and self.changes == [[], []]


def sum_of(path):
    """The SHA-256 sum of a file."""
    with open(path, "rb") as file:
        return hashlib.sha256(file.read()).hexdigest()


def find_faster(commit):
    """The bytes of the proved program for processors of the higher level, if ./build made one of this commit."""
    try:
        with open(RECORD, encoding="utf-8") as file:
            built = Built(**json.load(file))
        with open(KEPT, "rb") as file:
            program = file.read()
    except (OSError, ValueError, TypeError):
        return None
    is_whole = hashlib.sha256(program).hexdigest() == built.sum
    return program if is_whole and built.level == LEVEL and built.is_of(commit) else None
