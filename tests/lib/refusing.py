"""Runs of the program over tests/refuse.c, whose allocator, devices and clock fail as the environment says."""
import os
import shutil
import subprocess
import tempfile
from contextlib import contextmanager

from lib.program import ROOT, run


def build(folder):
    """Compiles tests/refuse.c by the kit's compiler and linker, or by those on the path, and gives its path; None where none are there."""
    kit = os.path.dirname(os.path.dirname(os.path.realpath(shutil.which("rt") or "")))
    made = os.path.join(folder, "refuse.so")
    for compiler in ([os.path.join(kit, "toolchain", "bin", "clang"), "-fuse-ld=lld"], ["clang"], ["cc"]):
        words = [*compiler, "-shared", "-fPIC", "-O1", "-nostdlib", "-o", made, os.path.join(ROOT, "tests", "refuse.c")]
        try:
            if subprocess.run(words, stdout=subprocess.DEVNULL, stderr=subprocess.DEVNULL, check=False).returncode == 0:
                return made
        except OSError:
            pass
    return None


class Refusing:
    """Runs of the program over a library that was built of tests/refuse.c."""

    def __init__(self, library, told):
        self.library, self.told = library, told

    def environment(self, faults):
        """The environment of a run in which this fails: names and values as tests/refuse.c says."""
        return {"LD_PRELOAD": self.library, "REFUSE_TELL": str(self.told), **{name: str(value) for name, value in faults.items()}}

    def run(self, words, faults, **how):
        """The outcome of a run in which this fails, and whether the call was met that was to fail."""
        before = os.fstat(self.told).st_size
        outcome = run(words, env=self.environment(faults), pass_fds=(self.told,), **how)
        return outcome, os.fstat(self.told).st_size > before

    def each_until_unmet(self, words, name, numbers, faults=(), **how):
        """The runs in which the calls with these numbers fail, one after another as they are asked for, until one isn't met: the number and the outcome."""
        for number in numbers:
            outcome, is_met = self.run(words, {name: number, **dict(faults)}, **how)
            if not is_met:
                return
            yield number, outcome

    def until_unmet(self, words, name, numbers, faults=(), **how):
        """The outcomes of runs in which the calls with these numbers fail, by the number, until one isn't met."""
        return dict(self.each_until_unmet(words, name, numbers, faults, **how))

    def sweep(self, words, numbers, goes_on=False):
        """The outcomes of runs whose allocations with these numbers are refused, those after it too where it goes on, until one isn't met."""
        return self.until_unmet(words, "REFUSE", numbers, {"REFUSE_ON": 1} if goes_on else {})


@contextmanager
def refusing_program(tally, name):
    """A folder, and runs over the library, or None in their place where it can't be built, which fails the test of this name."""
    with tempfile.TemporaryDirectory() as folder, tempfile.TemporaryFile() as told:
        library = build(folder)
        if library is None:
            tally.tell(name, ["no C compiler was found: neither the kit's nor clang or cc on the path"])
        yield folder, library and Refusing(library, told.fileno())
