"""What the commands at the root of the repository share: its crates, the programs that are made of them, and how something is said."""
import os
import re
import signal
import sys

ROOT = os.path.dirname(os.path.dirname(os.path.realpath(__file__)))
PROGRAM = "cafile"

# The proved program, and the unproved one, which has the same name in a folder that says so, since help shows the name.
PROVED = os.path.join(ROOT, "crates", PROGRAM, "out", PROGRAM)
UNPROVED = os.path.join(ROOT, "crates", PROGRAM, "out", "unproved", PROGRAM)

# The level of processors that the program is made for where this machine's is of it, and what such a one has beside x86-64, by the names of /proc/cpuinfo.
LEVEL = "x86-64-v3"
FEATURES = {"abm", "avx2", "bmi1", "bmi2", "f16c", "fma", "movbe"}


def say(text):
    """Says something on standard error."""
    print(f"cafile: {text}", file=sys.stderr, flush=True)


def end_by_signals():
    """Has the signals that end a command end it as an interrupt does, so that it clears up."""
    for it in (signal.SIGHUP, signal.SIGTERM):
        signal.signal(it, signal.default_int_handler)


def sources():
    """The files and folders of which an unproved program is made. A folder is newer where a file of it was taken away."""
    yield os.path.join(ROOT, "crates.txt")
    crates = os.path.join(ROOT, "crates")
    for crate in os.listdir(crates):
        for at, _, names in os.walk(os.path.join(crates, crate, "src")):
            yield at
            yield from (os.path.join(at, it) for it in names)


def is_current(program):
    """Whether a program is there, and no source is newer."""
    return os.path.exists(program) and not any(os.stat(it).st_mtime > os.stat(program).st_mtime for it in sources())


def has_level():
    """Whether this machine's processor is of the higher level."""
    try:
        with open("/proc/cpuinfo", encoding="ascii", errors="replace") as file:
            found = re.search(r"^flags\s*:(.*)$", file.read(), re.MULTILINE)
    except OSError:
        return False
    return bool(found) and FEATURES <= {*found[1].split()}


def read_lines():
    """The words of each crate's line of crates.txt, by the crate's name."""
    with open(os.path.join(ROOT, "crates.txt"), encoding="utf-8") as file:
        lines = [it.partition(":") for it in file if ":" in it and not it.startswith("#")]
    return {name.strip(): words.split() for name, _, words in lines}


def crates_below(lines, name):
    """The crates of the repository that a crate stands on, each after those that it stands on itself."""
    found = []

    def find(crate):
        for it in lines[crate]:
            if it in lines and it not in found:
                find(it)
                found.append(it)

    find(name)
    return found
