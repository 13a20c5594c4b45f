"""The built program, run from a test, and a count of what passed."""
import os
import re
import resource
import signal
import subprocess
import sys
from dataclasses import dataclass

ROOT = os.path.dirname(os.path.dirname(os.path.dirname(os.path.abspath(__file__))))
PROGRAM = os.environ.get("CAFILE", os.path.join(ROOT, "crates", "cafile", "out", "cafile"))

# The most bytes that a file may have.
MAX_FILE = 67108864

# The seconds of a processor after which the system ends a run, or the script itself, and those by the clock after which a run is ended here, though it only
# waits.
MOST_SECONDS, MOST_WAITING = 200, 3000


def allow_seconds(seconds):
    """Has the system end a run, or the script itself, after so many seconds of a processor."""
    most = resource.getrlimit(resource.RLIMIT_CPU)[1]
    resource.setrlimit(resource.RLIMIT_CPU, (seconds if most == resource.RLIM_INFINITY else min(seconds, most), most))


def give_up(_number, _frame):
    """Ends the script where it has used up its own seconds, which would end it without a word."""
    sys.exit(f"{sys.argv[0]} took more than {resource.getrlimit(resource.RLIMIT_CPU)[0]} seconds of a processor")


allow_seconds(MOST_SECONDS)
signal.signal(signal.SIGXCPU, give_up)


@dataclass(frozen=True)
class Outcome:
    """What a run printed, what it complained of, and its exit status."""

    printed: bytes
    complaint: bytes
    status: int

    def __str__(self):
        return f"printed {self.printed[-400:]!r}, complained {self.complaint[-400:]!r}, status {self.status}"


def fault(text):
    """The outcome of a run that prints nothing and complains of this."""
    return Outcome(b"", b"cafile: " + (text if isinstance(text, bytes) else text.encode()) + b"\n", 2)


def escaped(text):
    """A path, a name or a rule text as it is printed: the bytes of control characters, in UTF-8, as a backslash, an x and two digits."""
    return re.sub(rb"\xc2[\x80-\x9f]|[\x00-\x1f\x7f]", lambda found: b"".join(b"\\x%02x" % it for it in found[0]), text)


def file_word(path):
    """A path as it stands in a command that the program prints: itself where a shell takes each of its bytes as it stands and it seems to be no option, and
    else FILE."""
    return path if re.fullmatch(rb"(?!-)[0-9A-Za-z+,./:=@_-]*", path) else b"FILE"


def ample(text):
    """The outcome of a run that prints this."""
    return Outcome(text, b"", 0)


def figures(generation, cells, box, kind="macrocell", rule="B3/S23"):
    """The outcome of `show`."""
    return ample(f"format {kind}\nrule {rule}\ngen {generation}\ncells {cells}\nbox {box}\n".encode())


def lines_outcome(verdicts):
    """The outcome of a run that gives these verdicts, each with the number of its line."""
    status = 0
    for _, verdict in verdicts:
        status = max(status, 2 if verdict.startswith("refused") else 1 if verdict.startswith("no") else 0)
    return Outcome("".join(f"line {line}: {verdict}\n" for line, verdict in verdicts).encode(), b"", status)


def contents(path):
    """The bytes of a file, none where it isn't there."""
    if not os.path.exists(path):
        return b""
    with open(path, "rb") as file:
        return file.read()


def run(words, program=PROGRAM, **how):
    """Runs the program, or another one, at the root of the repository. A run that doesn't end fails the test."""
    if "input" not in how:
        how = {"stdin": subprocess.DEVNULL, **how}
    how = {"cwd": ROOT, "timeout": MOST_WAITING, "stdout": subprocess.PIPE, "stderr": subprocess.PIPE, **how}
    try:
        ran = subprocess.run([program, *words], check=False, **how)
    except subprocess.TimeoutExpired as late:
        return Outcome(late.stdout or b"", b"(no end after %d seconds)" % how["timeout"], -1)
    return Outcome(ran.stdout or b"", ran.stderr or b"", ran.returncode)


class Folder:
    """Files in a folder of their own."""

    def __init__(self, folder):
        self.folder = folder

    def path(self, name, content=None):
        """The path of a file, which is written where its content is given."""
        path = os.path.join(self.folder, name)
        if content is not None:
            with open(path, "wb") as file:
                file.write(content if isinstance(content, bytes) else content.encode())
        return path


class Runs(Folder):
    """Files in a folder of their own, and runs over them of which one test tells."""

    def __init__(self, folder):
        super().__init__(folder)
        self.complaints, self.count = [], 0

    def expect(self, name, words, wanted, **how):
        """Runs the program with these words, and expects this."""
        got = run(words, **how)
        self.count += 1
        if got != wanted:
            told = " ".join(os.path.basename(os.fsdecode(it)) for it in words)
            self.complaints.append(f"{name}, {told}: wanted {wanted}, got {got}")

    def tell(self, tally, name):
        """Tells the runs up to here as one test."""
        tally.tell(f"{name}: {self.count} runs", self.complaints)
        self.complaints, self.count = [], 0


class Tally:
    """Counts the tests of a script, and prints a line for each."""

    def __init__(self):
        self.passed = self.failed = 0

    def tell(self, name, complaints):
        """A test passed where there is nothing to complain of."""
        if complaints:
            self.failed += 1
            print(f"FAILED {name}")
            for it in complaints[:5]:
                print(f"    {it}")
        else:
            self.passed += 1
            print(f"passed {name}")
        sys.stdout.flush()

    def expect(self, name, outcome, wanted):
        """A test passed where the outcome is the wanted one."""
        self.tell(name, [] if outcome == wanted else [f"wanted: {wanted}", f"got:    {outcome}"])

    def finish(self):
        """Prints the sums, and ends with status 1 where a test failed, or none was tried."""
        print(f"{self.passed} passed, {self.failed} failed")
        sys.exit(0 if self.passed and not self.failed else 1)
