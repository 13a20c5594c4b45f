"""Runs of the built program and of Golly's command line, `bgolly`, by turns: seconds of a processor, and the greatest memory."""
import gzip
import os
import resource
import shutil
import signal
import subprocess
import tempfile
from dataclasses import dataclass

# Runs that take more seconds than this are made once.
LONG = 10

# Fewer seconds than this are within what runs differ by.
LEAST = 0.02

# The address space that a run may take, and the memory that bgolly has to keep to, in MiB.
SPACE, MEMORY = 12000, 6000


@dataclass(frozen=True)
class Ran:
    """A run: its seconds in user mode, the peak of memory in KiB, what it printed last, what stopped it, if something did, and its seconds in system mode."""

    seconds: float
    memory: int
    printed: str = ""
    stopped: str = ""
    system: float = 0.0

    def told(self):
        """Seconds and memory, or what stopped it."""
        return [self.stopped, ""] if self.stopped else [f"{self.seconds:.3f}", str(self.memory // 1024)]


def run(words, limit):
    """One run, which is stopped after `limit` seconds of a processor."""
    def bound():
        resource.setrlimit(resource.RLIMIT_CPU, (limit, limit + 1))
        resource.setrlimit(resource.RLIMIT_AS, (SPACE << 20, SPACE << 20))
        resource.setrlimit(resource.RLIMIT_CORE, (0, 0))

    with tempfile.TemporaryFile() as output:
        child = subprocess.Popen(words, stdin=subprocess.DEVNULL, stdout=output, stderr=subprocess.STDOUT, preexec_fn=bound)
        _, status, usage = os.wait4(child.pid, 0)
        child.returncode = os.waitstatus_to_exitcode(status)
        output.seek(max(0, output.seek(0, os.SEEK_END) - 1000))
        printed = output.read().decode("latin-1")
    late = child.returncode in (-signal.SIGXCPU, -signal.SIGKILL)
    # of status 1 is a run of ours whose claim is false
    stopped = f"> {limit}" if late else f"status {child.returncode}" if child.returncode not in (0, 1) else ""
    return Ran(usage.ru_utime, usage.ru_maxrss, printed, stopped, usage.ru_stime)


def by_turns(commands, limit, times):
    """The best runs of these commands, None where there is no command: one after another `times` times, and those that take long once."""
    best = [None] * len(commands)
    for _ in range(times):
        for at, words in enumerate(commands):
            if not words or (best[at] and (best[at].stopped or best[at].seconds > LONG)):
                continue
            ran = run(words, limit)
            memory = max(ran.memory, best[at].memory if best[at] else 0)
            best[at] = Ran(min(ran.seconds, best[at].seconds if best[at] else ran.seconds), memory, ran.printed, ran.stopped)
    return best


def golly_words(program, pattern, generations, algorithm, output=None, memory=MEMORY):
    """The words of a run of bgolly, which always name its generations: without them it never ends. It has to keep to `memory` MiB."""
    saved = ["-o", output] if output else []
    return [program, "-q", "-q", "-M", str(memory), "-m", str(generations), *algorithm, *saved, pattern]


def unpacked(path, room):
    """A pattern's path, or that of a copy in a folder that isn't packed."""
    if not path.endswith(".gz"):
        return path
    plain = os.path.join(room, os.path.basename(path[:-3]))
    with gzip.open(path) as packed, open(plain, "wb") as file:
        shutil.copyfileobj(packed, file)
    return plain


def ratio(ours, others):
    """The seconds of a run beside those of the better of others, where they are known and not so few that a ratio tells nothing."""
    known = [it.seconds for it in others if it and not it.stopped]
    return f"{ours.seconds / min(known):.2f}" if known and min(known) >= LEAST and not ours.stopped else ""
