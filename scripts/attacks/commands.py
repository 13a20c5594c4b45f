"""The commands that a run of ./attack starts: what they say, and that none outlives the run."""
import concurrent.futures
import contextlib
import os
import signal
import subprocess
import threading

# The seconds that a command has for its own clearing up.
CLEARING = 10


class Interrupted(Exception):
    """The run ends, and with it this command."""


class Commands:
    """Commands that run side by side, each in a session of its own, so that it can be ended with all that it started."""

    def __init__(self):
        self.running, self.lock, self.is_ended = set(), threading.Lock(), False

    def start(self, words, folder, more):
        """Starts a command, unless the run ends."""
        with self.lock:
            if self.is_ended:
                raise Interrupted
            how = {"stdin": subprocess.DEVNULL, "stdout": subprocess.PIPE, "stderr": subprocess.STDOUT, "encoding": "utf-8", "errors": "replace"}
            begun = subprocess.Popen(words, cwd=folder, env={**os.environ, **more}, start_new_session=True, **how)
            self.running.add(begun)
            return begun

    def run(self, words, folder, more=(), last=None):
        """The exit status of a command, which gets more variables of the environment, and what it said. After a line that begins with `last` it is
        ended."""
        begun, lines = self.start(words, folder, dict(more)), []
        try:
            for line in begun.stdout:
                lines.append(line)
                if last and line.startswith(last):
                    end(begun)
                    break
            status = begun.wait()
        finally:
            begun.stdout.close()
            with self.lock:
                self.running.discard(begun)
        if self.is_ended:
            raise Interrupted
        return status, "".join(lines)

    @contextlib.contextmanager
    def lanes(self, jobs):
        """An executor of so many calls side by side. Where it is left by an error or an interrupt, all that runs is ended."""
        with concurrent.futures.ThreadPoolExecutor(jobs) as lanes:
            try:
                yield lanes
            except BaseException:
                self.end_all()
                raise

    def end_all(self):
        """Ends all that runs, and has nothing begin any more."""
        with self.lock:
            self.is_ended, running = True, list(self.running)
        for it in running:
            end(it)


def end(begun):
    """Ends a command and what it started, which may clear up before."""
    for it in (signal.SIGTERM, signal.SIGKILL):
        with contextlib.suppress(ProcessLookupError, subprocess.TimeoutExpired):
            os.killpg(begun.pid, it)
            begun.wait(CLEARING)
