#!/usr/bin/env python3
"""Times the built program beside Golly's command line, `bgolly`, by both of its algorithms: soups, patterns of Golly, rule tables, and the reading and
writing of large files. Nothing else here needs Golly, which Debian's package golly has.

Run it at the root of the repository: python3 bench/golly.py [--only WORD] [--runs N] [--limit SECONDS] [--golly BGOLLY] [--patterns FOLDER] [--program PATH]
It prints one table: seconds of a processor in user mode, the greatest memory of a run, and our seconds beside those of the better algorithm. A task is a
claim for the program, which reads the end pattern too and compares, and as many generations for bgolly. The end pattern is what HashLife made, so a yes is also
its agreement. The programs run by turns, and the best counts; one that takes long runs once. `HashLife` is RuleLoader or Generations where the rule needs it.
Some MiB are those of this script: less isn't reported. End patterns are kept in a folder of their own from run to run.
"""
import argparse
import itertools
import os
import shutil
import subprocess
import sys
import tempfile

from beside_golly import by_turns, golly_words, ratio, run
from golly_tasks import LARGE, TASKS, Soup

PROGRAM = "crates/cafile/out/cafile"
PATTERNS = "/usr/share/golly/Patterns"

# How many times as long bgolly may take to make an end pattern.
LONGER = 5


class Missing(Exception):
    """What can't be made or found."""


def row(*fields):
    """A line of the table."""
    print(" | ".join(f"{field:{'<' if at == 0 else '>'}{width}}" for at, (field, width) in enumerate(zip(fields, (32, 9, 6, 9, 6, 9, 6, 7)))), flush=True)


class Bench:
    """The programs, and the files of the tasks, in a folder that is kept from run to run."""

    def __init__(self, words, folder):
        self.words, self.folder = words, folder
        self.program, self.golly = os.path.abspath(words.program), shutil.which(words.golly)
        self.rules = self.path("rules", "")

    def path(self, *names):
        """A path in the folder."""
        path = os.path.join(self.folder, *names)
        os.makedirs(os.path.dirname(path), exist_ok=True)
        return path

    def found(self, path):
        """The path of a file of this repository, or of Golly's."""
        for it in (path, os.path.join(self.words.patterns, path)):
            if os.path.exists(it):
                return it
        raise Missing(f"there is no {path}")

    def algorithm(self, task):
        """The words by which bgolly takes a task's rule."""
        if isinstance(task.pattern, Soup) and task.pattern.rule.count("/") == 2:
            return ["-a", "Generations"]
        if not task.rule:
            return ["-a", "HashLife"]
        path = self.found(task.rule)
        with open(path, encoding="latin-1") as file:
            name = file.readline().split()[1]
        shutil.copy(path, os.path.join(self.rules, f"{name}.rule"))
        return ["-a", "RuleLoader", "-s", self.rules]

    def made(self, pattern, generations, algorithm, output):
        """The macrocell that bgolly makes of a pattern, made only where it isn't there."""
        if not os.path.exists(output):
            new = f"{output}.new.mc"
            ran = run(golly_words(self.golly, pattern, generations, algorithm, new), LONGER * self.words.limit)
            if ran.stopped or not os.path.exists(new):
                raise Missing(f"bgolly doesn't make {os.path.basename(output)}: {ran.stopped}, {ran.printed[-200:]!r}")
            os.rename(new, output)
        return output

    def converted(self, pattern, output):
        """A pattern as macrocell."""
        with open(output, "w", encoding="ascii") as file:
            subprocess.run([self.program, "convert", pattern, "--to", "mc"], stdout=file, check=True)
        return output

    def patterns(self, task):
        """The pattern's path for the program, and for bgolly, whose macrocells stand one row lower."""
        name, ours = task.folder(), task.pattern
        if isinstance(ours, Soup):
            ours, other = self.path(name, "soup.rle"), self.path(name, "lower.rle")
            task.pattern.write(ours, 0)
            if task.pattern.corner:
                # bgolly doesn't read such a place from RLE
                both = self.converted(ours, self.path(name, "soup.mc"))
                return both, both
            task.pattern.write(other, 1)
            return ours, other
        ours = self.found(ours)
        if ours != task.pattern:
            both = self.made(ours, 0, self.algorithm(task), self.path(name, "before.mc"))
            return both, both
        if ours.endswith(".mc"):
            return ours, ours
        other = self.path(name, "lower.rle")
        with open(ours, encoding="ascii") as source, open(other, "w", encoding="ascii") as file:
            file.write("#CXRLE Pos=0,1\n")
            shutil.copyfileobj(source, file)
        return ours, other

    def claims(self, task, ours, other):
        """The path of the task's claim text."""
        lines, claim = [f"rule {self.found(task.rule)}"] if task.rule else [], task.claim
        lines.append(f"load a {ours}")
        if not claim:
            # QuickLife writes no macrocell, and no RLE of bgolly says where it lies
            lines.append(f"load b {self.made(other, task.generations, self.algorithm(task), self.path(task.folder(), 'after.mc'))}")
            claim = f"becomes a {task.generations} b"
        text = self.path(task.folder(), "text.claims")
        with open(text, "w", encoding="ascii") as file:
            file.write("\n".join([*lines, claim, ""]))
        return text

    def compared(self, name, commands):
        """Runs the program and both algorithms by turns, prints the line, and gives the program's run."""
        ours, *others = by_turns(commands, self.words.limit, self.words.runs)
        row(name, *ours.told(), *itertools.chain(*(it.told() if it else ("", "") for it in others)), ratio(ours, others))
        return ours

    def quick(self, task, other):
        """The words of QuickLife's run, which reads no macrocell; None where it would take too long."""
        if not task.quick:
            return None
        pattern = other if isinstance(task.pattern, Soup) else self.found(task.pattern)
        return golly_words(self.golly, pattern, task.generations, ["-a", "QuickLife"])

    def time_task(self, task):
        """Times a task, and prints its line."""
        ours, other = self.patterns(task)
        text = self.claims(task, ours, other)
        hashed = golly_words(self.golly, other, task.generations, self.algorithm(task))
        cafile = self.compared(task.name, [[self.program, "verify", text], hashed, self.quick(task, other)])
        if not cafile.printed.endswith(f": {task.verdict}\n"):
            print(f"    wanted {task.verdict}, got {cafile.printed!r}")

    def try_task(self, task):
        """Times a task, or says why it can't."""
        try:
            self.time_task(task)
        except Missing as why:
            row(task.name, *[""] * 7)
            print(f"    {why}")

    def time_files(self, side):
        """Times how a soup is read and written, as both formats: QuickLife reads and writes RLE alone."""
        rle, tree = self.path(f"files_{side}", "soup.rle"), self.path(f"files_{side}", "soup.mc")
        Soup(side).write(rle, 0)
        self.made(rle, 0, ["-a", "HashLife"], tree)
        for (name, pattern), kind in itertools.product((("RLE", rle), ("macrocell", tree)), (None, "rle", "mc")):
            output = kind and self.path(f"files_{side}", f"output.{kind}")
            ours = [self.program, "convert", pattern, "--to", kind] if kind else [self.program, "show", pattern]
            hashed, quick = (golly_words(self.golly, pattern, 0, ["-a", it], output) for it in ("HashLife", "QuickLife"))
            label = f"{name} of {os.path.getsize(pattern) / 1e6:.1f} MB, {f'to {kind}' if kind else 'read'}"
            self.compared(label, [ours, hashed, None if tree == pattern or kind == "mc" else quick])


def words_of_run():
    """The words that the script was started with."""
    parser = argparse.ArgumentParser(description=__doc__.split("\n\n", maxsplit=1)[0])
    parser.add_argument("--only", default="", help="only the tasks whose name has this word")
    parser.add_argument("--program", default=PROGRAM, help="the program to time")
    parser.add_argument("--golly", default="bgolly", help="Golly's command line")
    parser.add_argument("--patterns", default=PATTERNS, help="the folder of Golly's patterns, with that of its rules beside it")
    parser.add_argument("--runs", type=int, default=3, help="how often each program runs")
    parser.add_argument("--limit", type=int, default=120, help="seconds of a processor after which a run is stopped")
    return parser.parse_args()


def main():
    words = words_of_run()
    if not os.access(words.program, os.X_OK) or not shutil.which(words.golly):
        print("build the program first (./cafile --help), and install bgolly (apt-get install golly)", file=sys.stderr)
        return 2
    bench = Bench(words, os.path.join(tempfile.gettempdir(), f"cafile-golly-{os.getuid()}"))
    print(f"{os.cpu_count()} processors, of which {os.getloadavg()[0]:.1f} are busy")
    row("task", "cafile s", "MiB", "HashLife", "MiB", "QuickLife", "MiB", "ratio")
    for task in TASKS:
        if words.only in task.name:
            bench.try_task(task)
    for side in LARGE:
        if words.only in f"files of {side}":
            bench.time_files(side)
    print(f"{os.cpu_count()} processors, of which {os.getloadavg()[0]:.1f} are busy")
    return 0


if __name__ == "__main__":
    sys.exit(main())
