#!/usr/bin/env -S python3 -B
"""Times soups under isotropic rules beside bgolly's QuickLife and HashLife, and under B/S rules by their own table and without.

    bench/isotropic.py [--side N] [--generations N] [--runs N]

A soup of side by side cells, two of five live, goes N generations: here by `cafile convert`, under the table that `cafile rule` writes, there by bgolly under
the rule's own notation. The same of soups of 20 by 20 cells that lie scattered, which are leapt, beside HashLife. Seconds of a processor in user and system
mode together, the best of some runs by turns. Where bgolly isn't on the path, its column is empty.
"""
import argparse
import os
import random
import shutil
import sys
import tempfile

sys.path.insert(0, os.path.join(os.path.dirname(os.path.dirname(os.path.abspath(__file__))), "tests"))

import beside_golly
from lib.program import Folder, PROGRAM
from lib.program import run as run_program
from lib.rle import tidy

ISOTROPIC = ("B2-a/S12", "B3/S2-i34q", "B3-k/S23", "B2n3/S23-q", "B34w/S23", "B3-cnry4z/S2-k3", "B2kin3aj/S23-ik")
COUNTING = ("B3/S23", "B36/S23", "B2/S013V", "B24/S34H")


def best(words, others, runs):
    """The seconds of both commands, the best of `runs` runs by turns."""
    found = [[], []]
    for _ in range(runs):
        for at, command in enumerate((words, others)):
            if command:
                ran = beside_golly.run(command, 600)
                found[at].append(ran.seconds + ran.system if not ran.stopped else float("inf"))
    return [min(it) if it else None for it in found]


def soup(folder, rule, side):
    """A soup under a rule."""
    chance = random.Random(side)
    live = {(x, y): 1 for x in range(side) for y in range(side) if chance.random() < 0.4}
    return folder.path("soup.rle", tidy(live, rule, 0, 2))


def scattered(folder, rule, count):
    """So many small soups under a rule, in rows of ten, far from each other."""
    chance = random.Random(count)
    live = {(400 * (at % 10) + x, 400 * (at // 10) + y): 1 for at in range(count) for x in range(20) for y in range(20) if chance.random() < 0.4}
    return folder.path("scattered.rle", tidy(live, rule, 0, 2))


def row(name, times):
    """A line of the table."""
    ours, other = times
    told = "" if other is None else f"{other:.3f} | {ours / other:.2f}"
    print(f"| {name} | {ours:.3f} | {told} |", flush=True)


def main():
    words = argparse.ArgumentParser()
    words.add_argument("--side", type=int, default=300)
    words.add_argument("--generations", type=int, default=1000)
    words.add_argument("--runs", type=int, default=5)
    asked = words.parse_args()
    count, golly = str(asked.generations), shutil.which("bgolly")
    print(PROGRAM)
    with tempfile.TemporaryDirectory() as name:
        folder = Folder(name)
        print("| rule | by its table | QuickLife | ratio |\n|---|---|---|---|")
        for text in ISOTROPIC:
            pattern, table = soup(folder, text, asked.side), folder.path("rule.rule", run_program(["rule", text]).printed)
            theirs = beside_golly.golly_words(golly, pattern, count, ["-a", "QuickLife"]) if golly else None
            row(text, best([PROGRAM, "show", pattern, "--after", count, "--rule", table], theirs, asked.runs))
        print("| rule | scattered soups | HashLife | ratio |\n|---|---|---|---|")
        for text in ISOTROPIC:
            pattern, table = scattered(folder, text, 100), folder.path("rule.rule", run_program(["rule", text]).printed)
            theirs = beside_golly.golly_words(golly, pattern, count, ["-a", "HashLife"]) if golly else None
            row(text, best([PROGRAM, "show", pattern, "--after", count, "--rule", table], theirs, asked.runs))
        print("| rule | by its table | without | ratio |\n|---|---|---|---|")
        for text in COUNTING:
            written = run_program(["rule", text]).printed.replace(f"@RULE {text}\n".encode(), b"@RULE Named\n", 1)
            table, named = folder.path("rule.rule", written), soup(folder, "Named", asked.side)
            kept = folder.path("named.rle", open(named, "rb").read())
            plain = soup(folder, text, asked.side)
            row(text, best([PROGRAM, "show", kept, "--after", count, "--rule", table], [PROGRAM, "show", plain, "--after", count], asked.runs))


if __name__ == "__main__":
    main()
