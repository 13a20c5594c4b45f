#!/usr/bin/env python3
"""Times how the built program identifies each pattern of a folder, by itself: Golly's folder Life, unless another one is named.

Run it at the root of the repository: python3 bench/identify.py [--program PATH]... [--folder FOLDER]
It prints the files that take longest, with the seconds of a processor in user and system mode of one run by each program, by turns; of which the program tells fewer
generations than the usual 65536; and the sums. Before and after them it prints what 20 million steps of a loop take, `while` at the top of a Python script, since
machines differ.
"""
import argparse
import os
import re
import sys
import tempfile

from beside_golly import run

PROGRAM = os.path.abspath("crates/cafile/out/cafile")
FOLDER = "/usr/share/golly/Patterns/Life"

# How many of the files are printed, and how long one may take, in seconds.
MOST, LIMIT = 12, 600

LOOP = "i = 0\nwhile i < 20000000:\n    i += 1\n"

FEWER = re.compile(r"none of these within (\d+) generation")
USUAL = 65536


def patterns(folder):
    """The RLE and macrocell files below a folder."""
    return sorted(os.path.join(at, name) for at, _, names in os.walk(folder) for name in names if name.endswith((".rle", ".mc")))


def seconds(ran):
    """What a run took of a processor."""
    return ran.seconds + ran.system


def is_told_with_fewer(ran):
    """Whether fewer generations than usual were looked at, and nothing was found."""
    found = FEWER.search(ran.printed)
    return bool(found) and int(found[1]) < USUAL


def tell_loop():
    """Prints what a loop in Python takes, the best of three."""
    with tempfile.NamedTemporaryFile("w", suffix=".py") as script:
        script.write(LOOP)
        script.flush()
        print(f"20 million steps of a loop: {min(seconds(run([sys.executable, script.name], LIMIT)) for _ in range(3)):.2f} s")


def main():
    parser = argparse.ArgumentParser(description=__doc__.split("\n\n", maxsplit=1)[0])
    parser.add_argument("--program", action="append", help="a program to time; several by turns")
    parser.add_argument("--folder", default=FOLDER, help="the folder of patterns")
    words = parser.parse_args()
    programs = words.program or [PROGRAM]
    tell_loop()
    runs = {path: [run([it, "identify", path], LIMIT) for it in programs] for path in patterns(words.folder)}
    for path in sorted(runs, key=lambda it: -max(map(seconds, runs[it])))[:MOST]:
        print(" ".join(f"{seconds(ran):6.2f}" for ran in runs[path]), os.path.relpath(path, words.folder))
    for at, program in enumerate(programs):
        ran = [it[at] for it in runs.values()]
        print(f"{program}: {len(ran)} files, {sum(map(seconds, ran)):.1f} s, {sum(map(is_told_with_fewer, ran))} told with fewer than {USUAL} generations")
    tell_loop()


main()
