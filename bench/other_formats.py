#!/usr/bin/env -S python3 -B
"""Compares `cafile import` and `cafile rule` with bgolly, Golly's command line (Debian's package golly), which has to be on the path.

    bench/other_formats.py [--patterns DIR] [--generations N]

Golly's own files of Life 1.05 and 1.06 below DIR (/usr/share/golly/Patterns) are imported, and compared with what bgolly makes of them; soups run under
twenty isotropic rules and under a rule for each letter of each digit, here by the table that `cafile rule` writes, there by Golly's own notation; and
under Generations rules, all by bgolly: by the rule itself, and by that table under another name. RLE of bgolly has no place, so planes are compared but
for where they lie.
"""
import argparse
import os
import random
import subprocess
import sys
import tempfile

sys.path.insert(0, os.path.join(os.path.dirname(os.path.dirname(os.path.abspath(__file__))), "tests"))

from lib.isotropic import kinds
from lib.program import Folder, PROGRAM, Tally, run
from lib.rle import cells_and_rule, tidy

RULES = (
    "B2-a/S12", "B3/S2-i34q", "B3-k/S23", "B2ce3/S12ae", "B3-cnry4z/S2-k3", "B2n3/S23-q", "B34w/S23", "B3/S234y", "B2i34cej5y/S2-i34q", "B3aijn/S2-in3-ekq4j",
    "B2cek3i/S12cei", "B3/S23-a4i", "B36/S125", "B3-q4z/S234k", "B2kin3aj/S23-ik", "B3-ekqr4/S2aek3", "B2e3-anq/S12-a3", "B3/S2ae34ceit", "B34ceky/S23-a4cityz", "B2-ak/S1e2",
)

GENERATIONS = ("/2/3", "345/2/4", "23/3/8", "23/3/2", "3467/25/6", "23/36/256", "2/2/5", "012345678/1/3", "0/2/17", "1/3/7", "8/2/3", "24/37/30")


def moved(cells):
    """The cells, moved to the corner."""
    left, top = min((x for x, _ in cells), default=0), min((y for _, y in cells), default=0)
    return {(x - left, y - top): state for (x, y), state in cells.items()}


def golly(path, output, *words, algorithm="QuickLife"):
    """What bgolly makes of a file, as RLE."""
    subprocess.run(["bgolly", "-q", "-q", "-a", algorithm, *words, "-o", output, path], check=True, stdout=subprocess.DEVNULL, stderr=subprocess.DEVNULL)
    with open(output, encoding="ascii") as file:
        return cells_and_rule(file.read())


def files_of(patterns):
    """Golly's files of Life 1.05 and 1.06."""
    for folder, _, names in os.walk(patterns):
        for name in sorted(names):
            path = os.path.join(folder, name)
            with open(path, "rb") as file:
                if file.read(9) == b"#Life 1.0":
                    yield path


def compare_files(folder, tally, patterns):
    """Golly's files."""
    for path in files_of(patterns):
        theirs, rule = golly(path, folder.path("theirs.rle"), "-m", "0")
        got = run(["import", path])
        ours, own = cells_and_rule(got.printed.decode("latin-1")) if got.status == 0 else ({}, got.complaint)
        tally.tell(os.path.basename(path), [] if (moved(ours), own) == (moved(theirs), rule) else [f"{got.complaint or own}, wanted {rule} and {len(theirs)} cells"])


def compare_rule(folder, tally, text, side, generations):
    """A soup under a rule."""
    chance = random.Random(text)
    live = {(x, y): 1 for x in range(side) for y in range(side) if chance.random() < 0.4}
    soup = folder.path("soup.rle", tidy(live, text, 0, 2))
    theirs, _ = golly(soup, folder.path("later.rle"), "-m", str(generations))
    table = folder.path("rule.rule", run(["rule", text]).printed)
    got = run(["convert", soup, "--to", "rle", "--after", str(generations), "--rule", table])
    ours = cells_and_rule(got.printed.decode("latin-1"))[0] if got.status == 0 else {(0, 0): 9}
    tally.tell(f"{text}, {side} by {generations}", [] if moved(ours) == moved(theirs) else [f"{len(ours)} cells, wanted {len(theirs)}; {got.complaint}"])


def compare_generations(folder, tally, text, number):
    """A soup under a Generations rule and under its table, whose name is no such rule's."""
    chance, states, name = random.Random(text), int(text.split("/")[2]), f"Written{number}"
    file = run(["rule", text]).printed.decode()
    folder.path(f"{name}.rule", file.replace(f"@RULE {text}\n", f"@RULE {name}\n", 1))
    soup = {(x, y): chance.choice((1, 1, *range(1, states))) for x in range(40) for y in range(40) if chance.random() < 0.4}
    words = "-s", os.path.join(folder.folder, ""), "-m", "40"
    theirs, _ = golly(folder.path("soup.rle", tidy(soup, text, 0, states)), folder.path("theirs.rle"), *words, algorithm="Generations")
    ours, rule = golly(folder.path("soup.rle", tidy(soup, name, 0, states)), folder.path("ours.rle"), *words, algorithm="RuleLoader")
    tally.tell(f"{text}, 40 by 40", [] if (moved(ours), rule) == (moved(theirs), name) else [f"{len(ours)} cells, wanted {len(theirs)}"])


def main():
    words = argparse.ArgumentParser()
    words.add_argument("--patterns", default="/usr/share/golly/Patterns")
    words.add_argument("--generations", type=int, default=1000)
    asked, tally = words.parse_args(), Tally()
    print(PROGRAM)
    with tempfile.TemporaryDirectory() as name:
        folder = Folder(name)
        compare_files(folder, tally, asked.patterns)
        for text in RULES:
            compare_rule(folder, tally, text, 60, asked.generations)
        for count, letter in kinds():
            if letter:
                compare_rule(folder, tally, f"B{count}{letter}/S{count}-{letter}", 30, 50)
        for number, text in enumerate(GENERATIONS):
            compare_generations(folder, tally, text, number)
    tally.finish()


if __name__ == "__main__":
    main()
