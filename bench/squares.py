#!/usr/bin/env python3
"""Times squares apart from the program: planes that become trees and trees that become planes, how many cells are live and their box, joins of squares
that are known, words that become squares and are read again, and how many bytes a square takes.

Run it at the root of the repository: python3 bench/squares.py
It proves and builds bench/squares in a temporary copy of the repository, as one more crate, and prints a line for each figure: the best of five runs.
"""
import os
import shutil
import subprocess
import sys
import tempfile

SOUPS = ((1000, 1000), (4000, 5818))
TOWERS = (190000, 262144, 400000)
# sixty-one times 16384 leaves, and ten joins over each
JOINS = 61 * 16384 * 10
# 16384 words, 610 times
WORDS = 610 * 16384


def build(folder):
    """The path of the program, built in a copy of the repository."""
    for name in ("crates", "HANDLES", "crates.txt"):
        (shutil.copytree if os.path.isdir(name) else shutil.copy)(name, os.path.join(folder, name))
    crate = os.path.join(folder, "crates", "squares")
    os.makedirs(os.path.join(crate, "src"))
    # the files end in .txt here, since the tests take a source for a crate's
    shutil.copy("bench/squares/main.rt.txt", os.path.join(crate, "src", "main.rt"))
    shutil.copytree("bench/squares/proofs", os.path.join(crate, "proofs"))
    for place, _, names in os.walk(os.path.join(crate, "proofs")):
        for name in names:
            os.rename(os.path.join(place, name), os.path.join(place, name.removesuffix(".txt")))
    with open(os.path.join(folder, "crates.txt"), "a", encoding="ascii") as file:
        file.write("squares: ca_plane ca_quad anyhow\n")
    subprocess.run(["rt", "run"], cwd=crate, check=True, stdout=subprocess.DEVNULL)
    return os.path.join(crate, "out", "squares")


def run(program, *words):
    """What a run prints, by name, and its peak of memory in bytes."""
    child = subprocess.Popen([program, *map(str, words)], stdout=subprocess.PIPE, text=True)
    lines = child.stdout.read().splitlines()
    _, status, usage = os.wait4(child.pid, 0)
    child.returncode = os.waitstatus_to_exitcode(status)
    if child.returncode:
        sys.exit(f"{program} ended with {child.returncode}")
    return dict(line.split() for line in lines), usage.ru_maxrss * 1024


def best(program, *words):
    """The best of five runs' times, in microseconds, and the other figures."""
    runs = [run(program, *words)[0] for _ in range(5)]
    return {name: min(int(figures[name]) for figures in runs) if text.isdigit() else text for name, text in runs[0].items()}


def main():
    with tempfile.TemporaryDirectory() as folder:
        program = build(folder)
        for width, height in SOUPS:
            soup = best(program, width, height)
            if soup["same"] != "true":
                sys.exit("the plane of the tree is another")
            cells = soup["cells"]
            print(
                f"soup of {width} by {height}, {cells} live cells, {soup['nodes']} nodes: a tree of the plane {cells / soup['from']:.0f} million cells a second,"
                f" the plane of the tree {cells / soup['to']:.0f}, population {soup['population'] / 1000:.1f} ms, bounds {soup['bounds'] / 1000:.1f} ms"
            )
        known = best(program)
        print(f"full square of level 61: population {known['population']} µs, bounds {known['bounds']} µs")
        print(f"joins of known squares: {JOINS / known['joins']:.1f} million a second")
        if known["given"] != "true":
            sys.exit("the word of a square is another")
        print(f"words of known squares: {WORDS / known['make']:.0f} million a second become squares, {WORDS / (known['make-and-read'] - known['make']):.0f} are read")
        for count in TOWERS:
            figures, peak = run(program, count)
            nodes = int(figures["nodes"])
            # the program itself is one MB, less than a byte of each
            print(f"{nodes} nodes: {peak / nodes:.1f} bytes each")


if __name__ == "__main__":
    main()
