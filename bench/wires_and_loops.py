#!/usr/bin/env python3
"""Times the built program under rule tables: WireWorld with 100000 live cells, and many of Langton's loops.

Run it at the root of the repository: python3 bench/wires_and_loops.py
It prints a line for each run: seconds of wall clock (the best of three), and the greatest memory of a run. With a folder behind these words it only
puts the planes there.
"""
import os
import subprocess
import sys
import tempfile

from naive import cells_and_rule, read_table, tidy
from soup import PROGRAM, report

WIRES, LOOPS = "examples/tables/wireworld", "tests/files/tables/langtons_loop"


def contents(path):
    """The text of a file of this repository."""
    with open(path, encoding="latin-1", newline="") as file:
        return file.read()


def ring():
    """A ring of 198 cells of WireWorld, 100 wide and 3 high, with an electron on every sixth: it is the same after 6 generations."""
    places = [(x, 0) for x in range(1, 99)] + [(99, 1)] + [(x, 2) for x in range(98, 0, -1)] + [(0, 1)]
    return {place: {0: 1, 5: 2}.get(at % 6, 3) for at, place in enumerate(places)}


def copies(cells, across, down, wide, high):
    """`across` copies of the cells side by side and `down` one below another, each with room of `wide` by `high` cells."""
    return {(x + wide * i, y + high * j): state for i in range(across) for j in range(down) for (x, y), state in cells.items()}


def write_planes(folder):
    """Writes the planes into the folder."""
    wires, loops = read_table(contents(f"{WIRES}.rule")), read_table(contents(f"{LOOPS}.rule"))
    loop, two_loops = (cells_and_rule(contents(f"{name}.rle"))[0] for name in (LOOPS, f"{LOOPS}_151"))
    for name, cells, rule in (
        ("wires", copies(ring(), 22, 23, 102, 5), wires),
        ("loops", copies(loop, 40, 30, 40, 30), loops),
        ("few_loops", copies(loop, 10, 10, 40, 30), loops),
        ("few_loops_151", copies(two_loops, 10, 10, 40, 30), loops),
    ):
        with open(os.path.join(folder, f"{name}.rle"), "wb") as file:
            file.write(tidy(cells, rule.name, 0, rule.states))
        print(f"{name}: {len(cells)} live cells", flush=True)


def main():
    if len(sys.argv) == 2:
        write_planes(sys.argv[1])
        return 0
    if not os.access(PROGRAM, os.X_OK):
        print("build the program first: ./cafile --help", file=sys.stderr)
        return 2
    with tempfile.TemporaryDirectory() as folder:
        # a process of its own makes them, since the memory of a run is counted from that of the process that starts it
        subprocess.run([sys.executable, __file__, folder], check=True)
        for rule, name, other, claims in (
            (WIRES, "wires", "wires", ("becomes a 0 b", "becomes a 6 b", "becomes a 60 b")),
            (LOOPS, "loops", "loops", ("becomes a 0 b", "becomes a 10 b")),
            (LOOPS, "few_loops", "few_loops_151", ("becomes a 0 b", "becomes a 151 b")),
        ):
            for claim in claims:
                report(folder, f"{name}, {claim}", f"rule {rule}.rule\nload a {folder}/{name}.rle\nload b {folder}/{other}.rle\n{claim}\n")
    return 0


if __name__ == "__main__":
    sys.exit(main())
