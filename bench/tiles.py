#!/usr/bin/env python3
"""Times the kernel that steps a tile of 16 by 16 cells at once, under rules of few and of many counts.

Run it at the root of the repository: python3 bench/tiles.py
It proves and builds bench/tiles in a temporary copy of the crates below it, as one more crate, and prints a line for each rule: the best of a hundred short runs.
"""
import os
import shutil
import subprocess
import sys
import tempfile

RULES = ("B3/S23", "B36/S23", "B3678/S34678", "B2/S", "B12345678/S012345678")
BELOW = ("ca_plane", "ca_steps", "ca_budget", "ca_bricks", "ca_rule", "ca_quad", "ca_run")


def build(folder):
    """The path of the program, built in a copy of the crates."""
    shutil.copy("HANDLES", folder)
    for name in BELOW:
        shutil.copytree(os.path.join("crates", name), os.path.join(folder, "crates", name))
    crate = os.path.join(folder, "crates", "tiles")
    os.makedirs(os.path.join(crate, "src"))
    # the file ends in .txt here, since the tests take a source for a crate's
    shutil.copy("bench/tiles/main.rt.txt", os.path.join(crate, "src", "main.rt"))
    with open("crates.txt", encoding="ascii") as old, open(os.path.join(folder, "crates.txt"), "w", encoding="ascii") as new:
        new.writelines(line for line in old if line.split(":")[0] in BELOW)
        new.write("tiles: ca_plane ca_steps ca_budget ca_bricks ca_quad ca_rule ca_run anyhow\n")
    subprocess.run(["rt", "run"], cwd=crate, check=True, stdout=subprocess.DEVNULL)
    return os.path.join(crate, "out", "tiles")


def run(program, rule):
    """What a run prints, by name."""
    lines = subprocess.run([program, rule], check=True, capture_output=True, text=True).stdout.splitlines()
    return {name: int(figure) for name, figure in map(str.split, lines)}


def main():
    with tempfile.TemporaryDirectory() as folder:
        program = build(folder)
        for rule in RULES:
            runs = [run(program, rule) for _ in range(100)]
            if len({figures["sum"] for figures in runs}) != 1:
                sys.exit("two runs give different cells")
            best = min(figures["time"] for figures in runs)
            print(f"{rule}: {best * 1000 / runs[0]['stepped']:.1f} ns a tile")


if __name__ == "__main__":
    main()
