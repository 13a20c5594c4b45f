#!/usr/bin/env python3
"""Times leaps apart from the program: `Leaper::advance` over small patterns, soups and breeders, beside bgolly where it is installed.

Run it at the root of the repository: python3 bench/leaps.py
It proves and builds bench/leaps in a temporary copy of the repository, as one more crate, and prints a line for each leap: the best of three runs, in
milliseconds of the leap alone, and for bgolly of its whole run.
"""
import os
import shutil
import subprocess
import sys
import tempfile
import time

# Patterns and how many generations they go; those of Golly are left out where it isn't installed.
GOLLY = "/usr/share/golly/Patterns/Life/Breeders/"
LEAPS = (
    ("examples/r_pentomino.rle", 4096),
    ("examples/r_pentomino.rle", 2**20),
    ("tests/files/gun_30.rle", 2**40),
    (GOLLY + "LWSS-breeder.rle", 2**16),
    (GOLLY + "LWSS-breeder.rle", 2**30),
)
SOUPS = ((200, 200, 1000), (512, 512, 1024), (1000, 1000, 1000))


def build(folder):
    """The path of the program, built in a copy of the repository."""
    for name in ("crates", "HANDLES", "crates.txt"):
        (shutil.copytree if os.path.isdir(name) else shutil.copy)(name, os.path.join(folder, name))
    crate = os.path.join(folder, "crates", "leaps")
    os.makedirs(os.path.join(crate, "src"))
    # the file ends in .txt here, since the tests take a source for a crate's
    shutil.copy("bench/leaps/main.rt.txt", os.path.join(crate, "src", "main.rt"))
    with open(os.path.join(folder, "crates.txt"), "a", encoding="ascii") as file:
        file.write("leaps: ca_plane ca_steps ca_budget ca_bricks ca_quad ca_rule ca_run ca_rle anyhow\n")
    subprocess.run(["rt", "run"], cwd=crate, check=True, stdout=subprocess.DEVNULL)
    return os.path.join(crate, "out", "leaps")


def run(program, *words):
    """What a run prints, by name."""
    told = subprocess.run([program, *map(str, words)], check=True, stdout=subprocess.PIPE, text=True).stdout
    return dict(line.split() for line in told.splitlines())


def best(program, *words):
    """The quickest of three runs."""
    return min((run(program, *words) for _ in range(3)), key=lambda told: int(told["leap"]))


def golly(path, generations):
    """The seconds of bgolly's best run of three."""
    times = []
    for _ in range(3):
        begin = time.monotonic()
        subprocess.run(["bgolly", "-a", "HashLife", "-q", "-q", "-m", str(generations), "-2", path], check=True, stdout=subprocess.DEVNULL)
        times.append(time.monotonic() - begin)
    return min(times)


def main():
    with tempfile.TemporaryDirectory() as folder:
        program = build(folder)
        for path, generations in LEAPS:
            if not os.path.exists(path):
                continue
            told = best(program, path, generations)
            beside = f", bgolly {golly(path, generations) * 1000:.0f} ms" if shutil.which("bgolly") else ""
            print(f"{os.path.basename(path)} by {generations}: {int(told['leap']) / 1000:.1f} ms, {told['nodes']} squares, {told['live']} live cells{beside}")
        for width, height, generations in SOUPS:
            told = best(program, width, height, generations)
            print(f"soup of {width} by {height} by {generations}: {int(told['leap']) / 1000:.1f} ms, {told['nodes']} squares, {told['live']} live cells")


if __name__ == "__main__":
    main()
