#!/usr/bin/env python3
"""Times the built program: on a random soup of 1000 by 1000 with three of eight cells live, on one of 16 MB, on the most live cells that are read, and on
long runs of small patterns.

Run it at the root of the repository: python3 bench/soup.py
It prints a line for each run: seconds of wall clock (the best of three), and the greatest memory of a run.
"""
import os
import random
import subprocess
import sys
import tempfile
import time

from naive import folded, items_of

PROGRAM = os.path.abspath("crates/cafile/out/cafile")


def write_soup(width, height, path):
    """Writes a random soup in RLE, with lines of at most 70 characters, and a second file that ends in a faulty item."""
    random.seed(width)
    rows = ["".join(random.choices("ob", (3, 5), k=width)).rstrip("b") for _ in range(height)]
    text = f"x = {width}, y = {height}, rule = B3/S23\n" + folded(items_of("$".join(rows) + "!")) + "\n"
    for name, content in ((path, text), (path + ".bad", text.replace("!", "z"))):
        with open(name, "w", encoding="ascii") as file:
            file.write(content)
    print(sum(row.count("o") for row in rows))


def run(folder, claims):
    """Seconds, the peak of memory in KiB, and the output of one run over a claim text."""
    path = os.path.join(folder, "text.claims")
    with open(path, "w", encoding="ascii") as file:
        file.write(claims)
    begin = time.monotonic()
    child = subprocess.Popen([PROGRAM, "verify", path], stdout=subprocess.PIPE)
    output = child.stdout.read().decode().strip()
    _, status, usage = os.wait4(child.pid, 0)
    child.returncode = os.waitstatus_to_exitcode(status)
    return time.monotonic() - begin, usage.ru_maxrss, output


def report(folder, name, claims):
    """Runs three times, prints the best, and gives its seconds."""
    results = [run(folder, claims) for _ in range(3)]
    seconds, memory = min(r[0] for r in results), max(r[1] for r in results)
    print(f"{name}: {seconds:.3f} s, {memory // 1024} MiB, {results[0][2]}", flush=True)
    return seconds


def time_soup(folder, width, height):
    """Times reading, and stepping, a soup."""
    soup = os.path.join(folder, "soup.rle")
    # a process of its own makes it, since the memory of a run is counted from that of the process that starts it
    made = subprocess.run([sys.executable, __file__, str(width), str(height), soup], stdout=subprocess.PIPE, check=True)
    live, megabytes = int(made.stdout), os.path.getsize(soup) / 1e6
    print(f"soup of {width} by {height}: {megabytes:.2f} MB, {live} live cells")
    judged = report(folder, "  judged alone", f"load s {soup}.bad\nstill s\n")
    print(f"    {megabytes / judged:.0f} MB/s")
    # `becomes s 0 s` reads the file, once for both names, and compares the plane with itself
    read = report(folder, "  read", f"load s {soup}\nbecomes s 0 s\n")
    print(f"    {megabytes / read:.1f} MB/s, {read / live * 1e9:.0f} ns a live cell")
    still = report(folder, "  still", f"load s {soup}\nstill s\n")
    five = report(folder, "  after 5", f"load s {soup}\nbecomes s 5 s\n")
    step = (five - read) / 5
    print(f"    five steps: {step:.3f} s each, {live / step / 1e6:.1f} million live cells a second; read and stepped once: {still:.3f} s")


def time_most_cells(folder):
    """Times reading a row of as many live cells as are read."""
    path = os.path.join(folder, "row.rle")
    with open(path, "w", encoding="ascii") as file:
        file.write("x = 16777216, y = 1, rule = B3/S23\n16777216o!\n")
    block = os.path.abspath("examples/block.rle")
    report(folder, "16777216o!, read", f"load row {path}\nload block {block}\nbecomes row 0 block\n")


def main():
    if not os.access(PROGRAM, os.X_OK):
        print("build the program first: ./cafile --help", file=sys.stderr)
        return 2
    with tempfile.TemporaryDirectory() as folder:
        time_soup(folder, 1000, 1000)
        time_soup(folder, 4000, 4000 * 16 // 11)
        time_most_cells(folder)
        for name, claim in (
            ("examples/r_pentomino.rle", "becomes p 1103 p"),
            ("tests/files/queen_bee_shuttle.rle", "oscillator p 30"),
            ("tests/files/copperhead.rle", "spaceship p 10 0 -1"),
            ("tests/files/period_840.rle", "oscillator p 840"),
            ("tests/files/period_162_ship.rle", "spaceship p 162 0 -10"),
            ("examples/blinker.rle", "becomes p 100000 p"),
        ):
            report(folder, f"{os.path.basename(name)[:-4]}, {claim}", f"load p {os.path.abspath(name)}\n{claim}\n")
    return 0


if __name__ == "__main__":
    if len(sys.argv) == 4:
        write_soup(int(sys.argv[1]), int(sys.argv[2]), sys.argv[3])
    else:
        sys.exit(main())
