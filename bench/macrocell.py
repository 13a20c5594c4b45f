#!/usr/bin/env python3
"""Times the built program on macrocell files: random soups with three of eight cells live, shown and converted both ways, and the full square of level 61.

Run it at the root of the repository: python3 bench/macrocell.py
It prints a line for each run: seconds of wall clock (the best of three), and the greatest memory of a run.
"""
import os
import subprocess
import sys
import tempfile
import time

from soup import PROGRAM

SOUP = os.path.join(os.path.dirname(os.path.abspath(__file__)), "soup.py")


def run(words, output):
    """Seconds and the peak of memory in KiB of one run, whose standard output goes to this file."""
    with open(output, "wb") as file:
        begin = time.monotonic()
        child = subprocess.Popen([PROGRAM, *words], stdout=file)
        _, status, usage = os.wait4(child.pid, 0)
        seconds = time.monotonic() - begin
    child.returncode = os.waitstatus_to_exitcode(status)
    if child.returncode:
        raise SystemExit(f"{words} ended with status {child.returncode}")
    return seconds, usage.ru_maxrss


def report(name, words, output):
    """Runs three times, prints the best, and gives its seconds and the peak of memory in bytes."""
    results = [run(words, output) for _ in range(3)]
    seconds, memory = min(it[0] for it in results), max(it[1] for it in results)
    print(f"{name}: {seconds:.4f} s, {memory // 1024} MiB", flush=True)
    return seconds, memory * 1024


def time_soup(folder, width, height, base):
    """Times a soup in both formats. `base` is the memory of a run over a small file."""
    soup, tree, back, shown = (os.path.join(folder, name) for name in ("soup.rle", "soup.mc", "back.rle", "shown"))
    # a process of its own makes it, since the memory of a run is counted from that of the process that starts it
    made = subprocess.run([sys.executable, SOUP, str(width), str(height), soup], stdout=subprocess.PIPE, check=True)
    live, items = int(made.stdout), os.path.getsize(soup) / 1e6
    print(f"soup of {width} by {height}: {items:.2f} MB of RLE, {live} live cells")
    seconds, _ = report("  RLE to macrocell", ["convert", soup, "--to", "mc"], tree)
    megabytes = os.path.getsize(tree) / 1e6
    with open(tree, "rb") as file:
        nodes = sum(1 for _ in file) - 2
    print(f"    {megabytes:.2f} MB of macrocell, {nodes} nodes; {items / seconds:.1f} MB/s of RLE, {live / seconds / 1e6:.1f} million cells a second")
    seconds, memory = report("  show of the macrocell: read, and counted", ["show", tree], shown)
    print(f"    {megabytes / seconds:.1f} MB/s, {nodes / seconds / 1e6:.2f} million nodes a second, {(memory - base) / nodes:.0f} bytes a node")
    both, _ = report("  macrocell to macrocell: read, and written", ["convert", tree, "--to", "mc"], shown)
    print(f"    {(both - seconds) * 1000:.1f} ms more than show: {megabytes / max(both - seconds, 1e-9):.0f} MB/s written")
    seconds, _ = report("  macrocell to RLE", ["convert", tree, "--to", "rle"], back)
    print(f"    {live / seconds / 1e6:.1f} million cells a second")
    report("  show of the RLE", ["show", soup], shown)
    report("  RLE to RLE", ["convert", soup, "--to", "rle"], shown)


def main():
    if not os.access(PROGRAM, os.X_OK):
        print("build the program first: ./cafile --help", file=sys.stderr)
        return 2
    with tempfile.TemporaryDirectory() as folder:
        output = os.path.join(folder, "output")
        _, base = report("show, glider", ["show", "examples/macrocell/glider.mc"], output)
        for words in (["show"], ["convert", "--to", "mc"]):
            report(f"{words[0]}, full square of level 61", [words[0], "examples/macrocell/full_square.mc", *words[1:]], output)
        time_soup(folder, 1000, 1000, base)
        time_soup(folder, 4000, 4000, base)
    return 0


if __name__ == "__main__":
    sys.exit(main())
