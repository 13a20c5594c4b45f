#!/usr/bin/env python3
"""Times the built program on `spaceship` and `becomes` claims about many gliders, one in each square of 16 by 16 cells: all alike, or each at a random place and
of a random phase, so that hardly two large squares are alike.

Run it at the root of the repository: python3 bench/gliders.py [PROGRAM]
It prints a line for each run: seconds of a processor (the best of three), and the greatest memory of a run. Where the program doesn't know claims that begin with
`claims 2`, the shifted `becomes` is a fault.
"""
import os
import random
import subprocess
import sys
import tempfile

PROGRAM = os.path.abspath(sys.argv[1] if len(sys.argv) == 2 else "crates/cafile/out/cafile")

# The phases of a glider that goes down and to the right, each as its rows' columns.
PHASES = (
    ((1,), (2,), (0, 1, 2)),
    ((0, 2), (1, 2), (1,)),
    ((2,), (0, 2), (1, 2)),
    ((0,), (1, 2), (0, 1)),
)


def runs_of(columns):
    """The items of a row with these columns, and where they end."""
    items, at, begin = [], 0, 0
    while at < len(columns):
        end = at
        while end + 1 < len(columns) and columns[end + 1] == columns[end] + 1:
            end += 1
        for count, tag in ((columns[at] - begin, "b"), (end - at + 1, "o")):
            if count:
                items.append(tag if count == 1 else f"{count}{tag}")
        begin, at = columns[end] + 1, end + 1
    return items


def write_gliders(side, reach, path):
    """Writes an RLE of as many gliders across and down, each moved by less than this, and of a random phase unless it's 1."""
    random.seed(side)
    with open(path, "w", encoding="ascii") as file:
        file.write("x = 0, y = 0, rule = B3/S23\n")
        for _ in range(side):
            rows = [[] for _ in range(16)]
            for x in range(side):
                left, top, phase = 16 * x + random.randrange(reach), random.randrange(reach), random.choice(PHASES[:reach])
                for y, columns in enumerate(phase):
                    rows[top + y].extend(left + it for it in columns)
            line = ""
            for row in rows:
                for item in [*runs_of(sorted(row)), "$"]:
                    if len(line) + len(item) > 70:
                        file.write(line + "\n")
                        line = ""
                    line += item
            file.write(line + "\n")
        file.write("!\n")


def run(folder, claims):
    """Seconds of a processor, the peak of memory in KiB, and the last line of output of one run over a claim text."""
    path = os.path.join(folder, "text.claims")
    with open(path, "w", encoding="ascii") as file:
        file.write(claims)
    child = subprocess.Popen([PROGRAM, "verify", path], stdout=subprocess.PIPE, stderr=subprocess.DEVNULL)
    output = child.stdout.read().decode().strip()
    _, status, usage = os.wait4(child.pid, 0)
    child.returncode = os.waitstatus_to_exitcode(status)
    return usage.ru_utime + usage.ru_stime, usage.ru_maxrss, output


def report(folder, name, claims):
    """Runs three times, and prints the best."""
    results = [run(folder, claims) for _ in range(3)]
    print(f"{name}: {min(it[0] for it in results):.2f} s, {max(it[1] for it in results) // 1024} MiB, {results[0][2]}", flush=True)


def main():
    if not os.access(PROGRAM, os.X_OK):
        print("build the program first: ./cafile --help", file=sys.stderr)
        return 2
    with tempfile.TemporaryDirectory() as folder:
        for side, reach in ((1800, 1), (450, 8), (1800, 8)):
            path = os.path.join(folder, "gliders.rle")
            # a process of its own makes it, since the memory of a run is counted from that of the process that starts it
            subprocess.run([sys.executable, __file__, str(side), str(reach), path], check=True)
            macrocell = os.path.join(folder, "gliders.mc")
            with open(macrocell, "wb") as file:
                subprocess.run([PROGRAM, "convert", path, "--to", "mc"], stdout=file, check=True)
            print(f"{side * side} gliders{' alike' * (reach == 1)}, {5 * side * side} live cells, {os.path.getsize(path) / 1e6:.1f} MB of RLE, {os.path.getsize(macrocell) / 1e6:.1f} MB of macrocell")
            for name, file in (("RLE", path), ("macrocell", macrocell)):
                load = f"load g {file}\n"
                report(folder, f"  {name}, read", load + "becomes g 0 g\n")
                report(folder, f"  {name}, spaceship g 4 1 1", load + "spaceship g 4 1 1\n")
                report(folder, f"  {name}, becomes g 4 g shift 1 1", "claims 2\n" + load + "becomes g 4 g shift 1 1\n")
    return 0


if __name__ == "__main__":
    if len(sys.argv) == 4:
        write_gliders(int(sys.argv[1]), int(sys.argv[2]), sys.argv[3])
    else:
        sys.exit(main())
