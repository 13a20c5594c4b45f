#!/usr/bin/env python3
"""Times the built program on texts that are made to take long or much memory, of some 60 MB each: what one who checks strangers' claims may be sent.

Run it at the root of the repository: python3 bench/hostile.py [--only WORD] [--megabytes N] [--space MIB]
It prints one table: seconds of a processor, the greatest memory, the exit status, and the last line that was printed. An address space of 2 GiB is all that a
run has, so what needs more is refused as out of memory.
"""
import argparse
import itertools
import os
import random
import resource
import subprocess
import tempfile

PROGRAM = os.path.abspath("crates/cafile/out/cafile")
EXAMPLES = os.path.abspath("examples")
HEADER = "x = 0, y = 0, rule = B3/S23\n"

# What a run may take, in seconds of a processor.
LIMIT = 100

# Cells of files lie from -FAR to FAR - 1.
FAR = 1 << 60

# The runs over claims: without limits, and with those within which each is to end in 10 seconds and 2 GiB.
CLAIMS = ("verify TEXT", "verify --work 1000000 TEXT")

TASKS = []


def task(name, *words):
    """Makes a task of what yields the pieces of a text: a row of the table for each of these runs, in which `TEXT` stands for the text's path, and `DOT`
    for that of one live cell under the rule Many."""
    def add(pieces):
        TASKS.append((name, pieces, [run.split() for run in words]))
        return pieces
    return add


def repeated(piece):
    """A piece again and again, in larger ones."""
    return itertools.repeat(piece * 1000)


@task("RLE of row ends", "show TEXT")
def row_ends(chance):
    yield HEADER
    yield from repeated("$" * 69 + "\n")


@task("RLE of dead runs", "show TEXT")
def dead_runs(chance):
    yield HEADER
    yield from repeated("2b3b" * 17 + "\n")


@task("RLE of comments", "show TEXT")
def comments(chance):
    yield from repeated("#C a comment\n#CXRLE Pos=0,0 Gen=1\n")


@task("RLE of blanks", "show TEXT")
def blanks(chance):
    yield HEADER + "o"
    yield from repeated(" " * 69 + "\n")


@task("RLE soup of 16.7 million cells", "show TEXT", "convert TEXT --to rle", "convert TEXT --to mc")
def soup(chance):
    yield HEADER
    for _ in range(16383):
        yield "".join(chance.choice(("2bo", "3bo", "bo2b")) for _ in range(1000)) + "$\n"


@task("RLE of cells far apart", "show TEXT", "convert TEXT --to rle", "convert TEXT --to mc")
def far_cells(chance):
    yield f"#CXRLE Pos={-FAR},{-FAR}\n" + HEADER
    while True:
        yield "".join(f"{chance.randrange(1, 1 << 40)}${chance.randrange(1, 1 << 60)}bo\n" for _ in range(1000))


def leaf(chance):
    """A line of 8 by 8 cells at random."""
    return "".join("".join(chance.choice(".*") for _ in range(7)) + "*$" for _ in range(8)) + "\n"


@task("macrocell of leaves", "show TEXT")
def leaves(chance):
    yield "[M2]\n"
    while True:
        yield "".join(leaf(chance) for _ in range(100))


@task("macrocell of one leaf", "show TEXT")
def one_leaf(chance):
    yield "[M2]\n"
    yield from repeated("*$\n")


@task("macrocell of chains to level 60", "show TEXT", "convert TEXT --to rle")
def chains(chance):
    yield "[M2]\n"
    for first in itertools.count(1, 58):
        lines = [leaf(chance)]
        for at in range(57):
            parts = ["0"] * 4
            parts[chance.randrange(4)] = str(first + at)
            lines.append(f"{at + 4} {' '.join(parts)}\n")
        yield "".join(lines)


@task("macrocell of alike nodes", "show TEXT")
def alike_nodes(chance):
    yield "[M2]\n" + "".join(leaf(chance) for _ in range(50))
    for parts in itertools.product(range(1, 51), repeat=3):
        yield "".join(f"4 {' '.join(map(str, parts))} {last}\n" for last in range(1, 51))


@task("claims on one pattern", *CLAIMS)
def claims(chance):
    yield f"load b {EXAMPLES}/block.rle\n"
    yield from repeated("still b\n")


@task("claims that are false", *CLAIMS)
def false_claims(chance):
    yield f"load g {EXAMPLES}/glider.rle\n"
    yield from repeated("oscillator g 3491888400\n")


@task("a period of many divisors, 18 times", *CLAIMS)
def divisors(chance):
    tables = f"{EXAMPLES}/tables/cycles"
    yield f"rule {tables}.rule\nload c {tables}.rle\noscillator c {18 * 223092870}\n"


@task("a soup by 2^60 generations", *CLAIMS)
def endless(chance):
    path = os.path.join(tempfile.gettempdir(), "hostile_soup.rle")
    write(path, soup(chance), 20000)
    yield f"load s {path}\nbecomes s {1 << 60} s\n"


@task("loads of one file", "verify TEXT")
def loads(chance):
    for first in itertools.count(0, 1000):
        yield "".join(f"load p{at} {EXAMPLES}/block.rle\n" for at in range(first, first + 1000))


@task("loads of no file", "verify TEXT")
def no_files(chance):
    for first in itertools.count(0, 1000):
        yield "".join(f"load p{at} missing/{at}\n" for at in range(first, first + 1000))


@task("rule file of transitions", "show --rule TEXT DOT")
def transitions(chance):
    yield "@RULE Many\n@TABLE\nn_states:256\nneighborhood:Moore\nsymmetries:permute\n"
    while True:
        yield "".join(",".join(str(chance.randrange(256)) for _ in range(10)) + "\n" for _ in range(1000))


@task("rule file of variables", "show --rule TEXT DOT")
def variables(chance):
    every = ",".join(str(state) for state in range(256))
    yield "@RULE Many\n@TABLE\nn_states:256\nneighborhood:vonNeumann\nsymmetries:none\n"
    for at in itertools.count():
        yield f"var v{at}={{{every}}}\n"


def write(path, pieces, size):
    """Writes pieces of a text until it has this size or there are none, and then the end of an RLE where it is one."""
    written, rle = 0, False
    with open(path, "w", encoding="ascii") as file:
        for piece in pieces:
            rle |= written == 0 and piece.endswith(HEADER)
            if written + len(piece) > size:
                break
            written += file.write(piece)
        if rle:
            file.write("o!\n")


def run(words, space):
    """Seconds of a processor, the peak of memory in KiB, the exit status, and the last line of what was printed."""
    def bound():
        resource.setrlimit(resource.RLIMIT_CPU, (LIMIT, LIMIT + 1))
        resource.setrlimit(resource.RLIMIT_AS, (space << 20, space << 20))

    with tempfile.TemporaryFile() as output:
        child = subprocess.Popen([PROGRAM, *words], stdin=subprocess.DEVNULL, stdout=output, stderr=output, preexec_fn=bound)
        _, status, usage = os.wait4(child.pid, 0)
        child.returncode = os.waitstatus_to_exitcode(status)
        output.seek(max(0, output.seek(0, os.SEEK_END) - 100))
        last = output.read().decode("latin-1").splitlines()[-1:]
    return usage.ru_utime + usage.ru_stime, usage.ru_maxrss, child.returncode, last[0][-40:] if last else ""


def main():
    words = argparse.ArgumentParser()
    words.add_argument("--only", default="")
    words.add_argument("--megabytes", type=int, default=60)
    words.add_argument("--space", type=int, default=2048)
    words = words.parse_args()
    print("| Text | Run | Seconds | MiB | Status | Last line |\n|---|---|---|---|---|---|")
    with tempfile.TemporaryDirectory() as folder:
        path, dot = (os.path.join(folder, name) for name in ("text", "dot.rle"))
        with open(dot, "w", encoding="ascii") as file:
            file.write("x = 1, y = 1, rule = Many\nA!\n")
        for name, pieces, runs in TASKS:
            if words.only not in name:
                continue
            write(path, pieces(random.Random(name)), words.megabytes * 1000000)
            for each in runs:
                seconds, memory, status, last = run([{"TEXT": path, "DOT": dot}.get(word, word) for word in each], words.space)
                print(f"| {name} | {' '.join(each).replace(' TEXT', '').replace(' DOT', '')} | {seconds:.2f} | {memory // 1024} | {status} | {last} |", flush=True)


if __name__ == "__main__":
    main()
