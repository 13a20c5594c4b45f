#!/usr/bin/env python3
"""Times the built program with memos of several sizes, on patterns of Golly's that leaps take far, beside Golly's HashLife.

Run it at the root of the repository: python3 bench/memo.py [--program PATH] [--golly PATH] [--patterns FOLDER] [--only WORD] [--limit SECONDS]
It prints a table: for each pattern and each size the seconds of a processor in user mode and the greatest memory in MiB of one run. The claim is that the pattern
becomes itself, which is false, so that all its generations are computed and nothing else is. A run that takes longer than the limit is ended: `-`.
"""
import argparse
import os
import tempfile

from beside_golly import golly_words, run, unpacked

PROGRAM = os.path.abspath("crates/cafile/out/cafile")
PATTERNS = "/usr/share/golly/Patterns"

# How many entries the memo has.
SIZES = (1024, 16384, 65536, 262144, 1048576, 16777216)

# A name, a pattern's path below Golly's folder, and how many generations it is run.
TASKS = (
    ("LWSS breeder, 2^30", "Life/Breeders/LWSS-breeder.rle", 1 << 30),
    ("ruler, 2^40", "HashLife/ruler.mc", 1 << 40),
    ("nick-gotts-1, 2^20", "HashLife/nick-gotts-1.mc", 1 << 20),
    ("mosquito5, 2^16", "HashLife/mosquito5.mc", 1 << 16),
    ("Turing machine, 16384", "Life/Signal-Circuitry/Turing-Machine-3-state.rle", 16384),
    ("golly-ticker, 100000", "Life/Guns/golly-ticker.rle", 100000),
    ("hexadecimal, 2^16", "HashLife/hexadecimal.mc.gz", 1 << 16),
    ("p216 gun, 2^20", "HashLife/metapixel-p216-gun.mc.gz", 1 << 20),
    ("loafer gun, 2^16", "HashLife/loafer-gun-p8388608-linear.mc.gz", 1 << 16),
)


def told(ran):
    """What the table has of a run."""
    return " | ".join(["-", ""] if ran.stopped else [f"{ran.seconds:.2f}", str(ran.memory >> 10)])


def main():
    parser = argparse.ArgumentParser(description=__doc__.split("\n\n", maxsplit=1)[0])
    parser.add_argument("--program", default=PROGRAM, help="the program to time")
    parser.add_argument("--golly", default="bgolly", help="Golly's command line")
    parser.add_argument("--patterns", default=PATTERNS, help="the folder of Golly's patterns")
    parser.add_argument("--only", default="", help="only the tasks whose name has this word")
    parser.add_argument("--limit", type=int, default=60, help="seconds of a processor after which a run is ended")
    words = parser.parse_args()
    print("| Task | HashLife | MiB |", *(f"{size} | MiB |" for size in SIZES))
    print("|---|" + "---|---|" * (1 + len(SIZES)))
    with tempfile.TemporaryDirectory() as room:
        for name, path, generations in TASKS:
            if words.only not in name:
                continue
            pattern = unpacked(os.path.join(words.patterns, path), room)
            claims = os.path.join(room, "claims")
            with open(claims, "w", encoding="ascii") as file:
                file.write(f"load p {pattern}\nbecomes p {generations} p\n")
            commands = [golly_words(words.golly, pattern, generations, ["-a", "HashLife"]), *([words.program, "verify", "--memo", str(size), claims] for size in SIZES)]
            print(f"| {name} |", *(f"{told(run(command, words.limit))} |" for command in commands), flush=True)


main()
