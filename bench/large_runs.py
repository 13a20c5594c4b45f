#!/usr/bin/env python3
"""Times the built program on long runs of large patterns of Golly's, for which HashLife is made, by the defaults and with little room, beside `bgolly`'s HashLife with two
bounds of memory.

Run it at the root of the repository: python3 bench/large_runs.py [--program PATH] [--golly BGOLLY] [--patterns FOLDER] [--only WORD] [--limit SECONDS]
It prints a table: for each run the seconds of a processor in user and in system mode and the greatest memory in MiB of one run, and the sums of ours beside those of
bgolly's, by the defaults with the larger memory, and with little room with the smaller one. A run that takes longer than the limit is ended: `-`. `show --after` reaches
the plane, and counts its cells; bgolly only reaches it.
"""
import argparse
import os
import tempfile

from beside_golly import golly_words, run, unpacked

PROGRAM = os.path.abspath("crates/cafile/out/cafile")
PATTERNS = "/usr/share/golly/Patterns"

# How many MiB bgolly has to keep to, and the words that ask about the same of the program.
MEMORIES = ((4000, []), (230, ["--max-memory", "230"]))

# A name, a pattern's path below Golly's folder, and how many generations it is run.
TASKS = (
    ("mosquito5, 2^22", "HashLife/mosquito5.mc", 1 << 22),
    ("puzzle, 2^26", "HashLife/puzzle.mc", 1 << 26),
    ("linear propagator, 2^22", "HashLife/linear-propagator-p237228340.mc.gz", 1 << 22),
    ("jagged, 2^22", "HashLife/jagged.mc", 1 << 22),
    ("broken-lines, 2^22", "HashLife/broken-lines.mc", 1 << 22),
    ("hexadecimal, 2^18", "HashLife/hexadecimal.mc.gz", 1 << 18),
    ("metapixel-p216-gun, 2^22", "HashLife/metapixel-p216-gun.mc.gz", 1 << 22),
    ("loafer gun, 2^21", "HashLife/loafer-gun-p8388608-linear.mc.gz", 1 << 21),
    ("line puffer, 2^17", "Life/Puffers/line-puffer-unstable.rle", 1 << 17),
    ("hexadecimal, 2^20", "HashLife/hexadecimal.mc.gz", 1 << 20),
    ("puzzle, 2^30", "HashLife/puzzle.mc", 1 << 30),
    ("loafer gun, 2^23", "HashLife/loafer-gun-p8388608-linear.mc.gz", 1 << 23),
    ("demonoid, 2^28", "HashLife/demonoid-c512-hashlife-friendly.mc.gz", 1 << 28),
    ("linear propagator, 2^25", "HashLife/linear-propagator-p237228340.mc.gz", 1 << 25),
)


def told(ran):
    """What the table has of a run."""
    return "- |  | " if ran.stopped else f"{ran.seconds:.2f} | {ran.system:.2f} | {ran.memory >> 10}"


def ratio(ours, other):
    """Our seconds beside those of another run."""
    return "" if ours.stopped or other.stopped else f"{(ours.seconds + ours.system) / (other.seconds + other.system):.2f}"


def main():
    parser = argparse.ArgumentParser(description=__doc__.split("\n\n", maxsplit=1)[0])
    parser.add_argument("--program", default=PROGRAM, help="the program to time")
    parser.add_argument("--golly", default="bgolly", help="Golly's command line")
    parser.add_argument("--patterns", default=PATTERNS, help="the folder of Golly's patterns")
    parser.add_argument("--only", default="", help="only the tasks whose name has this word")
    parser.add_argument("--limit", type=int, default=200, help="seconds of a processor after which a run is ended")
    words = parser.parse_args()
    print(f"{os.cpu_count()} processors, of which {os.getloadavg()[0]:.1f} are busy\n")
    print("| Run |", *(f"{' '.join(['cafile', *more])} | system | MiB | HashLife, {memory} | system | MiB | Ratio |" for memory, more in MEMORIES))
    print("|---|" + "---|---|---|---|---|---|---|" * len(MEMORIES))
    with tempfile.TemporaryDirectory() as room:
        for name, path, generations in TASKS:
            if words.only not in name:
                continue
            pattern = unpacked(os.path.join(words.patterns, path), room)
            cells = []
            for memory, more in MEMORIES:
                ours = run([words.program, "show", pattern, "--after", str(generations), *more], words.limit)
                other = run(golly_words(words.golly, pattern, generations, ["-a", "HashLife"], memory=memory), words.limit)
                cells.append(f"{told(ours)} | {told(other)} | {ratio(ours, other)} |")
            print(f"| {name} |", *cells, flush=True)
    print(f"\n{os.cpu_count()} processors, of which {os.getloadavg()[0]:.1f} are busy")


main()
