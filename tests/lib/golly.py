"""What Golly makes of patterns: those of tests/leaps/, whose later planes are kept there, and others, where its command line is on the path."""
import shutil
import subprocess

# Where it is on the path (Debian's package golly), Golly's command line; else None.
BGOLLY = shutil.which("bgolly")

LEAPS, LOOP = "tests/leaps", "tests/files/tables/langtons_loop"

# Patterns, each with its rule file if it has one, and the generations after which Golly was asked for it.
AFTER = (
    ("r_pentomino", "examples/r_pentomino.rle", None, 1 << 20),
    ("acorn", f"{LEAPS}/acorn.rle", None, 1 << 13),
    ("switch_engine", f"{LEAPS}/switch_engine.rle", None, 1 << 17),
    ("gun", "examples/gun.rle", None, 1 << 20),
    ("replicator", f"{LEAPS}/replicator.rle", None, 1000000),
    ("copies", f"{LEAPS}/copies.rle", None, 524329),
    ("hexagonal", f"{LEAPS}/hexagonal.rle", None, 1000000),
    ("von_neumann", f"{LEAPS}/von_neumann.rle", None, 1 << 10),
    ("von_neumann_copies", f"{LEAPS}/von_neumann_copies.rle", None, 1000000),
    ("wires", f"{LEAPS}/wires.rle", "examples/tables/wireworld.rule", 1 << 20),
    ("langtons_loop", f"{LOOP}.rle", f"{LOOP}.rule", 1 << 10),
    ("rule_110", f"{LEAPS}/rule_110.rle", f"{LEAPS}/rule_110.rule", 1 << 11),
)


def save_aged(path, generations, output):
    """Saves what bgolly makes of a pattern under a Generations rule, as macrocell, which stands one row higher here than the pattern of an RLE."""
    words = [BGOLLY, "-q", "-q", "-a", "Generations", "-m", str(generations), "-o", output, path]
    subprocess.run(words, stdout=subprocess.DEVNULL, stderr=subprocess.DEVNULL, check=True)
