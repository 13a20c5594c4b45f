"""Long claim texts, of which each verdict is known."""
import itertools

BLOCK, BLINKER, EMPTY = "examples/block.rle", "examples/blinker.rle", "examples/empty.rle"

# The claims of a long text, each with its verdict.
CLAIMS = (
    ("still block", "yes"),
    ("still blinker", "no, cells differ after 1"),
    ("oscillator blinker 2", "yes"),
    ("oscillator block 2", "no, the same after 1, shifted by 0,0"),
    ("spaceship nothing 4 1 1", "no, empty"),
    ("becomes blinker 2 blinker", "yes"),
    ("still lost", "refused, no file"),
)

# The lines of a long claim text, and of one beyond 100000 lines.
LINES, MANY_LINES = 6000, 110000


def long_text(count=LINES):
    """The lines of a long claim text, and its verdicts with their lines."""
    lines = [f"load block {BLOCK}", f"load blinker {BLINKER}", f"load nothing {EMPTY}", "load lost examples/lost.rle"]
    verdicts = []
    while len(lines) < count:
        claim, verdict = CLAIMS[len(lines) % len(CLAIMS)]
        lines.append(claim)
        verdicts.append((len(lines), verdict))
        if len(lines) % 5 == 0:
            lines += ["", "# A comment."]
    return lines, verdicts


def spelled(path, count):
    """So many spellings of a path of the file system."""
    return ("".join(parts) + path for parts in itertools.islice(itertools.product(("./", ".//"), repeat=17), count))
