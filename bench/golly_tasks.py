"""What bench/golly.py times: soups, patterns of this repository and of Golly, and rule tables."""
import itertools
import random
from dataclasses import dataclass

from naive import cells_and_rule, folded

TABLES, MORE_TABLES = "examples/tables", "tests/files/tables"

# How far beside a soup a pattern is.
GAP = 60


@dataclass(frozen=True)
class Soup:
    """A random square of cells, where it lies, which part of them is live, and the pattern in the east of it, if there is one."""

    side: int
    rule: str = "B3/S23"
    corner: int = 0
    live: float = 0.5
    beside: str = None

    def rows(self):
        """The tags of each row."""
        chance, tags, others = random.Random(self.side), ".A" if self.rule.count("/") == 2 else "bo", {}
        if self.beside:
            with open(self.beside, encoding="ascii") as file:
                others = cells_and_rule(file.read())[0]
        wide = max((x + 1 for x, _ in others), default=-GAP) + GAP
        for y in range(self.side):
            row = chance.choices(tags, (1 - self.live, self.live), k=self.side)
            yield row + [tags[(x - GAP, y) in others] for x in range(wide)]

    def write(self, path, lower):
        """Writes it as RLE, `lower` rows further down."""
        with open(path, "w", encoding="ascii") as file:
            file.write(f"#CXRLE Pos={self.corner},{self.corner + lower}\nx = {self.side}, y = {self.side}, rule = {self.rule}\n")
            for row in self.rows():
                runs = ((tag, len([*run])) for tag, run in itertools.groupby(row))
                items = [f"{count if count > 1 else ''}{tag}" for tag, count in runs]
                file.write(f"{folded([*items, '$'])}\n")
            file.write("!\n")


@dataclass(frozen=True)
class Task:
    """A claim about a pattern, and the generations that it takes bgolly: `becomes`, where no other claim is given. Paths that aren't of this repository are
    below Golly's folder of patterns. `quick` are those that QuickLife does in some minutes."""

    name: str
    pattern: object
    generations: int
    rule: str = None
    claim: str = None
    verdict: str = "yes"
    quick: bool = False

    def folder(self):
        """A name for its files."""
        return "".join(it if it.isalnum() else "_" for it in self.name)


def soups():
    """Soups, beginning with small ones and few generations."""
    sizes = ((200, (1000, 4000, 8000, 131072)), (500, (1000, 4000, 8000, 131072)), (1000, (1000, 4000, 8000)), (2000, (1000, 4000)))
    for side, many in sizes:
        for count in many:
            yield Task(f"soup of {side}, {count}", Soup(side), count, quick=True)
    for count in (1000, 4000):
        yield Task(f"far soup of 500, {count}", Soup(500, corner=1 << 58), count)
    for rule in ("B36/S23", "B3678/S34678"):
        yield Task(f"soup of 500, {rule}, 1000", Soup(500, rule), 1000, quick=True)
    for rule in ("B13/S012V", "B2/S013V", "B23/S23V", "B2/S2H", "B24/S34H"):
        yield Task(f"soup of 300, {rule}, 1000", Soup(300, rule), 1000, quick=True)
    yield Task("gun beside a soup, 10000", Soup(200, beside="examples/gun.rle"), 10000, quick=True)
    for rule in ("23/3/8", "345/2/4", "/2/3", "345/2/16"):
        yield Task(f"soup of 200, {rule}, 1000", Soup(200, rule, live=0.375), 1000)


TASKS = (
    *soups(),
    Task("r-pentomino, 4096", "examples/r_pentomino.rle", 4096, quick=True),
    Task("r-pentomino, 2^20", "examples/r_pentomino.rle", 1 << 20),
    Task("gun, 2^40", "examples/gun.rle", 1 << 40),
    Task("glider, 2^60", "examples/glider.rle", 1 << 60),
    Task("puffer train, 2^20", "Life/Puffers/puffer-train.rle", 1 << 20),
    Task("puffer train, 8000", "Life/Puffers/puffer-train.rle", 8000, quick=True),
    Task("c/4 puffer, 8000", "Life/Puffers/c4-diagonal-puffer.rle", 8000, quick=True),
    Task("line puffer, 8000", "Life/Puffers/line-puffer-unstable.rle", 8000, quick=True),
    Task("wickstretcher, 8000", "Life/Puffers/zigzag-wickstretcher.rle", 8000, quick=True),
    Task("breeder, 2^30", "Life/Breeders/breeder.lif", 1 << 30),
    Task("LWSS breeder, 2^30", "Life/Breeders/LWSS-breeder.rle", 1 << 30),
    Task("ruler, 2^40", "HashLife/ruler.mc", 1 << 40),
    Task("nick-gotts-1, 2^20", "HashLife/nick-gotts-1.mc", 1 << 20),
    Task("Turing machine, 16384", "Life/Signal-Circuitry/Turing-Machine-3-state.rle", 16384, quick=True),
    Task("golly-ticker, 100000", "Life/Guns/golly-ticker.rle", 100000, quick=True),
    Task("enterprise gun, 100000", "Life-Like/Morley/enterprise-gun.rle", 100000, quick=True),
    Task("worm 1042015, 30000", "Patersons-Worms/worm-1042015.rle", 30000, rule="../Rules/Worm-1042015.rule"),
    Task("worm 1525115, 30000", "Patersons-Worms/worm-1525115.rle", 30000, rule="../Rules/Worm-1525115.rule"),
    Task("Langton's loop, 10000", f"{MORE_TABLES}/langtons_loop.rle", 10000, rule=f"{MORE_TABLES}/langtons_loop.rule"),
    Task("Langton's loops, 10000", "Loops/Langtons-Loops.rle", 10000, rule="../Rules/Langtons-Loops.rule"),
    Task("WireWorld primes, 10000", "WireWorld/primes.mc", 10000, rule=f"{TABLES}/wireworld.rule"),
    Task("full square, still", "examples/macrocell/full_square.mc", 1, claim="still a", verdict="no, cells differ after 1"),
    Task("period 57960", "examples/period_57960.rle", 57960, claim="oscillator a 57960"),
    Task("cycles, 223092870", f"{TABLES}/cycles.rle", 223092870, rule=f"{TABLES}/cycles.rule", claim="oscillator a 223092870"),
    Task("spaceship, 162 x 2^24", "tests/files/period_162_ship.rle", 162 << 24, claim=f"spaceship a {162 << 24} 0 {-10 << 24}",
         verdict="no, the same after 162, shifted by 0,-10"),
)

# The sides of soups that are read and written.
LARGE = (1000, 3800)
