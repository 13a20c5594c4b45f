"""What `census --into` prints and writes of planes whose objects are known, put together as docs/CLAIMS.md says: apart from the program."""
import os
import re
from collections import Counter
from dataclasses import dataclass, field

from lib import census
from lib.census import counted_word
from lib.program import contents, escaped
from lib.rle import tidy

# What a claim says of an object, by the letter of its code.
SAID = {"s": "still", "p": "oscillator", "q": "spaceship"}

# The words of lists for the words of claims.
KINDS = {"still": "still life"}


@dataclass(frozen=True)
class Object:
    """An object of a settled plane: its cells with their states, the words of its claim before and behind its name, and its code where its rule has codes."""

    cells: dict
    said: str
    numbers: str = ""
    code: str = ""

    def corner(self):
        """The upper left corner of its box, the row first."""
        return min(y for _, y in self.cells), min(x for x, _ in self.cells)

    def claim(self, name):
        """The claim on it under this name."""
        return f"{self.said} {name}{self.numbers}"

    def kind(self):
        """What a list says of it."""
        return KINDS.get(self.said, self.said) + self.numbers

    def label(self):
        """What it is counted by."""
        return self.code or f"{self.kind()} of {counted_word(len(self.cells), 'cell')}"

    def moved(self, x, y):
        """The same at another place."""
        return Object({(u + x, v + y): state for (u, v), state in self.cells.items()}, self.said, self.numbers, self.code)


def found_object(part):
    """An object that tests/lib/census.py found."""
    phases, x, y = part
    kind = census.kind_of(part)
    numbers = {"s": "", "p": f" {len(phases)}", "q": f" {len(phases)} {x} {y}"}[kind]
    return Object(dict.fromkeys(phases[0], 1), SAID[kind], numbers, census.code_of(part))


def object_lines(folder, name, number, it):
    """The lines of a claim text on an object."""
    own = f"{name}-{number}"
    code = [f"# {escaped(own.encode()).decode()}: {it.code}"] if it.code else []
    return [f"load {own} {folder}/{own}.rle", it.claim(own), *code]


@dataclass(frozen=True)
class Settled:
    """A file whose plane settles: its path, its name, its objects in their places then, after how many generations it is settled and after how many it is
    looked for first, its rule with the number of its states, the pattern's generation, and the rule files that are read."""

    path: str
    name: str
    objects: list
    first: int = 0
    start: int = 0
    rule: str = "B3/S23"
    states: int = 2
    generation: int = 0
    rules: list = field(default_factory=list)

    def placed(self):
        """The objects in the order of their places."""
        return sorted(self.objects, key=Object.corner)

    def head(self):
        """The first line that is printed."""
        after = f" after {counted_word(self.start, 'generation')}" if self.start else ""
        cells = sum(len(it.cells) for it in self.objects)
        return f"# {escaped(self.name.encode()).decode()}{after}: settles after {counted_word(self.first, 'generation')}: " \
               f"{counted_word(len(self.objects), 'object')}, {counted_word(cells, 'cell')}"

    def counts(self):
        """What is printed."""
        counted = Counter(it.label() for it in self.objects)
        lines = [f"{count} {label}" for label, count in sorted(counted.items(), key=lambda it: (-it[1], it[0]))]
        return "".join(it + "\n" for it in (self.head(), *lines)).encode()

    def listed(self):
        """What is printed with `--list`."""
        lines = [f"{it.code} {it.kind()}".strip() + " at {1},{0}: ".format(*it.corner()) + counted_word(len(it.cells), "cell") for it in self.placed()]
        return "".join(it + "\n" for it in (self.head(), *lines)).encode()

    def tidy(self, cells):
        """The file of these cells."""
        return tidy(cells, self.rule, self.generation + self.start + self.first, self.states)

    def claims(self, folder):
        """The claim text."""
        settled = f"{self.name}-settled"
        lines = ["claims 2", *(f"rule {it}" for it in self.rules), f"load {self.name} {self.path}", f"load {settled} {folder}/{settled}.rle",
                 f"becomes {self.name} {self.start + self.first} {settled}"]
        for number, it in enumerate(self.placed(), 1):
            lines += object_lines(folder, self.name, number, it)
        return "".join(it + "\n" for it in lines).encode()

    def files(self, folder):
        """All files that are written into a folder, by their names."""
        each = {f"{self.name}-{number}.rle": self.tidy(it.cells) for number, it in enumerate(self.placed(), 1)}
        whole = {place: state for it in self.objects for place, state in it.cells.items()}
        return {**each, f"{self.name}-settled.rle": self.tidy(whole), f"{self.name}.claims": self.claims(folder)}


def contents_of(folder):
    """The bytes of all files of a folder by their names, None where it isn't there; what is no file itself has its kind in their place."""
    if not os.path.isdir(folder):
        return None
    found = {}
    for name in os.listdir(folder):
        path = os.path.join(folder, name)
        found[name] = f"a link to {os.readlink(path)}" if os.path.islink(path) else contents(path) if os.path.isfile(path) else "no file"
    return found


def yes_lines(text):
    """What `verify` prints of a claim text of which all is true."""
    claims = [at for at, line in enumerate(text.decode().split("\n"), 1) if re.match(r"(still|oscillator|spaceship|becomes|dies) ", line)]
    return "".join(f"line {at}: yes\n" for at in claims).encode()
