"""Rule files and their tables, read and applied as docs/FORMATS.md says: naive, apart from the program, and the source of what tests expect of it."""
import functools
import itertools
import re
from dataclasses import dataclass

BLANKS = " \t\r"
NUMBER = "[0-9]+"
NAME = r"[^0-9 \t\r,{}=#:@][^ \t\r,{}=#:@]*"
SETTING = re.compile(r"(n_states|neighborhood|symmetries)[ \t\r]*:[ \t\r]*(.*)", re.DOTALL)
VARIABLE = re.compile(rf"var[ \t\r]+({NAME})[ \t\r]*=[ \t\r]*\{{(.*)\}}", re.DOTALL)

# The ring of each neighbourhood, in the order in which a transition names its cells, as steps from the centre; y grows downward.
RINGS = {
    "vonNeumann": ((0, -1), (1, 0), (0, 1), (-1, 0)),
    "Moore": ((0, -1), (1, -1), (1, 0), (1, 1), (0, 1), (-1, 1), (-1, 0), (-1, -1)),
    "hexagonal": ((0, -1), (1, 0), (1, 1), (0, 1), (-1, 0), (-1, -1)),
    "oneDimensional": ((-1, 0), (1, 0)),
}

# The symmetries of each neighbourhood: the positions from which orders go forward round the ring, and those from which they go back. `permute` has
# every order.
SYMMETRIES = {
    "vonNeumann": {
        "none": ((0,), ()),
        "rotate4": (range(4), ()),
        "rotate4reflect": (range(4), range(4)),
        "reflect_horizontal": ((0,), (0,)),
        "permute": None,
    },
    "Moore": {
        "none": ((0,), ()),
        "rotate4": ((0, 2, 4, 6), ()),
        "rotate4reflect": ((0, 2, 4, 6), (0, 2, 4, 6)),
        "reflect_horizontal": ((0,), (0,)),
        "rotate8": (range(8), ()),
        "rotate8reflect": (range(8), range(8)),
        "permute": None,
    },
    "hexagonal": {
        "none": ((0,), ()),
        "rotate2": ((0, 3), ()),
        "rotate3": ((0, 2, 4), ()),
        "rotate6": (range(6), ()),
        "rotate6reflect": (range(6), range(6)),
        "permute": None,
    },
    "oneDimensional": {
        "none": ((0,), ()),
        "reflect": ((0,), (1,)),
        "permute": None,
    },
}


class Fault(Exception):
    """What is wrong with a rule file: its kind, as it is printed, and its line."""

    def __init__(self, kind, line):
        super().__init__(f"line {line} {kind}")
        self.kind, self.line = kind, line


@dataclass(frozen=True)
class Variable:
    """A variable of a table, with the states that it may stand for."""

    name: str
    states: frozenset


@functools.cache
def orders(neighbourhood, symmetry):
    """The orders of a symmetry, but for `permute`: slot i of the ring takes the neighbour at position g[i]."""
    size = len(RINGS[neighbourhood])
    forward, back = SYMMETRIES[neighbourhood][symmetry]
    return tuple(sorted({tuple((s + i) % size for i in range(size)) for s in forward} | {tuple((s - i) % size for i in range(size)) for s in back}))


def fit(slots, cells):
    """The cell that each variable takes where slot by slot takes cell by cell; None where they don't fit."""
    taken = {}
    for slot, cell in zip(slots, cells):
        if isinstance(slot, int):
            if slot != cell:
                return None
        elif cell not in slot.states or taken.setdefault(slot, cell) != cell:
            return None
    return taken


class Table:
    """What a rule file says."""

    def __init__(self, name, states, neighbourhood, symmetry):
        self.name, self.states, self.neighbourhood, self.symmetry = name, states, neighbourhood, symmetry
        self.ring = RINGS[neighbourhood]
        self.variables = {}
        self.transitions = []
        self.known = {}

    def next(self, centre, ring):
        """The next state of a cell with these neighbours, which stand in the order of the ring."""
        key = (centre, ring)
        if key not in self.known:
            self.known[key] = self.find(centre, ring)
        return self.known[key]

    def arrangements(self, ring):
        """The neighbours as each order arranges them. The same arrangement under a later order is left out, since it fits no better."""
        if self.symmetry == "permute":
            every = itertools.permutations(ring)
        else:
            every = (tuple(ring[position] for position in g) for g in orders(self.neighbourhood, self.symmetry))
        return tuple(dict.fromkeys(every))

    def find(self, centre, ring):
        """What the first transition gives that fits under some order, by the first of these; else the cell stays."""
        arranged = self.arrangements(ring)
        for *slots, result in self.transitions:
            for cells in arranged:
                taken = fit(slots, (centre, *cells))
                if taken is not None:
                    return result if isinstance(result, int) else taken[result]
        return centre

    def slot(self, field, line):
        """What a field stands for: a state or a variable."""
        if re.fullmatch(NUMBER, field):
            if value(field) >= self.states:
                raise Fault("states", line)
            return value(field)
        if field not in self.variables:
            raise Fault("variable", line)
        return self.variables[field]

    def read_variable(self, text, line):
        """Reads the line of a variable, after which its name stands for these states."""
        spelled = VARIABLE.fullmatch(text)
        if not spelled:
            raise Fault("syntax", line)
        slots = [self.slot(field, line) for field in fields_between(spelled[2], line)]
        self.variables[spelled[1]] = Variable(spelled[1], frozenset().union(*({it} if isinstance(it, int) else it.states for it in slots)))

    def read_transition(self, text, line):
        """Reads a transition: the slots of the centre and the ring, and the result."""
        fields = fields_between(text if "," in text else ",".join(text), line, 2 + len(self.ring))
        slots = [self.slot(field, line) for field in fields]
        if isinstance(slots[-1], Variable) and slots[-1] not in slots[:-1]:
            raise Fault("unbound", line)
        self.transitions.append(slots)


def fields_between(text, line, count=None):
    """The fields between commas, without the blanks round them: numbers and names, `count` of them where one is given."""
    fields = [field.strip(BLANKS) for field in text.split(",")]
    if count not in (None, len(fields)) or not all(re.fullmatch(f"{NUMBER}|{NAME}", field) for field in fields):
        raise Fault("syntax", line)
    return fields


def value(digits):
    """The value of a number, or one as good as it: any of at least 1000 is too large."""
    return int(digits.lstrip("0")[:4] or "0")


def first_word(text):
    """The first word of a line that says something."""
    return re.split(f"[{BLANKS}]", text)[0]


def read_settings(lines, last):
    """The table that the settings call for, and the lines after them. The lines are (number, text); `last` is the line at which they end."""
    settings = {}
    while lines and (spelled := SETTING.fullmatch(lines[0][1])):
        if spelled[1] in settings:
            raise Fault("syntax", lines[0][0])
        settings[spelled[1]] = spelled[2]
        lines = lines[1:]
    end = lines[0][0] if lines else last
    states, neighbourhood, symmetry = (settings.get(it, "") for it in ("n_states", "neighborhood", "symmetries"))
    if not re.fullmatch(NUMBER, states) or not 2 <= value(states) <= 256:
        raise Fault("states", end)
    if neighbourhood not in RINGS:
        raise Fault("neighborhood", end)
    if symmetry not in SYMMETRIES[neighbourhood]:
        raise Fault("symmetries", end)
    return value(states), neighbourhood, symmetry, lines


def read_table(text):
    """The table of a rule file, given as one character a byte. Raises a Fault."""
    pieces = text.removesuffix("\n").split("\n")
    last = len(pieces)
    said = [(number, piece.split("#")[0].strip(BLANKS)) for number, piece in enumerate(pieces, 1)]
    said = [(number, piece) for number, piece in said if piece]
    words = re.split(f"[{BLANKS}]+", said[0][1]) if said else []
    if len(words) < 2 or words[0] != "@RULE":
        raise Fault("no rule line", said[0][0] if said else last)
    begin = next((at for at, (_, piece) in enumerate(said) if first_word(piece) == "@TABLE"), None)
    if begin is None:
        raise Fault("no table", last)
    end = next((at for at in range(begin + 1, len(said)) if said[at][1].startswith("@")), len(said))
    *settings, lines = read_settings(said[begin + 1 : end], said[end][0] if end < len(said) else last)
    table = Table(words[1], *settings)
    for line, piece in lines:
        if re.match(f"var[{BLANKS}]", piece):
            table.read_variable(piece, line)
        else:
            table.read_transition(piece, line)
    if table.next(0, (0,) * len(table.ring)) != 0:
        raise Fault("wakes", last)
    return table
