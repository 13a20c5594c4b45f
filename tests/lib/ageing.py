"""Planes under Generations rules, stepped naively and apart from the program: the live cells as those of a B/S rule are, on lib/rows.py's big numbers, and a set of
dying cells for each state, which is the next state's a generation later. Nothing here counts down."""
from dataclasses import dataclass

from lib import rows

# For how many generations a plane gets a margin of dead cells.
AT_A_TIME = 16


@dataclass(frozen=True)
class AgeingRule:
    """A rule of the family: its text, the B/S rule of the live cells, and how many states there are."""

    name: str
    counting: rows.Rule
    states: int

    @staticmethod
    def of(text):
        """The rule of a text."""
        survival, birth, states = text.split("/")
        return AgeingRule(text, rows.Rule.of(f"B{birth}/S{survival}"), int(states))


def table_of(rule, name):
    """A rule file of this name under which cells go as under a rule whose counts are of live cells."""
    others = [f"other_{place}" for place in range(8)]
    every = [f"any_{place}" for place in range(8)]
    lines = [f"@RULE {name}", "", "@TABLE", f"n_states:{rule.states}", "neighborhood:Moore", "symmetries:permute"]
    lines += [f"var {it}={{{','.join(str(state) for state in range(rule.states) if state != 1)}}}" for it in others]
    lines += [f"var {it}={{{','.join(str(state) for state in range(rule.states))}}}" for it in every]
    for state, counts in ((0, rule.counting.birth), (1, rule.counting.survival)):
        lines += [",".join([str(state), *["1"] * count, *others[count:], "1"]) for count in sorted(counts)]
    lines += [",".join([str(state), *every, str((state + 1) % rule.states)]) for state in range(1, rule.states)]
    return "\n".join(lines) + "\n"


def after(cells, rule, generations):
    """The cells that aren't dead after these generations, by their places."""
    while generations and cells:
        count = min(generations, AT_A_TIME)
        cells, generations = stepped(cells, rule, count), generations - count
    return cells


def stepped(cells, rule, generations):
    """The same for so few generations that little room is needed."""
    left, top = min(x for x, _ in cells) - generations - 1, min(y for _, y in cells) - generations - 1
    wide = max(x for x, _ in cells) - left + generations + 2
    high = max(y for _, y in cells) - top + generations + 2
    planes = [bytearray(b"0" * (wide * high)) for _ in range(rule.states)]
    for (x, y), state in cells.items():
        planes[state][-1 - ((y - top) * wide + x - left)] = ord("1")
    live, *dying = (int(bytes(plane), 2) for plane in planes[1:])
    ageing, every = sum(dying), (1 << (wide * high)) - 1
    for _ in range(generations):
        lives = rows.next_cells(live, wide, every, rule.counting)
        begun, last = live & (lives ^ every), dying[-1] if dying else 0
        live, dying = lives & (ageing ^ every), [begun, *dying][:rule.states - 2]
        ageing = (ageing ^ last | begun) if dying else 0
    found = {}
    for state, plane in enumerate((live, *dying), 1):
        places = f"{plane:b}"[::-1]
        at = places.find("1")
        while at >= 0:
            found[at % wide + left, at // wide + top] = state
            at = places.find("1", at + 1)
    return found
