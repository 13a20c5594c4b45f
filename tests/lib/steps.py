"""Naive steppers, apart from the program and from each other. `step` asks a rule for the next state of each cell, by the states of its neighbours one for one;
`next_live` and `aged` count for each live cell the places round it. tests/lib/rows.py steps rows of many cells at once, in a third way."""
import re
from collections import Counter

from lib.rule_table import RINGS

NEIGHBOURHOODS = {"": "Moore", "V": "vonNeumann", "H": "hexagonal"}


class Counting:
    """A B/S rule."""

    states = 2

    def __init__(self, text):
        birth, survival, suffix = re.fullmatch(r"[Bb](\d*)/[Ss](\d*)([VHvh]?)", text).groups()
        self.name, self.ring = text, RINGS[NEIGHBOURHOODS[suffix.upper()]]
        self.live_next = {(state, int(count)) for state, digits in ((0, birth), (1, survival)) for count in digits}

    def next(self, centre, ring):
        """The next state of a cell with these neighbours."""
        return int((centre, sum(ring)) in self.live_next)


class Aging:
    """A Generations rule: survival digits, birth digits, and the number of states."""

    ring = RINGS["Moore"]

    def __init__(self, text):
        survival, birth, states = re.fullmatch(r"([0-8]*)/([0-8]*)/(\d+)", text).groups()
        self.survival, self.birth, self.states = {int(it) for it in survival}, {int(it) for it in birth}, int(states)
        self.name = "/".join(["".join(map(str, sorted(it))) for it in (self.survival, self.birth)] + [str(self.states)])

    def next(self, centre, ring):
        """The next state of a cell with these neighbours, of which those of state 1 are counted."""
        count = ring.count(1)
        if centre == 0:
            return int(count in self.birth)
        if centre == 1 and count in self.survival:
            return 1
        return (centre + 1) % self.states


def rule_of(text):
    """The rule that a text names."""
    return Aging(text) if text.count("/") == 2 else Counting(text)


def step(cells, rule):
    """The cells one generation later."""
    places = {(x - dx, y - dy) for x, y in cells for dx, dy in ((0, 0), *rule.ring)}
    following = {(x, y): rule.next(cells.get((x, y), 0), tuple(cells.get((x + dx, y + dy), 0) for dx, dy in rule.ring)) for x, y in places}
    return {place: state for place, state in following.items() if state}


def steps(cells, rule, generations, stepped=step):
    """The cells after these generations, each made by this stepper."""
    for _ in range(generations):
        cells = stepped(cells, rule)
    return cells


# The places round a cell, as steps from it.
ROUND = tuple((x, y) for x in (-1, 0, 1) for y in (-1, 0, 1) if x or y)


def counts(live):
    """How many of the live cells each place has round it, but for places that have none."""
    return Counter((x + dx, y + dy) for x, y in live for dx, dy in ROUND)


def next_live(live, birth, survival):
    """The live cells one generation later, under a B/S rule that counts eight neighbours."""
    around = counts(live)
    return frozenset(place for place in {*around, *live} if around[place] in (survival if place in live else birth))


def aged(cells, rule):
    """The cells one generation later under a Generations rule: each live cell is counted, then each cell ages, and then cells are born."""
    around = counts(place for place, state in cells.items() if state == 1)
    later = {place: 1 if state == 1 and around[place] in rule.survival else state + 1 for place, state in cells.items()}
    later |= {place: 1 for place, count in around.items() if place not in cells and count in rule.birth}
    return {place: state for place, state in later.items() if state < rule.states}


def drifted(cells, later, times):
    """The cells after `times` times four generations, where `later` has those after four: each group of neighbours is there again, or is a glider, which is one
    place further, and none meets another."""
    ways, end, left = [(0, 0), (1, 1), (1, -1), (-1, 1), (-1, -1)], set(), set(cells)
    while left:
        group = found = {left.pop()}
        while found:
            found = {(x + i, y + j) for x, y in found for i in (-1, 0, 1) for j in (-1, 0, 1)} & left
            left, group = left - found, group | found
        east, south = next(way for way in ways if {(x + way[0], y + way[1]) for x, y in group} <= later)
        end |= {(x + times * east, y + times * south) for x, y in group}
    return end
