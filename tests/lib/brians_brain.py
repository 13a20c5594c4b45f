"""Planes under Brian's Brain, `/2/3`, and beside it under other rules, and claims about them: computed by hand."""
import re

from lib.claim_text import differs
from lib.macrocell import EDGE

# Cells under it, at 0,0 where no place is given, computed by hand.
CELLS = {
    "dot": "A!", "rest": "B!", "nothing": "!", "pair": "2A!", "three": "C!",
    "pair_1": "#CXRLE Pos=0,-1\n2A$2B$2A!",
    "pair_1_wrong": "#CXRLE Pos=0,-1\n2A$2B$AB!",
    # the dying cells of pair_1 aren't counted at -1,0 and 2,0, nor born again at 0,0 and 1,0
    "pair_2": "#CXRLE Pos=-1,-2\n.2A$.2B$A2.A$.2B$.2A!",
    "ship": "2A$2B!",
    "far_ship": f"#CXRLE Pos=0,{-EDGE}\n2A$2B!",
    "wheel": "2.A$A2B$.2BA$.A!",
    "other_wheel": "2.A$A2B$.2BA$.B!",
}

# Claims about them, the verdicts, and the notes: on a cell where one alone differs.
CLAIMS = (
    ("still dot", differs(1), "dot at 0,0: 2 after 1 generation, claimed 1"),
    ("still rest", differs(1), "rest at 0,0: 0 after 1 generation, claimed 2"),
    ("still nothing", "no, empty", ""),
    ("oscillator nothing 3", "no, empty", ""),
    ("oscillator dot 2", differs(2), "dot at 0,0: 0 after 2 generations, claimed 1"),
    ("oscillator wheel 3", "yes", ""),
    ("oscillator wheel 6", "no, the same after 3, shifted by 0,0", ""),
    ("oscillator wheel 4294967295", "no, the same after 3, shifted by 0,0", ""),
    ("spaceship nothing 1 0 -1", "no, empty", ""),
    ("spaceship ship 1 0 -1", "yes", ""),
    ("spaceship ship 2 0 -2", "no, the same after 1, shifted by 0,-1", ""),
    ("spaceship ship 4294967295 0 -4294967295", "no, the same after 1, shifted by 0,-1", ""),
    ("spaceship dot 2 5 -7", differs(2), "dot at 5,-7: 0 after 2 generations, claimed 1"),
    ("spaceship wheel 3 1 0", differs(3), None),
    ("becomes dot 1 rest", "yes", ""),
    ("becomes dot 2 nothing", "yes", ""),
    ("becomes rest 1 nothing", "yes", ""),
    ("becomes dot 1 nothing", differs(1), "dot at 0,0: 2 after 1 generation, claimed 0"),
    ("becomes pair 1 pair_1", "yes", ""),
    ("becomes pair 1 pair_1_wrong", differs(1), "pair at 1,1: 1 after 1 generation, claimed 2"),
    ("becomes pair_1 1 pair_2", "yes", ""),
    ("becomes pair 2 pair_2", "yes", ""),
    (f"becomes ship {EDGE} far_ship", "yes", ""),
    (f"becomes wheel {EDGE - 1} wheel", "yes", ""),
    ("becomes wheel 300 other_wheel", differs(300), "wheel at 1,3: 1 after 300 generations, claimed 2"),
    ("becomes nothing 5 nothing", "yes", ""),
    ("still three", "refused, state too large", "three"),
    ("becomes pair 0 three", "refused, state too large", "three"),
    ("becomes three 0 other", "refused, state too large", "three"),
    ("becomes pair 0 other", "refused, mixed rules", ""),
    ("becomes other 0 pair", "refused, mixed rules", ""),
    ("becomes life 0 two_states", "refused, mixed rules", ""),
    ("becomes two_states 0 life", "refused, mixed rules", ""),
    ("becomes two_states 0 table", "refused, mixed rules", ""),
    ("becomes two_states 0 two_states_again", "yes", ""),
    ("still two_states", "yes", ""),
    ("still life", "yes", ""),
    ("still unknown", "refused, bad rule: unknown", "unknown"),
    ("becomes pair 0 wakes", "refused, bad rule: wakes", "wakes"),
    ("becomes three 0 bounded", "refused, bad rule: bounded", "bounded"),
)

# Patterns under other rules.
OTHERS = {
    "other": ("/2/4", "2A!"), "life": ("B3/S23", "2o$2o!"), "two_states": ("23/3/2", "2o$2o!"), "two_states_again": ("32/33/02", "2A$2A!"),
    "table": ("Die", "2o$2o!"),
    "unknown": ("/2/257", "2A!"), "wakes": ("/20/3", "2A!"), "bounded": ("/2/3:P9", "2A!"),
}


def header(rule):
    """The header of a file under this rule."""
    return f"x = 1, y = 1, rule = {rule}\n"


def pattern(rule, text):
    """A file of this body under this rule, with the line of its place, if there is one, before the header."""
    return re.sub(r"^(#.*\n)?", lambda place: place[0] + header(rule), text, count=1)


# The files of all these planes, by their names.
FILES = {**{name: pattern("/2/3", body) for name, body in CELLS.items()}, **{name: header(rule) + body for name, (rule, body) in OTHERS.items()}}
