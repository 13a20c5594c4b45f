#!/usr/bin/env -S python3 -B
"""What `--explain` tells of rule tables with ties, under which Golly may take other states, with each command that reads rule files.

Which of the small tables have ties was found by hand. Of random tables of one transition, each that gives some neighbourhood two states, by two orders in
which it fits, has to be told; that is tried with every neighbourhood.
"""
import itertools
import random
import tempfile

from lib import rule_table
from lib.program import Runs, Tally, escaped, run

SETS = {"a": (1, 2), "b": (1, 2), "c": (1, 2), "d": (1,), "e": (0, 1, 2), "f": (0, 2), "g": (0, 1)}

# A neighbourhood, a symmetry and transitions of a table of three states, and whether it has a tie.
TABLES = (
    ("vonNeumann", "permute", "0,a,b,0,0,a", True),
    ("vonNeumann", "permute", "0,a,b,0,0,b", True),
    ("vonNeumann", "rotate4reflect", "0,a,b,0,0,a", True),
    # turned, one of the zeros would take a cell of a or b
    ("vonNeumann", "rotate4", "0,a,b,0,0,a", False),
    ("vonNeumann", "rotate4", "0,a,0,b,0,a", True),
    ("vonNeumann", "rotate4", "0,a,0,0,0,a", False),
    ("vonNeumann", "none", "0,a,b,0,0,a", False),
    ("vonNeumann", "permute", "0,a,b,0,0,2", False),
    ("vonNeumann", "permute", "a,a,b,0,0,a", False),
    ("vonNeumann", "permute", "0,a,d,0,0,a", False),
    ("vonNeumann", "permute", "0,e,0,0,0,e", False),
    # two cells of a can't be exchanged for one of b
    ("vonNeumann", "permute", "0,a,a,b,0,a", False),
    ("vonNeumann", "permute", "0,a,a,b,c,a", True),
    # a and f share one state alone, and so do a and g; each may have it where the other has its second one
    ("vonNeumann", "permute", "0,a,f,0,0,a", False),
    ("vonNeumann", "permute", "0,a,f,g,0,a", True),
    ("vonNeumann", "reflect_horizontal", "0,a,0,b,0,a", False),
    ("vonNeumann", "reflect_horizontal", "0,0,a,0,b,a", True),
    ("Moore", "rotate8", "0,a,b,a,b,a,b,a,b,a", True),
    ("Moore", "rotate4", "0,a,b,a,b,a,b,a,b,a", False),
    ("hexagonal", "rotate3", "0,a,0,b,0,c,0,c", True),
    ("hexagonal", "rotate2", "0,a,0,b,0,c,0,c", False),
    ("oneDimensional", "reflect", "0,a,b,b", True),
    ("oneDimensional", "permute", "0,a,a,a", False),
    # one of many
    ("vonNeumann", "permute", "0,1,0,0,0,2\n1,a,2,0,0,a\n0,a,b,0,0,a\n2,0,0,0,0,1", True),
)


def rule_text(name, neighbourhood, symmetry, transitions, states=3):
    """A rule file."""
    sets = "".join(f"var {letter}={{{','.join(map(str, it))}}}\n" for letter, it in SETS.items() if max(it) < states)
    return f"@RULE {name}\n@TABLE\nn_states:{states}\nneighborhood:{neighbourhood}\nsymmetries:{symmetry}\n{sets}{transitions}\n"


def told_of(*names):
    """What is told of tables with ties that have these names."""
    return b"".join(b"  rule %s: may differ from Golly, where a transition with a variable for its result fits in several orders\n" % escaped(it.encode()) for it in names)


class Tables(Runs):
    """Rule files, patterns under them, and runs over these."""

    def rule(self, name, neighbourhood, symmetry, transitions):
        """The path of a rule file."""
        return self.path(f"{len(self.complaints)}-{self.count}.rule", rule_text(name, neighbourhood, symmetry, transitions))

    def pattern(self, name):
        """The path of a pattern under a rule of this name."""
        return self.path("pattern.rle", f"x = 2, y = 1, rule = {name}\nAA!\n")

    def claims(self, pattern, *rules):
        """The path of a claim text under these rule files."""
        return self.path("text.claims", "".join(f"rule {it}\n" for it in rules) + f"load it {pattern}\nstill it\n")

    def told(self, name, words, wanted):
        """Runs a command with --explain and without, and expects this on standard error where it is asked for."""
        explained, plain = run([*words, "--explain"]), run(words)
        self.count += 2
        if explained.complaint != wanted or plain.complaint or plain.printed != explained.printed and words[0] != "verify":
            self.complaints.append(f"{name}: wanted {wanted!r}, got {explained} with --explain, and {plain} without")


def try_small_tables(tally, folder):
    """Tables of each kind, shown."""
    runs = Tables(folder)
    for neighbourhood, symmetry, transitions, has_tie in TABLES:
        rule = runs.rule("Tied", neighbourhood, symmetry, transitions)
        runs.told(f"{neighbourhood}, {symmetry}, {transitions!r}", ["show", runs.pattern("Tied"), "--rule", rule], told_of("Tied") if has_tie else b"")
    runs.tell(tally, "small tables")


def try_commands(tally, folder):
    """Each command, under a table with a tie, one without, and both. A rule file is told of that is read, even for a pattern of another rule."""
    runs = Tables(folder)
    tied = runs.path("Tied.rule", rule_text("Tied", "vonNeumann", "permute", "0,a,b,0,0,a"))
    other = runs.path("Other.rule", rule_text("Other", "vonNeumann", "rotate4", "0,a,b,0,0,a"))
    for name, rule, wanted in (("Tied", tied, told_of("Tied")), ("Other", other, b"")):
        pattern = runs.pattern(name)
        for words in (["show"], ["show", "--after", "3"], ["convert", "--to", "rle"], ["draw"], ["identify"]):
            runs.told(words[0], [words[0], pattern, *words[1:], "--rule", rule], wanted)
            runs.told(words[0], [words[0], pattern, *words[1:], "--rules", folder], wanted)
        runs.told("verify", ["verify", runs.claims(pattern, rule)], wanted)
        runs.told("verify", ["verify", runs.claims(pattern), "--rules", folder], wanted)
        runs.told("verify, both", ["verify", runs.claims(pattern, other, tied)], told_of("Tied"))
    runs.told("another rule", ["show", runs.path("life.rle", "x = 1, y = 1, rule = B3/S23\no!\n"), "--rule", tied], told_of("Tied"))
    runs.tell(tally, "commands")


def try_names(tally, folder):
    """Control characters of a name are spelled out, and tables are told of in order."""
    runs = Tables(folder)
    names = ("A\x1b[2J", "B\x7f", "C\xa0")
    rules = [runs.path(f"{at}.rule", rule_text(name, "vonNeumann", "permute", "0,a,b,0,0,a")) for at, name in enumerate(names)]
    pattern = runs.path("life.rle", "x = 1, y = 1, rule = B3/S23\no!\n")
    for name, rule in zip(names, rules):
        for command in ("show", "identify"):
            runs.told(command, [command, pattern, "--rule", rule], told_of(name))
    runs.told("verify", ["verify", runs.claims(pattern, *rules)], told_of(*names))
    runs.told("verify", ["verify", runs.claims(pattern, *reversed(rules))], told_of(*reversed(names)))
    runs.tell(tally, "names")


def gives_two_states(table):
    """Whether the table's first transition gives some neighbourhood two states, by two orders in which it fits."""
    *slots, result = table.transitions[0]
    states, size = range(table.states), len(table.ring)
    # under permute it's enough to know which cells there are
    rings = itertools.combinations_with_replacement(states, size) if table.symmetry == "permute" else itertools.product(states, repeat=size)
    for ring in rings:
        arranged = table.arrangements(ring)
        for centre in states:
            taken = [rule_table.fit(slots, (centre, *cells)) for cells in arranged]
            if len({it[result] for it in taken if it is not None}) > 1:
                return True
    return False


def try_random_transitions(tally, folder):
    """Random tables of one transition: those that give two states are told of."""
    runs, chance, tied = Tables(folder), random.Random(11), 0
    for neighbourhood, symmetries in rule_table.SYMMETRIES.items():
        states = {"vonNeumann": 3, "oneDimensional": 3, "hexagonal": 3, "Moore": 2}[neighbourhood]
        letters = [letter for letter, it in SETS.items() if max(it) < states]
        for symmetry in symmetries:
            for _ in range(24):
                slots = [chance.choice(letters) if chance.random() < 0.7 else str(chance.randrange(states)) for _ in range(1 + len(rule_table.RINGS[neighbourhood]))]
                result = chance.choice([it for it in slots if it.isalpha()] or ["0"])
                text = rule_text("Tied", neighbourhood, symmetry, ",".join([*slots, result]), states)
                if not result.isalpha() or not gives_two_states(rule_table.read_table(text)):
                    continue
                tied += 1
                runs.told(f"{neighbourhood}, {symmetry}, {slots}, {result}", ["show", runs.pattern("Tied"), "--rule", runs.path("random.rule", text)], told_of("Tied"))
    runs.complaints += [] if tied >= 20 else [f"{tied} tables alone give two states"]
    runs.tell(tally, f"{tied} random transitions that give two states")


def main():
    tally = Tally()
    for part in (try_small_tables, try_commands, try_names, try_random_transitions):
        with tempfile.TemporaryDirectory() as folder:
            part(tally, folder)
    tally.finish()


if __name__ == "__main__":
    main()
