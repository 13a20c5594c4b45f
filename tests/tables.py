#!/usr/bin/env -S python3 -B
"""Rule files: faulty and good ones, how they are spelled, random tables beside naive steps, and files of millions of lines.

What is wrong with each faulty text was computed by hand. What random tables come to is given by the naive reader and stepper of tests/lib. Large files have to
be judged within seconds of a processor that a reader or a search of squared cost would pass by far, bounded beside those of known work.
"""
import os
import random
import tempfile

from lib import rle, rule_table
from lib.program import MAX_FILE, Outcome, Tally, fault, lines_outcome, run
from lib.random_tables import random_tables
from lib.steps import step, steps
from lib.table_texts import CHANGED, DOT, FAULTY, NAMES, OTHER, SAME, SPREAD, SPREAD_DOT, WIDE_DOT, changed, transitions, wide_table
from lib.work import excess, timed


class Named:
    """A rule's name and number of states, for writing patterns."""

    def __init__(self, name, states):
        self.name, self.states = name, states


class Texts:
    """Files in a folder of their own, and runs over them. A text has one character for each byte."""

    def __init__(self, folder):
        self.folder = tempfile.mkdtemp(dir=folder)
        self.lines, self.verdicts, self.names = [], [], 0

    def path(self, text):
        """Writes a file, and gives its path."""
        self.names += 1
        path = os.path.join(self.folder, f"f{self.names}")
        with open(path, "wb") as file:
            file.write(text.encode("latin-1"))
        return path

    def line(self, text, verdict=None):
        """Adds a line to the claim text, with the verdict where it is a claim."""
        self.lines.append(text)
        if verdict:
            self.verdicts.append((len(self.lines), verdict))

    def rule(self, text):
        """Puts a line for a rule file of this text."""
        self.line(f"rule {self.path(text)}")

    def becomes(self, cells, rule, generations, later, verdict="yes"):
        """Puts the claim that the cells become the later ones under a rule of this name."""
        name, other = f"a{len(self.lines)}", f"b{len(self.lines)}"
        for word, it in ((name, cells), (other, later)):
            self.line(f"load {word} {self.path(rle.tidy(it, rule.name, 0, rule.states).decode('latin-1'))}")
        self.line(f"becomes {name} {generations} {other}", verdict)

    def complaints(self):
        """Runs the program, and tells how what it prints differs from the verdicts."""
        wanted, got = lines_outcome(self.verdicts), run(["verify", self.path("\n".join(self.lines) + "\n")])
        if got == wanted:
            return []
        pairs = zip(wanted.printed.splitlines(), got.printed.splitlines())
        differ = [f"wanted {right}, got {left}, of {self.lines[int(right.split()[1][:-1]) - 3:][:3]}" for right, left in pairs if right != left]
        return differ or [f"wanted: {wanted}", f"got:    {got}"]


def one_step(folder, text, later, verdict="yes"):
    """What is wrong with a run on a rule file of this text, and a lone cell of state 2 that has to become the later ones."""
    texts, rule = Texts(folder), Named("Spread", 256)
    texts.rule(text)
    texts.becomes(DOT, rule, 1, later, verdict)
    return [f"{text!r}: {it}" for it in texts.complaints()]


def try_faults(tally, folder):
    """Rule files with a fault. The naive reader has to tell the line too."""
    for at, lines in CHANGED.items():
        told = [(changed(at, line), fault_at) for line, fault_at in lines]
        tally.tell(f"faults at line {at}: {len(told)}", [it for text, fault_at in told for it in judge_fault(folder, text, fault_at)])
    tally.tell(f"faulty rule files: {len(FAULTY)}", [it for text, fault_at in FAULTY for it in judge_fault(folder, text, fault_at)])


def judge_fault(folder, text, fault_at):
    """What is wrong with the answers of the naive reader and of the program to a faulty rule file."""
    line, kind = fault_at.split(" ", 1)
    return [*read_naively(text, (kind, int(line))), *one_step(folder, text, {}, f"refused, bad table: {kind}")]


def read_naively(text, wanted):
    """What is wrong with the naive reader's answer."""
    try:
        rule_table.read_table(text)
        told = None
    except rule_table.Fault as it:
        told = (it.kind, it.line)
    return [] if told == wanted else [f"naive reader, of {text!r}: wanted {wanted}, got {told}"]


def try_symmetries_of_neighbourhoods(tally, folder):
    """Each symmetry with each neighbourhood: a table without transitions, in which all cells stay, or a fault."""
    complaints, names = [], sorted({name for of in rule_table.SYMMETRIES.values() for name in of})
    for neighbourhood, known in rule_table.SYMMETRIES.items():
        for name in names:
            text = f"@RULE Spread\n@TABLE\nsymmetries:{name}\nneighborhood:{neighbourhood}\nn_states:3\n"
            complaints += one_step(folder, text, DOT) if name in known else judge_fault(folder, text, "5 symmetries")
    tally.tell(f"symmetries of neighbourhoods: {len(names) * len(rule_table.RINGS)}", complaints)


def try_spellings(tally, folder):
    """Spellings of the small table, and small tables that do something else."""
    texts = [changed(at, line) for at, lines in SAME.items() for line in lines]
    texts += ["\n".join(SPREAD), "\r\n".join(SPREAD) + "\r\n", "\n\n\t\n".join(SPREAD), " # c\n".join(SPREAD)]
    texts += ["\n".join([*SPREAD[:2], *(SPREAD[at] for at in order), *SPREAD[5:]]) for order in ((2, 4, 3), (3, 2, 4), (3, 4, 2), (4, 2, 3), (4, 3, 2))]
    tally.tell(f"spellings of a table: {len(texts)}", [it for text in texts for it in one_step(folder, text, SPREAD_DOT)])
    tally.tell(f"other tables: {len(OTHER)}", [it for at, line, later in OTHER for it in one_step(folder, changed(at, line), later)])


def try_names(tally, folder):
    """Names of tables, and rule texts of patterns."""
    complaints = []
    for name, rule_text, verdict in NAMES:
        texts, rule = Texts(folder), Named(rule_text, 2)
        texts.rule(f"@RULE {name}\n@TABLE\nn_states:2\nneighborhood:oneDimensional\nsymmetries:none\n1000\n")
        texts.becomes({(0, 0): 1}, rule, 1, {}, verdict)
        complaints += texts.complaints()
    tally.tell(f"names of tables: {len(NAMES)}", complaints)


def try_rule_lines(tally, folder):
    """Where `rule` lines stand, how they are spelled, and which is reported first."""
    spread, later = Named("Spread", 3), {**SPREAD_DOT}
    good, no_table, no_rule_line = "\n".join(SPREAD), changed(2, ""), changed(1, "")
    for what, files, verdict in (
        ("two faulty files", (no_table, no_rule_line), "refused, bad table: no table"),
        ("two faulty files, the other way about", (no_rule_line, no_table), "refused, bad table: no rule line"),
        ("a faulty file after a good one", (good, no_table), "refused, bad table: no table"),
        ("a faulty file of a name that is taken", (good, changed(7, "000001")), "refused, bad table: wakes"),
        ("two tables of one name", (good, changed(7, "")), "yes"),
        ("two tables of one name, the other way about", (changed(7, ""), good), "no, cells differ after 1"),
        ("no rule file", (), "refused, bad rule: unknown"),
    ):
        texts = Texts(folder)
        for it in files:
            texts.rule(it)
        texts.becomes(DOT, spread, 1, later, verdict)
        tally.tell(what, texts.complaints())
    texts = Texts(folder)
    texts.becomes(DOT, spread, 1, later)
    texts.rule(good)
    texts.becomes(DOT, spread, 0, DOT)
    tally.tell("a rule line between claims", texts.complaints())
    for what, path, verdict in (
        ("a rule file that is a folder", folder, "refused, no file"),
        ("a rule file that is not there", os.path.join(folder, "lost"), "refused, no file"),
        ("a rule file that is a pattern", "examples/block.rle", "refused, bad table: no rule line"),
    ):
        texts = Texts(folder)
        texts.line(f"rule {path}")
        texts.line("load block examples/block.rle")
        texts.line("still block", verdict)
        tally.tell(what, texts.complaints())
    texts = Texts(folder)
    path = texts.path(good)
    texts.line(f"rule {path}")
    texts.line(f"load a {path}")
    texts.line("still a", "refused, bad pattern: rle header")
    tally.tell("a rule file that is loaded too", texts.complaints())
    for text, told in (("rule", "1 syntax"), ("rule a b", "1 syntax"), ("RULE a", "1 syntax"), ("rules a", "1 syntax"),
                       ("rule a\nstill b", "2 unknown name")):
        line, kind = told.split(" ", 1)
        tally.expect(f"the claim text {text!r}", run(["verify", Texts(folder).path(text)]), fault(f"claims line {line}: {kind}"))
    tally.expect("a rule line without claims", run(["verify", Texts(folder).path("rule lost\nload a lost")]), Outcome(b"", b"", 0))


def try_random_tables(tally, folder):
    """Random tables over each neighbourhood with each symmetry, on random cells."""
    chance = random.Random(1)
    texts, count = Texts(folder), 0
    for it, table in random_tables(chance, 30):
        texts.rule(it.text)
        generations = chance.randint(1, 3)
        later = steps(it.cells, table, generations)
        texts.becomes(it.cells, table, generations, later)
        place = chance.choice([*later, (0, 0)])
        others = {**later, place: (later.get(place, 0) + chance.randrange(1, table.states)) % table.states}
        texts.becomes(it.cells, table, generations, {at: state for at, state in others.items() if state}, f"no, cells differ after {generations}")
        count += 1
    tally.tell(f"random tables: {count}", texts.complaints())


def mutilated(chance, text):
    """The text with a small change or two, mostly in its last third."""
    for _ in range(chance.randint(1, 2)):
        at = chance.randrange(2 * len(text) // 3 if chance.random() < 0.8 else 0, len(text))
        piece = chance.choice([*"00112233abcd,,{}=#:@ \t\r\n", "var ", "\n@", "\xe9", "n_states:", "", ""])
        text = text[:at] + piece + text[at + chance.choice((0, 1, 1, 1, 3, 12)) :]
    lines = text.split("\n")
    if chance.random() < 0.1:
        at, other = chance.randrange(len(lines)), chance.randrange(len(lines))
        lines[at], lines[other] = lines[other], lines[at]
    return "\n".join(lines)


def try_mutilated_tables(tally, folder):
    """Rule files with random changes: the program has to tell what the naive reader tells."""
    chance = random.Random(2)
    bases = ["\n".join(SPREAD) + "\n", *(changed(at, line) for at, lines in SAME.items() for line in lines)]
    bases += [it.text.replace(table.name, "Spread") for it, table in random_tables(chance, 1) if table.states > 2 and len(table.ring) < 8]
    kinds, complaints, count = {}, [], 400
    for _ in range(count):
        text, later = mutilated(chance, chance.choice(bases)), {}
        try:
            table = rule_table.read_table(text)
            kind, verdict = "good", "yes"
            if table.name != "Spread":
                verdict = "refused, bad rule: unknown"
            elif table.states < 3:
                verdict = "refused, state too large"
            else:
                later = step(DOT, table)
        except rule_table.Fault as it:
            kind, verdict = it.kind, f"refused, bad table: {it.kind}"
        complaints += one_step(folder, text, later, verdict)
        kinds[kind] = kinds.get(kind, 0) + 1
    told = ", ".join(f"{number} {kind}" for kind, number in sorted(kinds.items()))
    tally.tell(f"mutilated tables: {count} ({told})", complaints)


def naming_each_other(count):
    """Variables of which each has the states of two earlier ones."""
    yield "var v0={1,2}"
    yield "var v1={v0}"
    for at in range(2, count):
        yield f"var v{at}={{v{at - 1},v{at // 2}}}"
    yield f"0,v{count - 1},0,0,0,v{count - 1}"


def one_name_again(count):
    """One variable, which each line replaces by all that it was."""
    yield "var a={1,2}"
    for _ in range(count):
        yield "var a={a,a,a}"
    yield "0,a,0,0,0,a"


def sets_of_every_state(count):
    """Variables of all 256 states, and a transition after them."""
    for at in range(count):
        yield f"var long_name_of_a_variable_{at}={{{EVERY_STATE}}}"
    yield f"var a={{{','.join(str(state) for state in range(1, 256))}}}"
    yield "0,a,0,0,0,a"


def nearly_fitting(count):
    """Transitions of a ring of eight that fit under no order, which is found late: the longest search that is known."""
    for name, states in enumerate(("0,8", "1,3,5,7,8", "0,1,3,4", "2,3,4,5,6,7", "0,1,2,3,4,5,6,7,8", "1,2,3,5,6,7", "1,2,3,4,5,6,7,8"), 1):
        yield f"var v{name}={{{states}}}"
    for _ in range(count):
        yield "9,v5,v7,v6,v2,v3,v1,v4,v2,1"


# How many times the known work a run may take.
MOST_WORK = 400

EVERY_STATE = ",".join(str(state) for state in range(256))

# What a lone cell of state 2 becomes where a cell takes the state of a live neighbour, in a ring of four.
WIDE_SPREAD = "#CXRLE Pos=-1,-1\nx = 3, y = 3, rule = Wide\n.B$3B$.B!\n"

# The cells of that search.
CROWD = "x = 1, y = 1, rule = Wide\nFEC$CIG$HHB!\n"

# Rule files, and what is claimed: a pattern, what it becomes, and the verdict.
YES = "yes"

LARGE_FILES = (
    ("600000 variables that name earlier ones", lambda: wide_table(naming_each_other(600000), 3), WIDE_DOT, WIDE_SPREAD, YES),
    ("one variable, replaced 600000 times", lambda: wide_table(one_name_again(600000), 3), WIDE_DOT, WIDE_SPREAD, YES),
    ("10000 variables of all states", lambda: wide_table(sets_of_every_state(10000)), WIDE_DOT, WIDE_SPREAD, YES),
    ("a variable of 1100000 elements", lambda: wide_table([f"var a={{{'1,2,' * 550000}1}}", "0,a,0,0,0,a"], 3), WIDE_DOT, WIDE_SPREAD, YES),
    ("300000 transitions", lambda: wide_table(transitions(300000)), WIDE_DOT, WIDE_SPREAD, YES),
    ("1100000 transitions under eight orders", lambda: wide_table(transitions(1100000), symmetry="rotate4reflect"), WIDE_DOT, WIDE_SPREAD, YES),
    ("8 million transitions of three cells", lambda: wide_table(["1,1,1,0\n" * 8300000 + "0,2,0,2"], 3, "oneDimensional", "none"), WIDE_DOT,
     "x = 2, y = 1, rule = Wide\n2B!\n", YES),
    ("a transition of two million fields", lambda: wide_table(["0," * 2000000 + "0"]), WIDE_DOT, WIDE_DOT, "refused, bad table: syntax"),
    ("a line of ten million bytes", lambda: wide_table(["0" * 10000000]), WIDE_DOT, WIDE_DOT, "refused, bad table: syntax"),
    ("ten million brackets", lambda: wide_table(["var a=" + "{" * 10000000]), WIDE_DOT, WIDE_DOT, "refused, bad table: syntax"),
    ("an unknown name after 600000 variables", lambda: wide_table([*naming_each_other(600000), "0,b,0,0,0,1"], 3), WIDE_DOT, WIDE_DOT,
     "refused, bad table: variable"),
    ("a file of 67108864 bytes", lambda: wide_table(["var a={1,2}", "0,a,0,0,0,a"]).ljust(MAX_FILE), WIDE_DOT, WIDE_SPREAD, YES),
    ("a file of 67108865 bytes", lambda: wide_table(["var a={1,2}", "0,a,0,0,0,a"]).ljust(MAX_FILE + 1), WIDE_DOT, WIDE_SPREAD, "refused, no file"),
    ("a name of 1100000 bytes", lambda: wide_table(["var a={1,2}", "0,a,0,0,0,a"], name="W" * 1100000), WIDE_DOT.replace("Wide", "W" * 1100000),
     WIDE_SPREAD.replace("Wide", "W" * 1100000), YES),
    ("a variable's name of a million bytes", lambda: wide_table([f"var {'a' * 1000000}={{1,2}}", f"0,{'a' * 1000000},0,0,0,{'a' * 1000000}"]), WIDE_DOT,
     WIDE_SPREAD, YES),
    ("1000 names of 1000 bytes that differ in the last", lambda: wide_table(
        [*(f"var {'a' * 1000}{at}={{1,2}}" for at in range(1000)), *(f"0,{'a' * 1000}{at},0,0,0,{'a' * 1000}{at}" for at in range(1000))]), WIDE_DOT,
     WIDE_SPREAD, YES),
    ("numbers of a million digits", lambda: wide_table([f"var a={{{'0' * 1000000}1,2}}", f"{'0' * 1000000},a,0,0,0,a"], "0" * 1000000 + "3"), WIDE_DOT,
     WIDE_SPREAD, YES),
    ("a number of states of a million digits", lambda: wide_table([], "9" * 1000000), WIDE_DOT, WIDE_DOT, "refused, bad table: states"),
    ("ten million bytes of comments", lambda: "# @TABLE\n" * 1000000 + wide_table(["var a={1,2}", "#" * 1000000, "0,a,0,0,0,a"]), WIDE_DOT, WIDE_SPREAD, YES),
    ("ten million empty lines", lambda: "\n" * 10000000 + wide_table(["var a={1,2}", "0,a,0,0,0,a"]), WIDE_DOT, WIDE_SPREAD, YES),
    ("a million sections", lambda: "@RULE Wide\n" + "@TREE\n" * 1000000 + wide_table(["var a={1,2}", "0,a,0,0,0,a"]), WIDE_DOT, WIDE_SPREAD, YES),
    ("settings a million times", lambda: wide_table(["symmetries:rotate4"] * 1000000), WIDE_DOT, WIDE_DOT, "refused, bad table: syntax"),
    ("10000 transitions that nearly fit under many orders", lambda: wide_table(nearly_fitting(10000), neighbourhood="Moore", symmetry="permute"), CROWD,
     CROWD, YES),
)


def expect_in_time(tally, name, path, wanted):
    """Runs the program on a claim text. It fails the test too where it takes longer than the bound."""
    outcome, seconds = timed(["verify", path])
    complaints = [] if outcome == wanted else [f"wanted: {wanted}", f"got:    {outcome}"]
    tally.tell(f"{name}: {seconds:.2f} s", complaints + excess(seconds, MOST_WORK))


def try_large_file(tally, folder, name, text, before, after, verdict):
    """One rule file, and the claim that a pattern becomes another under its table."""
    paths = []
    for at, it in enumerate((text, before, after)):
        paths.append(os.path.join(folder, f"f{at}"))
        with open(paths[-1], "w", encoding="ascii") as file:
            file.write(it)
    claims = os.path.join(folder, "text.claims")
    with open(claims, "w", encoding="ascii") as file:
        file.write(f"rule {paths[0]}\nload a {paths[1]}\nload b {paths[2]}\nbecomes a 1 b\n")
    expect_in_time(tally, name, claims, lines_outcome([(4, verdict)]))


def try_many_rules(tally, folder):
    """Thousands of rule files, the last of which a pattern names; and a rule line that comes again many times."""
    count, lines = 5000, []
    for at in range(count):
        path = os.path.join(folder, f"r{at}")
        with open(path, "w", encoding="ascii") as file:
            file.write(wide_table(["var a={1,2}", "0,a,0,0,0,a"], name=f"W{at}"))
        lines.append(f"rule {path}")
    for name, text in (("a", WIDE_DOT), ("b", WIDE_SPREAD)):
        path = os.path.join(folder, name)
        with open(path, "w", encoding="ascii") as file:
            file.write(text.replace("Wide", f"W{count - 1}"))
        lines.append(f"load {name} {path}")
    lines += ["becomes a 1 b"] * count
    path = os.path.join(folder, "text.claims")
    with open(path, "w", encoding="ascii") as file:
        file.write("\n".join(lines) + "\n")
    expect_in_time(tally, f"{count} rule files and claims", path, lines_outcome([(count + 3 + at, "yes") for at in range(count)]))
    again = [lines[count - 1]] * 70000
    with open(path, "w", encoding="ascii") as file:
        file.write("\n".join([*again, *lines[count:count + 3]]) + "\n")
    expect_in_time(tally, f"{len(again)} lines of one rule file", path, lines_outcome([(len(again) + 3, "yes")]))


def main():
    tally = Tally()
    with tempfile.TemporaryDirectory() as folder:
        for it in (try_faults, try_symmetries_of_neighbourhoods, try_spellings, try_names, try_rule_lines, try_random_tables, try_mutilated_tables):
            it(tally, folder)
    with tempfile.TemporaryDirectory() as folder:
        for name, text, before, after, verdict in LARGE_FILES:
            try_large_file(tally, folder, name, text(), before, after, verdict)
        try_many_rules(tally, folder)
    tally.finish()


if __name__ == "__main__":
    main()
