#!/usr/bin/env -S python3 -B
"""Texts of all four kinds, mutated, cut and joined at random: RLE, macrocell, rule files and claim texts.

    tests/mutated.py [--count N] [--seed S]

Of each text the program may print the lines of docs/CLAIMS.md alone, and end with status 0, 1 or 2, within a time and an address space in
proportion to the bytes. What patterns and claims come to, the first fault and its line too, is said by readers in Python (lib/rle_reader.py,
lib/macrocell.py, lib/claim_reader.py). Many texts are judged in one run, each by a claim text of its own, so that a run's lines begin with the
number of their text. The same seed and count give the same texts.

Censuses are taken of the faulty patterns, which are refused as by `identify`, and of small ones that soon go round, into a folder whose claim texts say what is
true.
"""
import argparse
import os
import random
import re
import resource
import stat
import tempfile
from dataclasses import dataclass, field
from functools import cached_property

from lib import claim_reader, macrocell, remedies, rle, steps
from lib.census import counted_word
from lib.census_files import yes_lines
from lib.claim_reader import Judge
from lib.macrocell import EDGE
from lib.mutations import KINDS, Mutator
from lib.pictures import drawn
from lib.program import Folder, Outcome, Tally, ample, contents, escaped, fault, run
from lib.rle_reader import Fault, PatternFile, WORD, lines_of, rule_of
from lib.work import excess, timed

# How many texts are judged in one run, one of how many of each kind has runs of its own, and how many texts a line of this script reports.
AT_A_TIME, SAMPLED, TOLD = 50, 10, 1000

# The bytes of address space that a run may take, and those for each byte of its texts and for each live cell of its patterns.
SPACE, SPACE_OF_BYTE, SPACE_OF_CELL = 8_000_000, 400, 80

# The processor time that a run may take, in units of known work (lib/work.py), and for each byte and each cell, in the best of TRIES tries,
# as a busy machine stops a run at times; and its seconds by the clock.
WORK, WORK_OF_BYTE, WORK_OF_CELL, TRIES, WAITING = 5, 1e-4, 2e-5, 3, 60

# Of how many live cells a pattern is written out here, to be compared with what `convert` prints.
WRITTEN = 3000

# Of how many live cells patterns are stepped here, for how many generations.
STEPPED, SOON = 100, 8

# The greatest generation that a file may have.
LATEST = (1 << 63) - 1

# The lines of a census that are of labels, with their counts.
LABEL = re.compile(rb"(\d+) (?:x[pqs]\d+_\w+|(?:still life|oscillator \d+|spaceship \d+ -?\d+ -?\d+) of \d+ cells?)\n")

# The files that mutated claim texts load, and those that aren't there.
FILES = {
    "block.rle": "x = 2, y = 2, rule = B3/S23\n2o$2o!\n",
    "blinker.rle": "x = 3, y = 1\n3o!\n",
    "glider.rle": "x = 3, y = 3, rule = 23/3\nbo$2bo$3o!\n",
    "ship.rle": "x = 5, y = 4, rule = B3/S23\nbo2bo$o$o3bo$4o!\n",
    "empty.rle": "x = 0, y = 0\n!\n",
    "dot.rle": "#CXRLE Pos=5,-7 Gen=3\nx = 1, y = 1\no!\n",
    "fuse.rle": "x = 4, y = 4\no$bo$2bo$3bo!\n",
    "upright.rle": "#CXRLE Pos=1,-1\nx = 1, y = 3\no$o$o!\n",
    "high.rle": "x = 2, y = 2, rule = B36/S23\n2o$2o!\n",
    "broken.rle": "x = 2, y = 2\n\n2oz!\n",
    "bounded.rle": "x = 2, y = 2, rule = B3/S23:T9,9\n2o!\n",
    "large.rle": "x = 2, y = 1\noB!\n",
    "glider.mc": "[M2]\n#R B3/S23\n.*$..*$***$$$$$$\n4 0 0 0 1\n",
    "broken.mc": "[M2]\n1 1 1 1 1\n3 0 1 0 0\n",
    "good.rule": "@RULE Good\n@TABLE\nn_states:2\nneighborhood:vonNeumann\nsymmetries:none\n",
    "bad.rule": "@RULE Bad\n\n# nothing\n",
    "none.claims": "",
}

TABLE_FAULT = rb"(?:no rule line|no table|syntax|states|neighborhood|symmetries|variable|unbound|wakes)"
TABLE_REFUSAL = re.compile(rb"line 3: refused, bad table: (%s)\n  rule file: \d+\.rule, line (\d+)\n" % TABLE_FAULT)
TABLE_VERDICTS = re.compile(rb"line 3: (?:yes|no, cells differ after 1\n  p at -?\d+,-?\d+: \d+ after 1 generation, claimed \d+)\nline 4: yes\n")

# A line that tells of a table with ties.
TIE = re.compile(rb"(?m)^  rule (.*): may differ from Golly, where a transition with a variable for its result fits in several orders\n")


@dataclass
class Trial:
    """A mutated text, with the one that it was, and the lines that a run over many texts printed and complained of it."""

    kind: str
    number: int
    first: bytes
    text: bytes
    printed: list = field(default_factory=list)
    faults: list = field(default_factory=list)

    def name(self, ending):
        """The name of a file of this text."""
        return f"{self.number}.{ending}"

    @cached_property
    def file(self):
        """What the text comes to as a pattern."""
        return PatternFile(self.text)

    def cells(self):
        """How many live cells a run has to do with that draws them one by one."""
        return self.file.population() if self.kind == "rle" and not self.file.is_macrocell else 0

    def status(self):
        """The exit status of a run over this text, as the printed lines have it."""
        words = [it.split(b": ")[1].split(b",")[0] for it in self.printed if re.match(rb"line \d+: ", it)]
        return 2 if self.faults or b"refused" in words else int(b"no" in words)

    def unexplained(self):
        """The outcome of a run over this text alone that explains nothing."""
        printed = b"".join(it + b"\n" for it in self.printed if not it.startswith(b"  "))
        return Outcome(printed, b"".join(b"cafile: " + it + b"\n" for it in self.faults), self.status())


def rule_name(text):
    """The name of a rule file's table, and the number of the first line that says something: None where that is no rule line or there is none."""
    for at, line in enumerate(lines_of(text), 1):
        words = WORD.findall(line.partition(b"#")[0])
        if words:
            return (words[1] if words[0] == b"@RULE" and len(words) > 1 else None), at
    return None, max(1, len(lines_of(text)))


def rule_file_fault(text):
    """The fault and line of a rule file without rule line or table; None of any other."""
    name, at = rule_name(text)
    if name is None:
        return "no rule line", at
    is_table = any(WORD.findall(it.partition(b"#")[0])[:1] == [b"@TABLE"] for it in lines_of(text)[at:])
    return None if is_table else ("no table", len(lines_of(text)))


class Patterns:
    """Judges runs over RLE and macrocell texts."""

    @staticmethod
    def prepare(files, trial):
        """Writes the files of a text, and gives its claim text."""
        files.path(trial.name("pattern"), trial.text)
        return f"load p {trial.name('pattern')}\nbecomes p 0 p\nstill p\n".encode()

    @staticmethod
    def complaint(trial):
        """What is wrong with what was printed of a text."""
        file = trial.file
        if file.cause:
            note = b"  p: " + trial.name("pattern").encode() + file.told()
            helps = file.helps(trial.name("pattern").encode()).splitlines()
            wanted = [it for at in (2, 3) for it in (f"line {at}: refused, {file.cause}".encode(), note, *helps)]
            return None if trial.printed == wanted and not trial.faults else f"it has to be {file.cause}, and {note!r}"
        forms = rb"yes|no, cells differ after 1\n  p at -?\d+,-?\d+: \d+ after 1 generation, claimed \d+" if file.population() else rb"no, empty"
        is_right = re.fullmatch(rb"line 2: yes\nline 3: (?:%s)" % forms, b"\n".join(trial.printed)) and not trial.faults
        return None if is_right else "it is a good pattern"

    @staticmethod
    def alone(trial):
        """Runs over this text alone, with what each has to come to."""
        path, file = trial.name("pattern"), trial.file
        if file.cause:
            return [(words, fault(file.cause)) for words in (["show", path], ["convert", path, "--to", "mc"], ["draw", path])]
        if file.population() > WRITTEN:
            return []
        pattern = file.pattern()
        shown = pattern.shown(kind="macrocell" if file.is_macrocell else "rle")
        cells = pattern.tree.cells()
        tidy = rle.tidy(cells, file.rule, file.held.generation, file.states)
        return [(["show", path], ample(shown)), (["convert", path, "--to", "rle"], ample(tidy)),
                (["convert", path, "--to", "mc"], ample(macrocell.tidy(pattern, file.states))), (["draw", path], ample(drawn(cells, file.states)))]


def goes_round(file):
    """After how many generations the plane of a good file first goes round, moved or in place, and the cells then; None where it is large or takes long. It is
    settled just then: any parts of it that never meet go round too, and stay together."""
    if file.population() > STEPPED:
        return None
    rule, cells, stages = steps.rule_of(file.rule), file.pattern().tree.cells(), []
    for _ in range(SOON):
        left, top = (min((place[it] for place in cells), default=0) for it in (0, 1))
        moved = {(x - left, y - top): state for (x, y), state in cells.items()}
        first = next((at for at, (it, _) in enumerate(stages) if it == moved), None)
        if first is not None:
            return first, stages[first][1]
        stages.append((moved, cells))
        cells = steps.step(cells, rule)
    return None


class Censuses:
    """Judges a census of texts that are patterns, and the files that it writes."""

    def __init__(self, files, trials):
        patterns = [it for it in trials if it.kind in ("rle", "macrocell")]
        self.files, self.faulty = files, [it for it in patterns if it.file.cause]
        settled = [(it, goes_round(it.file)) for it in patterns if not it.file.cause]
        self.settled = [(it, *found) for it, found in settled if found and self.can_be_written(it, *found)]

    @staticmethod
    def can_be_written(trial, first, cells):
        """Whether the settled plane can be written."""
        return trial.file.held.generation + first <= LATEST and all(-EDGE <= it < EDGE for place in cells for it in place)

    def paths(self):
        """The paths of the files."""
        return [it.name("pattern") for it in (*self.faulty, *(it for it, *_ in self.settled))]

    def refused(self):
        """The lines on the faulty ones."""
        causes = [(it, it.file.cause.encode() + (b"" if it.file.cause.startswith("bad rule") else it.file.told())) for it in self.faulty]
        return b"".join(b"# %d: %s: %s\n" % (it.number, it.name("pattern").encode(), cause) for it, cause in causes)

    def complaints(self, printed):
        """What is wrong with what the run printed, and with its files."""
        if not printed.startswith(self.refused()):
            return [f"a census of faulty files: wanted {self.refused()!r}, got {printed!r}"]
        texts = re.split(rb"(?m)^(?=#)", printed.removeprefix(self.refused()))[1:]
        if len(texts) != len(self.settled):
            return [f"{len(texts)} censuses of {len(self.settled)} files"]
        return [it for text, known in zip(texts, self.settled) for it in self.complaint(text, *known)]

    def complaint(self, text, trial, first, cells):
        """What is wrong with this text on a file, and with its files."""
        head, _, labels = text.partition(b"\n")
        counts, cells_word = [int(it) for it in LABEL.findall(labels)], counted_word(len(cells), "cell")
        wanted = f"# {trial.number}: settles after {counted_word(first, 'generation')}: {counted_word(sum(counts), 'object')}, {cells_word}"
        if LABEL.sub(b"", labels) or head != wanted.encode() or bool(counts) != bool(cells):
            return [f"a census of {trial.text!r}: {text!r}, wanted {wanted}"]
        plane = contents(self.files.path(f"into/{trial.number}-settled.rle"))
        tidy = rle.tidy(cells, trial.file.rule, trial.file.held.generation + first, trial.file.states)
        return [] if plane == tidy else [f"the settled plane of {trial.text!r}: {plane!r}, wanted {tidy!r}"]

    def claim_texts(self):
        """The claim texts, and what is printed of them."""
        paths = [f"into/{it.number}.claims" for it, *_ in self.settled]
        return paths, b"".join(re.sub(rb"(?m)^", path.encode() + b": ", yes_lines(contents(self.files.path(path))).rstrip(b"\n")) + b"\n" for path in paths)


class Rules:
    """Judges runs over rule files, whose tables step a pattern that has the name of the table before it was mutated."""

    @staticmethod
    def pattern_rule(trial):
        """The rule text of the pattern."""
        return rule_name(trial.first)[0] or b"Nameless"

    def prepare(self, files, trial):
        """Writes the files of a text, and gives its claim text."""
        files.path(trial.name("rule"), trial.text)
        files.path(trial.name("rle"), b"x = 4, y = 3, rule = %s\nA.2A$.A$2A!\n" % self.pattern_rule(trial))
        return f"load p {trial.name('rle')}\nrule {trial.name('rule')}\nbecomes p 1 p\nbecomes p 0 p\n".encode()

    def printed_rule(self, trial):
        """The printed form of the pattern's rule where the mutated text has a good table; None where it is of another name."""
        rule = self.pattern_rule(trial)
        try:
            return rule_of(rule)[0].encode()
        except Fault:
            return rule if rule_name(trial.text)[0] == rule else None

    def complaint(self, trial):
        """What is wrong with what was printed of a text."""
        printed = b"".join(it + b"\n" for it in trial.printed)
        found, said = rule_file_fault(trial.text), TABLE_REFUSAL.fullmatch(printed[:len(printed) // 2])
        if trial.faults:
            return "its claim text is good"
        if found or said:
            kind, line = found or (said[1].decode(), int(said[2]))
            wanted = "".join(f"line {at}: refused, bad table: {kind}\n  rule file: {trial.name('rule')}, line {line}\n" for at in (3, 4))
            is_within = 1 <= line <= max(1, len(lines_of(trial.text)))
            return None if printed == wanted.encode() and is_within else f"wanted {wanted!r}"
        if self.printed_rule(trial):
            return None if TABLE_VERDICTS.fullmatch(printed) else "its table has to be known and either good or faulty"
        told = b"%s: rule %s" % (trial.name("rle").encode(), escaped(self.pattern_rule(trial)))
        helps = remedies.line("bad rule: unknown", trial.name("rle").encode(), rule=self.pattern_rule(trial))
        wanted = b"".join(b"line %d: refused, bad rule: unknown\n  p: %s\n%s" % (at, told, helps) for at in (3, 4))
        return None if printed == wanted else "its table has another name"

    def alone(self, trial):
        """Runs over this text alone, with what each has to come to, where the lines that were printed tell of a fault's kind and line."""
        said = TABLE_REFUSAL.match(b"\n".join(trial.printed) + b"\n")
        words, rule = ["show", trial.name("rle"), "--rule", trial.name("rule")], self.printed_rule(trial)
        if said:
            return [(words, fault(f"bad table: line {said[2].decode()} {said[1].decode()}"))]
        return [(words, ample(b"format rle\nrule %s\ngen 0\ncells 6\nbox 0 0 4 3\n" % rule) if rule else fault("bad rule: unknown"))]


class Claims:
    """Judges runs over claim texts."""

    def __init__(self, files):
        self.files, self.judge = files, Judge(self.content_of, self.absence_of, rule_file_fault)

    def content_of(self, path):
        """The bytes of the file at a path; None where the program can't get them."""
        try:
            path.decode()
            with open(os.path.join(os.fsencode(self.files.folder), path), "rb") as file:
                return file.read()
        except (OSError, ValueError):
            return None

    def absence_of(self, path):
        """Why there is no file at a path."""
        try:
            path.decode()
        except ValueError:
            return b"not UTF-8"
        try:
            mode = os.stat(os.path.join(os.fsencode(self.files.folder), path)).st_mode
        except (FileNotFoundError, NotADirectoryError):
            return b"no such file"
        except (OSError, ValueError):
            return b"it can't be read"
        return b"a folder" if stat.S_ISDIR(mode) else b"it can't be read"

    @staticmethod
    def prepare(_, trial):
        """The claim text of a text is itself."""
        return trial.text

    def complaint(self, trial):
        """What is wrong with what was printed of a text."""
        left = [*trial.printed]
        try:
            read = claim_reader.read(trial.text)
        except Fault as why:
            wanted = f"claims line {why.line}: {why.kind}"
            return None if not left and trial.faults == [wanted.encode()] else f"wanted {wanted}"
        for claim in read.claims:
            wrong = self.judge.verdict(claim, read.rules).complaint(left)
            if wrong:
                return wrong
        return f"too much was printed: {left + trial.faults}" if left or trial.faults else None

    @staticmethod
    def alone(trial):
        """Runs over this text alone, with what each has to come to: as a pattern it is none."""
        return [(["show", trial.name("claims")], fault(trial.file.cause))] if trial.file.cause else []


def parted(stream, before, names):
    """The lines of a stream by the names of their texts, in whose order they come, without the names; and what is wrong with it."""
    found, at = {it: [] for it in names}, 0
    lines = stream.split(b"\n")
    if lines.pop():
        return found, ["the last line has no end"]
    for line in lines:
        name, colon, rest = line[len(before):].partition(b": ")
        if not line.startswith(before) or not colon or name not in names[at:]:
            return found, [f"no line of the program's, or not in its place: {line!r}"]
        at = names.index(name, at)
        found[name].append(rest)
    return found, []


def without_ties(stream, rules):
    """A stream without its lines on tables with ties, and what is wrong with these: each names one of these rules, in whose order they come."""
    left = iter(rules)
    return TIE.sub(b"", stream), [f"no table of this name, or not in its place: {it!r}" for it in TIE.findall(stream) if it not in left]


class Tester:
    """Runs the program over texts in a folder, with one judge for each kind."""

    def __init__(self, folder):
        self.files = Folder(folder)
        for name, content in FILES.items():
            self.files.path(name, content)
        patterns = Patterns()
        self.judges = {"rle": patterns, "macrocell": patterns, "rule": Rules(), "claims": Claims(self.files)}

    def run(self, words, trials):
        """The outcome of a run over these texts, and what is wrong with its status or its time."""
        size, cells = sum(len(it.text) for it in trials), sum(it.cells() for it in trials)
        space = SPACE + size * SPACE_OF_BYTE + cells * SPACE_OF_CELL
        for _ in range(TRIES):
            outcome, seconds = timed(words, cwd=self.files.folder, timeout=WAITING,
                                     preexec_fn=lambda: resource.setrlimit(resource.RLIMIT_AS, (space, space)))
            wrong = excess(seconds, WORK + size * WORK_OF_BYTE + cells * WORK_OF_CELL)
            if not wrong or outcome.status < 0:
                break
        return outcome, wrong + ([] if outcome.status in (0, 1, 2) else [f"it ended with {outcome.status}: {outcome}"])

    def together(self, trials):
        """What is wrong with a run over all these texts, and one that says nothing."""
        for it in trials:
            self.files.path(it.name("claims"), self.judges[it.kind].prepare(self.files, it))
        names = [it.name("claims").encode() for it in trials]
        outcome, wrong = self.run(["verify", "--explain", *(it.decode() for it in names), "none.claims"], trials)
        complaint, ties = without_ties(outcome.complaint, [escaped(rule_name(it.text)[0] or b"") for it in trials if it.kind == "rule"])
        (printed, more), (faults, others) = parted(outcome.printed, b"", names), parted(complaint, b"cafile: ", names)
        wrong += more + others + ties
        for it, name in zip(trials, names):
            it.printed, it.faults = printed[name], faults[name]
        status = max(it.status() for it in trials)
        wrong += [f"status {outcome.status}, not {status}"] if outcome.status != status else []
        return [f"texts {trials[0].number} to {trials[-1].number}: {it}" for it in wrong] + [it for trial in trials for it in self.complaints(trial)]

    def counted(self, trials):
        """What is wrong with a census of these texts, and with what is told of the faulty ones by `identify`."""
        censuses = Censuses(self.files, trials)
        if not censuses.paths():
            return []
        outcome = run(["census", *censuses.paths(), "--into", "into"], cwd=self.files.folder)
        wrong = [] if (outcome.complaint, outcome.status) == (b"", 2 * bool(censuses.faulty)) else [f"a census: {outcome}"]
        wrong += censuses.complaints(outcome.printed)
        faulty, (paths, printed) = [it.name("pattern") for it in censuses.faulty], censuses.claim_texts()
        for words, wanted in ((["verify", *paths, "none.claims"], ample(printed)),
                              (["identify", *faulty], Outcome(b"claims 2\n" + censuses.refused(), b"", 2)))[:1 + bool(faulty)]:
            got = run(words, cwd=self.files.folder)
            wrong += [] if got == wanted else [f"{' '.join(words)}: wanted {wanted}, got {got}"]
        return wrong

    def complaints(self, trial):
        """What is wrong with what was printed of a text."""
        wrong = self.judges[trial.kind].complaint(trial)
        return [f"{trial.kind} {trial.number}, {trial.text!r}: {wrong}; printed {trial.printed}, complained {trial.faults}"] if wrong else []

    def alone(self, trial):
        """What is wrong with runs over this text alone."""
        wrong = []
        for words, wanted in [(["verify", trial.name("claims")], trial.unexplained()), *self.judges[trial.kind].alone(trial)]:
            outcome, more = self.run(words, [trial])
            more += [] if outcome == wanted else [f"wanted {wanted}, got {outcome}"]
            wrong += [f"{' '.join(words)}, {trial.text!r}: {it}" for it in more]
        return wrong

    def judge(self, trials):
        """What is wrong with runs over these texts, all in one and some alone."""
        return self.together(trials) + self.counted(trials) + [it for trial in trials if trial.number // len(KINDS) % SAMPLED == 0 for it in self.alone(trial)]


def numbers():
    """The count of texts and the seed, as the words say."""
    words = argparse.ArgumentParser(description="Mutated texts of all four kinds.")
    words.add_argument("--count", type=int, default=20000)
    words.add_argument("--seed", type=int, default=1)
    said = words.parse_args()
    return said.count, said.seed


def main():
    tally, (count, seed) = Tally(), numbers()
    mutator = Mutator(random.Random(seed))
    for begin in range(0, count, TOLD):
        wrong = []
        for first in range(begin, min(begin + TOLD, count), AT_A_TIME):
            kinds = [(at, KINDS[at % len(KINDS)]) for at in range(first, min(first + AT_A_TIME, begin + TOLD, count))]
            with tempfile.TemporaryDirectory() as folder:
                wrong += Tester(folder).judge([Trial(kind, at, *mutator.text(kind)) for at, kind in kinds])
        tally.tell(f"texts {begin} to {min(begin + TOLD, count) - 1} of seed {seed}", wrong)
    tally.finish()


if __name__ == "__main__":
    main()
