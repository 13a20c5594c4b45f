#!/usr/bin/env -S python3 -B
"""Options in pairs: of `show`, `convert`, `draw`, `identify`, `census` and `verify` each two that may be given together, in both orders, and each alone.

What an option does alone is seen beside the other. What is expected is put together here of what each of them does, over planes that are stepped here. Each
option that has a value is also given beside one that is no value of its own. The clock is that of tests/refuse.c, so that it is known what `--progress` shows.
"""
import itertools
import os
import re
import shutil

from lib.census_files import Object, Settled, contents_of
from lib.claim_text import Answer, outcome
from lib.parts import try_each
from lib.pictures import box_of, cells_squares, picture, wanted_window
from lib.program import Outcome, Tally, ample, fault, run
from lib.refusing import refusing_program
from lib.remedies import explained
from lib.shown import WIPE, digits, identified_shown, shown_of
from lib.small_files import COMMANDS, printed_by_commands, with_file
from lib.steps import next_live

# Under the table that is given by its path the states 1 and 2 turn into each other, and under that of the folder all stay.
STAYING = "@RULE Turn\n@TABLE\nn_states:3\nneighborhood:oneDimensional\nsymmetries:none\n"
TURNING = STAYING + "1,0,0,2\n2,0,0,1\n"

TURNED, GLIDER = {(0, 0): 1, (2, 0): 2}, frozenset(((1, 0), (2, 1), (0, 2), (1, 2), (2, 2)))
TURN_TEXT, GLIDER_TEXT = "x = 3, y = 1, rule = Turn\nA.B!\n", "x = 3, y = 3, rule = B3/S23\nbo$2bo$3o!\n"
DOT, BLOCK = "x = 1, y = 1, rule = B3/S23\no!\n", "x = 2, y = 2, rule = B3/S23\n2o$2o!\n"

# Options of every command that runs patterns, those of the commands for one file, and those of `draw` and `identify`, each with its value.
LIMITS = {"--memo": "1", "--work": "0", "--max-memory": "1", "--explain": None, "--progress": None}
PATTERN = {**LIMITS, "--after": "1", "--rule": "given.rule", "--rules": "rules"}
WINDOWS = {**PATTERN, "--at": "0,0", "--size": "2,2", "--scale": "1", "--zoom": "2", "--to": "pgm"}
SEARCH = {**PATTERN, "--limit": "3", "--apgcode": None}
COUNTED = {**PATTERN, "--limit": "3", "--list": None, "--into": "into"}
CLAIMED = {**LIMITS, "--rules": "rules", "--root": "root"}

# Options beside which `identify` has other work to do.
SEARCHED = ("--limit", "--apgcode")

# Values that an option doesn't take, and the fault, or None where the library that reads the words tells it.
FAULTY = {"--memo": ("0", None), "--work": ("-1", None), "--max-memory": ("0", None), "--after": ("x", None), "--limit": ("-1", None), "--at": ("5", None),
          "--size": ("0,1", None), "--scale": ("125", None), "--zoom": ("65", None), "--to": ("png", None), "--rule": ("lost.rule", "cannot read lost.rule"),
          "--rules": ("lost", "cannot read lost"), "--root": ("lost", "cannot read lost"), "--into": ("lost/into", "cannot write lost/into")}


def sets_of(options):
    """Each option alone, each two in both orders, and none; and each two beside generations that are run, since some have no effect without these."""
    pairs = list(itertools.permutations(options, 2))
    return [(), *((it,) for it in options), *pairs, *((*it, "--after") for it in pairs if "--after" in options and "--after" not in it)]


def words_of(said, options):
    """The words of these options."""
    return [word for it in said for word in (it, options[it]) if word is not None]

# How long a glider goes in runs of which much is remembered, and else computed again and again; and more work than any of them needs.
LONG, ENOUGH_WORK = 1 << 40, 1 << 20


class Pairs:
    """Runs in a folder of their own, over small files, of which one test tells for each command."""

    def __init__(self, refusing, files):
        self.refusing, self.files, self.complaints, self.count = refusing, files, [], 0
        for name in ("rules", "root"):
            os.mkdir(files.path(name))
        for name, text in (("given.rule", TURNING), ("rules/Turn.rule", STAYING), ("turn.rle", TURN_TEXT), ("glider.rle", GLIDER_TEXT), ("dot.rle", DOT),
                           ("root/dot.rle", BLOCK), ("root/turn.rle", TURN_TEXT)):
            files.path(name, text)

    def expect(self, words, wanted, open_progress=False):
        """Runs the program, and expects this. Where it is open what is shown meanwhile, that is passed over, where something is shown."""
        got, _ = self.refusing.run(words, {"CLOCK_STEP": 1000}, cwd=self.files.folder)
        if open_progress and got.complaint.startswith(WIPE):
            got = Outcome(got.printed, re.sub(rb"(\r\x1b\[K[^\r]*)*\r\x1b\[K", b"", got.complaint), got.status)
        self.count += 1
        if got != wanted:
            self.complaints.append(f"{' '.join(words)}: wanted {wanted}, got {got}")

    def expect_faulty(self, command, options):
        """Each faulty value beside each other option is told."""
        for name, other in itertools.permutations(options, 2):
            if name in FAULTY and not {name, other} >= {"--zoom", "--scale"} and not (command[0] == "convert" and name == "--to"):
                value, told = FAULTY[name]
                more = ["--to", "pgm"] if "--zoom" in (name, other) and "--to" not in (name, other) else []
                got = run([*command, name, value, *words_of([other], options), *more], cwd=self.files.folder)
                self.count += 1
                if (got != fault(told)) if told else not got.complaint or (got.printed, got.status) != (b"", 2):
                    self.complaints.append(f"{command} {name} {value} {other}: {got}")

    def tell(self, tally, name):
        """Tells the runs as one test."""
        tally.tell(f"{name}: {self.count} runs", self.complaints)
        self.complaints, self.count = [], 0


def later(name, said):
    """The cells of a file after the generations of these options, under the table that counts."""
    cells = TURNED if name == "turn" else dict.fromkeys(GLIDER, 1)
    if "--after" not in said:
        return cells
    if name == "glider":
        return dict.fromkeys(next_live(GLIDER, {3}, {2, 3}), 1)
    return {place: 3 - state for place, state in cells.items()} if "--rule" in said else cells


def refusal(told, note, said, shown=b""):
    """The outcome of a run that is refused for this, after what was shown meanwhile."""
    wanted = explained(told, note) if "--explain" in said else fault(told)
    return Outcome(b"", shown + wanted.complaint, 2)


def wanted_of(name, said, printed):
    """What comes of a command for one file with these options, where it prints this of the cells; None where there is no window."""
    path = f"{name}.rle"
    if name == "turn" and not {"--rule", "--rules"} & set(said):
        return refusal("bad rule: unknown", f"{path}: rule Turn", said)
    runs, is_shown = "--after" in said, {"--after", "--progress"} <= set(said)
    if runs and "--work" in said:
        return refusal("work", path, said, shown_of(path.encode(), [(1, [0])], 1000) if is_shown else b"")
    shown = shown_of(path.encode(), [digits(1)], 1000) if is_shown else b""
    return refusal("window too large", path, said, shown) if printed is None else Outcome(printed, shown, 0)


def try_commands(tally, refusing, files):
    """`show`, `convert` and `draw` without a window."""
    pairs = Pairs(refusing, files)
    for said, name in itertools.product(sets_of(PATTERN), ("turn", "glider")):
        rule, states = ("Turn", 3) if name == "turn" else ("B3/S23", 2)
        for command, printed in zip(COMMANDS, printed_by_commands("rle", rule, states, later(name, said), int("--after" in said))):
            pairs.expect(with_file(command, f"{name}.rle", *words_of(said, PATTERN)), wanted_of(name, said, printed))
    for command in (["show", "glider.rle"], ["convert", "glider.rle", "--to", "rle"]):
        pairs.expect_faulty(command, PATTERN)
    pairs.tell(tally, "show, convert and draw")


def try_draw(tally, refusing, files):
    """`draw` with the words of its window. A zoom is one of an image, and of no scale."""
    pairs = Pairs(refusing, files)
    for said, name in itertools.product(sets_of(WINDOWS), ("turn", "glider")):
        if {"--zoom", "--scale"} <= set(said):
            continue
        more = [] if "--zoom" not in said or "--to" in said else ["--to", "pgm"]
        to = "pgm" if {"--zoom", "--to"} & set(said) else "text"
        cells, states = later(name, said), 3 if name == "turn" else 2
        asked = {"at": (0, 0) if "--at" in said else None, "size": (2, 2) if "--size" in said else None, "scale": 1 if "--scale" in said else None,
                 "zoom": 2 if "--zoom" in said else None, "to": to}
        window = wanted_window(box_of(cells), **asked)
        printed = picture(cells_squares(cells, window), window, states, to, asked["zoom"]) if window else None
        pairs.expect(["draw", f"{name}.rle", *words_of(said, WINDOWS), *more], wanted_of(name, said, printed))
    pairs.expect_faulty(["draw", "glider.rle"], WINDOWS)
    pairs.tell(tally, "draw")


def found_of(name, said):
    """What `identify` tells of a file with these options, how many generations it looks at, and the code."""
    if name == "turn":
        return ("oscillator 2", 2, None) if "--rule" in said else ("still", 1, None)
    begun = int("--after" in said)
    if "--limit" in said:
        return f"none of these within 3 generations: 5 cells, in a box of 3 by 3, after {3 + begun}", 3, None
    return "spaceship 4 1 1", 4, "xq4_153"


def identified(name, said):
    """The lines on a file, and what is shown and explained of it."""
    path, word = f"{name}.rle", " after 1 generation" if "--after" in said else ""
    if name == "turn" and not {"--rule", "--rules"} & set(said):
        return f"# turn: {path}: bad rule: unknown\n", b"", explained("bad rule: unknown", f"{path}: rule Turn").complaint.split(b"\n", 1)[1]
    if "--work" in said:
        return f"# {name}: {path}: work\n", b"", b""
    told, looked_at, code = found_of(name, said)
    kind, _, numbers = told.partition(" ")
    claim = f"# {name}{word}: {told}" if word or kind == "none" else " ".join(filter(None, (kind, name, numbers)))
    coded = f"# {name}{word}: {code}\n" if code and "--apgcode" in said else ""
    shown = identified_shown(path, 3 if "--limit" in said else 65536, looked_at, 1000, int(bool(word))) if "--progress" in said else b""
    return f"load {name} {path}\n{claim}\n{coded}", shown, b""


def try_identify(tally, refusing, files):
    """`identify` over two files."""
    pairs = Pairs(refusing, files)
    for said in sets_of(SEARCH):
        each = [identified(name, said) for name in ("glider", "turn")]
        rules = "rule given.rule\n" if "--rule" in said else "rule rules/Turn.rule\n" if "--rules" in said else ""
        printed = f"claims 2\n{rules}{''.join(lines for lines, _, _ in each)}".encode()
        notes = b"".join(note for _, _, note in each) if "--explain" in said else b""
        is_open = "--progress" in said and bool({"--work", "--apgcode"} & set(said))
        shown = b"" if is_open else b"".join(it for _, it, _ in each)
        refused = any(lines.endswith((": work\n", ": unknown\n")) for lines, _, _ in each)
        pairs.expect(["identify", "glider.rle", *words_of(said, SEARCH), "turn.rle"], Outcome(printed, shown + notes, 2 * refused), is_open)
    pairs.expect_faulty(["identify", "glider.rle"], SEARCH)
    pairs.tell(tally, "identify")


def settled(name, said):
    """The census of a file with these options; None where its rule isn't known or work is used up."""
    rules = ["given.rule"] if "--rule" in said else ["rules/Turn.rule"] if "--rules" in said else []
    cells, start = later(name, said), int("--after" in said)
    if start and "--work" in said or name == "turn" and not rules:
        return None
    if name == "glider":
        return Settled("glider.rle", name, [Object(cells, "spaceship", " 4 1 1", "xq4_153")], start=start, rules=rules)
    kind = ("oscillator", " 2") if "--rule" in said else ("still",)
    return Settled("turn.rle", name, [Object({place: state}, *kind) for place, state in cells.items()], start=start, rule="Turn", states=3, rules=rules)


def try_census(tally, refusing, files):
    """`census` over two files, with the files that it writes."""
    pairs, into = Pairs(refusing, files), files.path("into")
    for said in sets_of(COUNTED):
        shutil.rmtree(into, ignore_errors=True)
        unknown = not {"--rule", "--rules"} & set(said)
        found = {name: settled(name, said) for name in ("glider", "turn")}
        told = [(it.listed() if "--list" in said else it.counts()) if it else
                f"# {name}: {name}.rle: {'bad rule: unknown' if name == 'turn' and unknown else 'work'}\n".encode() for name, it in found.items()]
        note = explained("bad rule: unknown", "turn.rle: rule Turn").complaint.split(b"\n", 1)[1] if unknown and "--explain" in said else b""
        pairs.expect(["census", "glider.rle", *words_of(said, COUNTED), "turn.rle"],
                     Outcome(b"".join(told), note, 2 * (None in found.values())), "--progress" in said)
        wanted = {name: content for it in found.values() if it for name, content in it.files("into").items()} if "--into" in said else None
        there = contents_of(into)
        pairs.complaints += [] if there == wanted else [f"census with {said}: wanted the files {wanted}, got {there}"]
    pairs.expect_faulty(["census", "glider.rle"], COUNTED)
    pairs.tell(tally, "census")


def answers_of(said):
    """The answers to the claims of the text."""
    dot = Answer(4, "yes") if "--root" in said else Answer(4, "no, cells differ after 1", b"dot at 0,0: 0 after 1 generation, claimed 1")
    turn = Answer(5, "yes") if "--rules" in said else Answer(5, "refused, bad rule: unknown", b"turn: turn.rle: rule Turn")
    if "--work" in said:
        dot, turn = Answer(4, "refused, work"), Answer(5, "refused, work") if "--rules" in said else turn
    return [dot, turn, Answer(6, "refused, no file", b"lost: lost.rle: no such file")]


def try_verify(tally, refusing, files):
    """`verify` over a text whose first file is another one in the root."""
    pairs = Pairs(refusing, files)
    files.path("text.claims", "load dot dot.rle\nload turn turn.rle\nload lost lost.rle\nbecomes dot 1 dot\nstill turn\nstill lost\n")
    for said in sets_of(CLAIMED):
        answers = answers_of(said)
        wanted = outcome(answers, "--explain" in said)
        is_open = {"--progress", "--work"} <= set(said)
        lines = [it.line for it in answers if not it.verdict.startswith("refused")] if "--progress" in said and not is_open else []
        shown = b"".join(shown_of(b"line %d" % line, [digits(1)], 1000) for line in lines)
        pairs.expect(["verify", *words_of(said, CLAIMED), "text.claims"], Outcome(wanted.printed, shown, wanted.status), is_open)
    pairs.expect_faulty(["verify", "text.claims"], CLAIMED)
    pairs.tell(tally, "verify")


def least_work(words, folder):
    """The smallest work with which a run isn't refused."""
    low, high = 0, ENOUGH_WORK
    while high - low > 1:
        middle = (low + high) // 2
        low, high = (low, middle) if run([*words, "--work", str(middle)], cwd=folder).status == 0 else (middle, high)
    return high


def try_memo(tally, refusing, files):
    """A small memo beside each other option: with it a long run needs more work than without. How much work that is, is the program's own count."""
    pairs = Pairs(refusing, files)
    far = LONG // 4
    files.path("far.rle", f"#CXRLE Pos={far},{far}\n" + GLIDER_TEXT)
    files.path("long.claims", f"load glider glider.rle\nload far far.rle\nbecomes glider {LONG} far\n")
    for name in ("glider.rle", "far.rle"):
        os.symlink(f"../{name}", files.path(f"root/{name}"))
    after = ["glider.rle", "--after", str(LONG)]
    for words, options in ((["show", *after], PATTERN), (["convert", *after, "--to", "mc"], PATTERN), (["draw", *after, "--to", "pgm"], WINDOWS),
                           (["identify", *after], SEARCH), (["census", *after], COUNTED), (["verify", "long.claims"], CLAIMED)):
        usual = least_work(words, files.folder)
        for name in options:
            if name in ("--memo", "--work", "--after", "--to", "--into"):
                continue
            beside = [*words, *words_of([name], options)]
            work = ["--work", str(least_work(beside, files.folder) if name in SEARCHED else usual)]
            small = run([*beside, *work, "--memo", "1"], cwd=files.folder)
            pairs.count += 1
            if run([*beside, *work], cwd=files.folder).status or small.status != 2 or b"work" not in small.printed + small.complaint:
                pairs.complaints.append(f"{' '.join([*beside, *work])} --memo 1: {small}")
    pairs.tell(tally, "a small memo")


def main():
    tally = Tally()
    with refusing_program(tally, "options in pairs") as (_, refusing):
        try_each(tally, (try_commands, try_draw, try_identify, try_census, try_verify, try_memo) if refusing else (), refusing)
    tally.finish()


if __name__ == "__main__":
    main()
