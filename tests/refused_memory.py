#!/usr/bin/env -S python3 -B
"""Memory that is refused to the built program: it answers out of memory, for one claim, one text or the run, and never another thing.

Each allocation of a run is refused in turn, by tests/refuse.c, which is loaded before the C library's own allocator, until a run meets no refusal.
Of each run either nothing changed, or it ended with `cafile: memory` and printed nothing, or one line became `refused, memory`. Besides:

- each claim whose pattern reads is refused by some run, or by one that is refused all memory from an allocation on, where those before it are answered: so
  one that lacks memory doesn't end the whole run;
- once a claim's patterns were read and are kept, one refusal refuses no claim: it's judged again, and nothing is kept;
- a claim whose file, or a rule file, is missing, or whose rule file or RLE doesn't read, is refused for that in every run;
- claims are refused in their order, and no run ends whole once a claim was judged.

A run of `identify` prints all that it prints with ample memory, or of one file that memory is out; or nothing, or the lines on some first files, and
`cafile: memory`. So does a run of `census`; with `--into` the files are there whole of the censuses that are printed, and no other.

Of an explained run one claim may also be without its note, or a macrocell's note without the faulty line, or one without its rule; but where cells differ, a
file is missing or a rule file is bad, the note is always given. Of a run over several texts one text may be reported as out of memory and have no lines. A run
of `show`, `convert` or `draw` prints all that it prints with ample memory, or nothing and `cafile: memory`; where it is explained, its note may be without
the faulty line or the rule.

Of claims with many allocations some are tried, of `show`, `convert` and `draw` all. tests/address_space.py has memory that is refused by the system itself.

Last comes a call that no command reaches: a leap that is refused memory, and is asked for again then on the same leaper, comes to what it has to. A test of
ca_library_tests has it, which is built where it isn't yet.
"""
import itertools
import os
import re
import shutil
import subprocess

from lib import golden, remedies
from lib.census_files import Object, Settled, contents_of
from lib.long_texts import BLOCK, long_text, spelled
from lib.parts import try_each
from lib.program import ROOT, Outcome, Tally, lines_outcome, run
from lib.refusing import refusing_program
from lib.want_of_memory import NO_MEMORY, allowed, answers_in, consists_of, judged

# Golden runs of one claim text, and how many allocations are passed over between two that are refused.
CLAIM_TEXTS = {"block": 1, "glider": 1, "several": 1, "bad_patterns": 1, "rules": 1, "mixed_rules": 1, "states": 1, "pulsar": 1, "number": 1, "syntax": 1,
               "unknown_name": 1, "table_causes": 1, "bad_table": 1, "slide": 1, "tables": 5, "r_pentomino": 11, "soup": 11, "macrocells": 11,
               "bad_macrocells": 5, "generations": 11, "reactions": 11, "every_kind": 1, "three_planes": 1}

# Golden runs of `show`, `convert` and `draw`, in both formats, with a rule file and without, and with a fault; and of `import` and `rule`.
WORDS = ("show/rle", "show/macrocell", "show/table", "show/no_table", "show/bad_table", "show/timeline", "show/full_square", "show/generations",
         "convert/to_macrocell", "convert/to_rle", "convert/tidy_rle", "convert/both_leaves", "convert/table_to_macrocell", "convert/table_to_rle",
         "convert/empty_to_macrocell", "convert/too_many_cells", "convert/full_square", "convert/gun_to_macrocell", "convert/gun_to_rle",
         "convert/generations_to_macrocell", "identify/bad_table", "show/rules", "convert/rules", "show/rules_bad_table", "convert/explain_bad_table",
         "draw/glider", "draw/window", "draw/after", "draw/generations", "draw/table", "draw/full_square", "draw/empty", "draw/pgm", "draw/too_large",
         "draw/out_of_range", "draw/zoom",
         "show/after", "show/after_long", "show/after_work", "convert/after", "convert/after_gen_too_large",
         "import/plaintext", "import/life_105", "import/to_macrocell", "import/faulty", "import/apgcode", "import/faulty_apgcode", "rule/all_survive")

# The same with a note on the pattern's file, which may be without its faulty line or its rule.
NOTED = ("show/explain_syntax", "show/explain_forward", "show/rules_unknown", "convert/explain_unknown", "convert/explain_too_many_cells",
         "draw/explain_unknown")

# Golden runs of `verify` over one text, most of them with notes.
EXPLAINED = {"explain/several": 1, "explain/bad_patterns": 1, "explain/bad_macrocells": 3, "explain/bad_table": 1, "explain/no_rule_file": 1,
             "explain/causes": 1,
             "verify/folder_of_rules": 1, "verify/root": 1, "explain/rules": 1}

# Runs over several texts: the golden run of each text by itself.
SEVERAL = (
    (("verify",), ("verify/block", "verify/several")),
    (("verify",), ("verify/no_claims", "verify/states", "verify/block")),
    (("verify", "--explain"), ("explain/several", "explain/bad_table")),
    (("verify", "--explain", "--rules", "examples/rules"), ("verify/folder_of_rules", "explain/several", "explain/rules")),
)

# The tests of the libraries, the one of a refused leap, and how many allocations it makes at least: the leaper's memo, its store, its trees and its slots take more.
CRATE = os.path.join(ROOT, "crates", "ca_library_tests")
TESTS = os.path.join(CRATE, "out", "ca_library_tests_tests")
LEAP, FEWEST = "tests::generations::a_refused_leap_goes_on", 20

# Files of larger patterns, a soup in both formats, of which each allocation of `show`, of `convert` to either format and of `draw` is refused.
LARGER = ("tests/files/soup/soup.rle", "tests/files/soup/soup_40.mc")


def by_eighths():
    """The numbers from 1 onwards, each about an eighth greater than the one before."""
    return itertools.accumulate(itertools.repeat(1), lambda number, least: number + max(least, number // 8))


def try_claim_texts(tally, refusing, _):
    """Each allocation of runs over some claim texts in turn."""
    for name, step in CLAIM_TEXTS.items():
        words, ample = golden.words(f"verify/{name}"), golden.outcome(f"verify/{name}")
        outcomes = refusing.sweep(words, itertools.count(1, step))
        for_good = refusing.sweep(words, itertools.count(1), goes_on=True) if step == 1 else None
        complaints, told = judged(ample, outcomes, for_good)
        complaints += wrong_for_good(ample, for_good or {})
        tally.tell(f"refused memory, verify/{name}: {told}", complaints if outcomes else ["no allocation was refused"])


def tell_sweep(tally, name, texts, outcomes):
    """Tells whether each outcome of a sweep is allowed, and some run met a refusal of each kind."""
    may_be, refused = allowed(texts), sum(b": refused, memory\n" in it.printed for it in outcomes.values())
    complaints = [f"allocation {number}: {it}" for number, it in outcomes.items() if it not in may_be]
    if NO_MEMORY not in outcomes.values():
        complaints.append("no run met out of memory")
    tally.tell(f"refused memory, {name}: {len(outcomes)} allocations refused, {refused} times one claim", complaints)


def try_explained(tally, refusing, _):
    """Each allocation of some explained runs in turn: a claim is refused, or its note is less or isn't there where it isn't promised."""
    for case, step in EXPLAINED.items():
        outcomes = refusing.sweep(golden.words(case), itertools.count(1, step))
        tell_sweep(tally, case, [(b"", answers_in(golden.outcome(case).printed))], outcomes)


def text_of(case):
    """The path of the claim text that a golden run is over."""
    return golden.words(case)[-1]


def try_several(tally, refusing, _):
    """Each allocation of some runs over several texts in turn: one text is out of memory, or one claim."""
    for words, cases in SEVERAL:
        paths = [text_of(case) for case in cases]
        texts = [(f"{path}: ".encode(), answers_in(golden.outcome(case).printed)) for path, case in zip(paths, cases)]
        outcomes = refusing.sweep([*words, *paths], itertools.count(1))
        tell_sweep(tally, " ".join([*words, *cases]), texts, outcomes)
        ended = {it.complaint for it in outcomes.values()}
        unmet = [path for path in paths if f"cafile: {path}: memory\n".encode() not in ended]
        tally.tell(f"each text is out of memory in some run, {' '.join(cases)}", unmet)


def wrong_ones(ample, outcomes):
    """The outcomes that are neither the ample one nor out of memory with nothing printed."""
    return [f"allocation {number}: {it}" for number, it in outcomes.items() if it not in (ample, NO_MEMORY)]


def tell_words(tally, refusing, words, ample, name, less=None):
    """Tells whether all is printed as with ample memory, or nothing, of a run of which each allocation in turn is refused; or what is less, where that is
    given."""
    outcomes = refusing.sweep(words, itertools.count(1))
    complaints = wrong_ones(ample, {number: it for number,
                                    it in outcomes.items() if it != less}) or ([] if NO_MEMORY in outcomes.values() else ["no run met out of memory"])
    tally.tell(f"refused memory, {name}: {len(outcomes)} allocations refused", complaints)


def try_words(tally, refusing, _):
    """Each allocation of some golden runs of `show`, `convert` and `draw` in turn."""
    for case in WORDS:
        tell_words(tally, refusing, golden.words(case), golden.outcome(case), case)
    for case in NOTED:
        ample = golden.outcome(case)
        less = Outcome(b"", re.sub(rb"(?m)^(  \S+?)(?:, line [0-9]+|: rule .*(?:\n  try: .*)?)$", rb"\1", ample.complaint), ample.status)
        tell_words(tally, refusing, golden.words(case), ample, case, less)


def identified(head, lines, is_explained=False):
    """What a run of `identify` comes to that prints these lines on its files after this, and the lines of a fault of spelling where that is explained."""
    helps = remedies.line("bad pattern: rle syntax", b"").decode()
    notes = [f"  {path}, line {line}\n{helps}" for it in lines for path, line in re.findall(r"^# \S+: (\S+): .*, line (\d+)$", it, re.M)]
    return Outcome((head + "".join(lines)).encode(), "".join(notes * is_explained).encode(),
                   2 if any(re.search("^# .*: .*: ", it, re.M) for it in lines) else 0)


def try_identify(tally, refusing, _):
    """Each allocation of some runs of `identify` in turn, and each with all after it: all is printed, or of one file that memory is out, or nothing, or the
    lines on some first files."""
    files = {"glider": ("examples/glider.rle", "spaceship glider 4 1 1"), "diehard": ("examples/reactions/diehard.rle", "dies diehard 130"),
             "empty": ("examples/empty.rle", "# empty: no cell is live"), "blocks": ("tests/files/macrocell/blocks.mc", "still blocks")}
    lines = [f"load {name} {path}\n{told}\n" for name, (path, told) in files.items()]
    lines.append("# syntax: examples/bad/syntax.rle: bad pattern: rle syntax, line 2\n")
    paths = [*(path for path, _ in files.values()), "examples/bad/syntax.rle"]
    clock, rule = "examples/tables/wireworld_clock.rle", "examples/tables/wireworld.rule"
    version = "claims 2\n"
    for words, names, head, wanted in ((["identify", *paths], [*files, "syntax"], version, lines),
                                       (["identify", "--explain", *paths], [*files, "syntax"], version, lines),
                                       (["identify", "examples/lost"], ["lost"], version, ["# lost: examples/lost: no file\n"]),
                                       (["identify", "--rule", rule, clock], ["wireworld_clock"], f"{version}rule {rule}\n",
                                        [f"load wireworld_clock {clock}\noscillator wireworld_clock 6\n"])):
        explained = "--explain" in words
        whole = identified(head, wanted, explained)
        memory = [f"# {name}: {path}: memory\n" for name, path in zip(names, words[-len(names):])]
        refused = {identified(head, [*wanted[:at], memory[at], *wanted[at + 1:]], explained) for at in range(len(wanted)) if "no file" not in wanted[at]}
        ended = {NO_MEMORY, *(Outcome((head + "".join(wanted[:at])).encode(), NO_MEMORY.complaint, 2) for at in range(len(wanted)))}
        for goes_on, may_be in ((False, {whole, *ended, *refused}), (True, {whole, *ended})):
            outcomes = refusing.sweep(words, itertools.count(1), goes_on=goes_on)
            complaints = [f"allocation {number}: {it}" for number, it in outcomes.items() if it not in may_be]
            complaints += [f"never met: {it}" for it in may_be - {whole, *outcomes.values()}]
            tally.tell(f"refused memory{' for good' * goes_on}, {' '.join(words)}: {len(outcomes)} allocations refused", complaints)


def counted(lines):
    """What a run of `census` comes to that prints these lines on its files."""
    return Outcome(b"".join(lines), b"", 2 * any(re.match(rb"# \S+: \S+: ", it) is not None for it in lines))


def may_be_counted(paths, lines):
    """What a run of `census` that prints these lines on the files of these paths may come to where an allocation is refused, and where all after it are."""
    names = [os.path.splitext(os.path.basename(path))[0] for path in paths]
    memory = [f"# {name}: {path}: memory\n".encode() for name, path in zip(names, paths)]
    ended = {Outcome(b"".join(lines[:at]), NO_MEMORY.complaint, 2) for at in range(len(lines))}
    refused = {counted([*lines[:at], memory[at], *lines[at + 1:]]) for at in range(len(lines)) if b": no file\n" not in lines[at]}
    return {counted(lines), *ended, *refused}, {counted(lines), *ended}


def try_census(tally, refusing, _):
    """Each allocation of some runs of `census` in turn, and each with all after it: all is printed, or of one file that memory is out, or nothing, or the lines
    on some first files. Of a longer run some."""
    known = {"examples/glider.rle": b"# glider: settles after 0 generations: 1 object, 5 cells\n1 xq4_153\n",
             "examples/lost": b"# lost: examples/lost: no file\n",
             "tests/files/state_1.rle": b"# state_1: settles after 1 generation: 0 objects, 0 cells\n",
             "examples/bad/syntax.rle": b"# syntax: examples/bad/syntax.rle: bad pattern: rle syntax, line 2\n"}
    clock = {"examples/tables/wireworld_clock.rle": b"# wireworld_clock: settles after 0 generations: 1 object, 6 cells\noscillator 6 at 0,0: 6 cells\n"}
    dying = {"examples/reactions/diehard.rle": b"# diehard: settles after 130 generations: 0 objects, 0 cells\n"}
    for words, files in (([], known), (["--list", "--rule", "examples/tables/wireworld.rule"], clock), ([], dying)):
        for goes_on, may_be in zip((False, True), may_be_counted(list(files), list(files.values()))):
            outcomes = refusing.sweep(["census", *words, *files], by_eighths() if files is dying else itertools.count(1), goes_on=goes_on)
            complaints = [f"allocation {number}: {it}" for number, it in outcomes.items() if it not in may_be]
            complaints += [f"never met: {it}" for it in may_be - {counted(files.values()), *outcomes.values()} if files is not dying]
            tally.tell(f"refused memory{' for good' * goes_on}, {' '.join(['census', *words, *files])}: {len(outcomes)} allocations refused", complaints)


def try_census_files(tally, refusing, files):
    """The same of a run that writes files: those of the censuses that are printed are there, whole, and nothing else."""
    block = Object({(x, y): 1 for x in (0, 1) for y in (0, 1)}, "still", "", "xs4_33")
    each = [Settled("two.rle", "two", [block, block.moved(9, 9)]), Settled("one.rle", "one", [block])]
    for it in each:
        files.path(it.path, it.tidy({place: 1 for one in it.objects for place in one.cells}))
    words, into, lines = ["census", *(it.path for it in each), "--into", "into"], files.path("into"), [it.counts() for it in each]
    for goes_on, may_be in zip((False, True), may_be_counted([it.path for it in each], lines)):
        complaints, met = [], 0
        shutil.rmtree(into, ignore_errors=True)
        for number, got in refusing.each_until_unmet(words, "REFUSE", itertools.count(1), {"REFUSE_ON": 1} if goes_on else {}, cwd=files.folder):
            wanted, met = {name: content for it in each if it.counts() in got.printed for name, content in it.files("into").items()}, number
            there = contents_of(into)
            if got not in may_be or (there or {}) != wanted:
                complaints.append(f"allocation {number}: {got}, with the files {sorted(there or {})}")
            shutil.rmtree(into, ignore_errors=True)
        whole = {**each[0].files("into"), **each[1].files("into")}
        complaints += [] if contents_of(into) == whole else ["the files of a run with ample memory aren't there"]
        tally.tell(f"refused memory{' for good' * goes_on}, {' '.join(words)}: {met} allocations refused", complaints if met else ["no allocation was refused"])


def try_larger(tally, refusing, _):
    """Each allocation in turn of `show`, `convert` and `draw` on larger patterns, which with ample memory print something."""
    for path, words in itertools.product(LARGER,
                                         (["show"], ["convert", "--to", "rle"], ["convert", "--to", "mc"], ["draw"], ["draw", "--to", "pgm", "--after", "1"])):
        ample = run([*words, path])
        tally.tell(f"ample memory, {' '.join(words)} {path}", [] if ample.printed and (ample.complaint, ample.status) == (b"", 0) else [str(ample)])
        tell_words(tally, refusing, [*words, path], ample, f"{' '.join(words)} {path}")


def try_large(tally, refusing, files):
    """Some of the allocations of a long claim text, of one with many paths, and of a long run."""
    r_pentomino = ["load r examples/r_pentomino.rle", "load s tests/files/r_pentomino_1103.rle", "becomes r 1103 s", "becomes r 1102 s", "becomes s 0 s"]
    for name, (lines, verdicts) in {
        "a long claim text": long_text(),
        "200 paths": ([*(f"load n{at} {path}" for at, path in enumerate(spelled(BLOCK, 200))), *(f"still n{at}" for at in range(200))],
                      [(201 + at, "yes") for at in range(200)]),
        "1103 generations": (r_pentomino, [(3, "yes"), (4, "no, cells differ after 1102"), (5, "yes")]),
    }.items():
        path = files.path("large.claims", "\n".join(lines) + "\n")
        outcomes = refusing.sweep(["verify", path], by_eighths())
        complaints, told = judged(lines_outcome(verdicts), outcomes)
        tally.tell(f"refused memory, {name}: {told}", complaints if outcomes else ["no allocation was refused"])


def wrong_for_good(ample, outcomes):
    """What is wrong with the outcomes of a sweep that goes on, over one text: each is the ample one, out of memory, or has claims that are."""
    answers = answers_in(ample.printed)
    return [f"from allocation {number} on: {it}" for number, it in outcomes.items()
            if it not in (ample, NO_MEMORY) and not consists_of([(b"", answers)], it)]


def try_for_good(tally, refusing, _):
    """An allocation and all after it: the complaint itself takes none, and the answers on the claims that were judged before are printed."""
    for words in (["verify", "tests/golden/verify/syntax/claims"], ["verify", "examples/lost"], ["--help"], ["verify"],
                  ["draw", "examples/glider.rle"], ["show", "examples/macrocell/glider.mc"], ["convert", "examples/glider.rle", "--to", "mc"],
                  ["show", "examples/lost"]):
        ample, outcomes = run(words), refusing.sweep(words, itertools.count(1), goes_on=True)
        wrong = wrong_ones(ample, outcomes)
        tally.tell(f"memory refused for good, {' '.join(words)}: {len(outcomes)} runs", wrong if outcomes else ["no allocation was refused"])
    for words, cases in ((("verify",), ("verify/several",)), (("verify", "--explain"), ("explain/several",)),
                         (("verify", "--explain", "--rules", "examples/rules"), ("explain/rules",)), *SEVERAL):
        texts = [(f"{text_of(case)}: ".encode() if len(cases) > 1 else b"", answers_in(golden.outcome(case).printed)) for case in cases]
        outcomes = refusing.sweep([*words, *map(text_of, cases)], itertools.count(1), goes_on=True)
        wrong = [f"allocation {number}: {it}" for number, it in outcomes.items() if it != NO_MEMORY and not consists_of(texts, it)]
        tally.tell(f"memory refused for good, {' '.join([*words, *cases])}: {len(outcomes)} runs", wrong if outcomes else ["no allocation was refused"])


def are_built():
    """Whether the tests of the libraries are there, or could be built."""
    if not os.access(TESTS, os.X_OK):
        subprocess.run(["rt", "test"], cwd=CRATE, stdin=subprocess.DEVNULL, stdout=subprocess.DEVNULL, stderr=subprocess.DEVNULL, check=False)
    return os.access(TESTS, os.X_OK)


def try_leap(tally, refusing, _):
    """Each allocation of the test of a refused leap in turn: it passes as with ample memory."""
    if not are_built():
        tally.tell("refused leaps", ["the tests of ca_library_tests could not be built"])
        return
    outcomes = refusing.until_unmet([LEAP], "REFUSE", itertools.count(1), program=TESTS)
    complaints = [f"allocation {number}: {it}" for number, it in outcomes.items() if (it.complaint, it.status) != (b"", 0)]
    if len(outcomes) < FEWEST:
        complaints.append(f"no more than {len(outcomes)} allocations were refused")
    tally.tell(f"a leap goes on after a refusal: {len(outcomes)} allocations refused", complaints)


def main():
    tally = Tally()
    with refusing_program(tally, "refused memory") as (_, refusing):
        if refusing:
            try_each(tally, (try_claim_texts, try_explained, try_several, try_words, try_identify, try_census, try_census_files, try_larger, try_for_good, try_large, try_leap), refusing)
    tally.finish()


if __name__ == "__main__":
    main()
