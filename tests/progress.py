#!/usr/bin/env -S python3 -B
"""What is seen while a run goes on: each answer as soon as it is known, and the line that tells how far the run is.

- An answer is printed as soon as its claim is judged, and what a file is as soon as it is identified. A run that is stopped half-way, or whose reader ends first,
  has shown what was found.
- On a terminal, and with `--progress` elsewhere too, a line on standard error tells how far a claim or a run of `--after` is that has taken a second. It is wiped
  before what is printed. Standard output is that of a run without the word, and a quick run writes nothing to standard error.

The clock is that of tests/refuse.c, which finds itself a given number of milliseconds further at each look, so that it is known what is shown. The program
looks at it where a claim begins, and then wherever it may show a line. One run has the clock of the machine.
"""
import itertools
import os
import random
import re
import select
import signal
import subprocess
import time

from lib import ageing, rle
from lib.ageing import AgeingRule
from lib.claim_text import ClaimText
from lib.planes import distinct_squares
from lib.parts import try_each
from lib.program import MOST_WAITING, PROGRAM, ROOT, Outcome, Tally, run
from lib.refusing import refusing_program
from lib.shown import WIPE, digits, identified_shown, shown_of
from lib.terminal import on_terminal

PENTOMINO, OSCILLATOR = "examples/r_pentomino.rle", "tests/files/pentadecathlon.rle"

# Steps of the clock in milliseconds: claims take a second before anything is shown, after something is, or never.
STEPS = (1000, 999, 500, 400, 60, 0)

# A rule of four states as a table, by which planes are leapt over.
TABLE = ageing.table_of(AgeingRule.of("345/2/4"), "Ageing")

LOAD_BLOCK = "load block examples/block.rle\n"

# How long the first lines are waited for, in seconds. They take a small part of one.
SECONDS = 600


def each(count):
    """The same where a plane is stepped."""
    return count, list(range(count + 1))


def halves(count, span):
    """The runs of a claim that a pattern dies after `count` generations, where it does after `span`: the claim's own, and those of the times half-way."""
    runs, low, high = [digits(count)], 0, count
    while high - low > 1:
        middle = (low + high) // 2
        runs.append(digits(middle))
        low, high = (low, middle) if middle >= span else (middle, high)
    return runs


class Watched(ClaimText):
    """A claim text, and what each claim's run goes through."""

    def __init__(self, files):
        super().__init__(files)
        self.runs = []

    def long_claim(self, text, verdict, *runs):
        """A claim with its verdict, and the runs that it takes: the generations of each, and those that are reached one after another."""
        self.claim(text, verdict)
        self.runs.append(runs)

    def on_line(self, line):
        """The next line has this number."""
        self.lines += [b""] * (line - 1 - len(self.lines))

    def shown(self, milliseconds, before=b""):
        """What is shown of each claim, where each look at the clock finds it `milliseconds` further: a list of writes for each."""
        return [shown_of(before + b"line %d" % answer.line, runs, milliseconds) for answer, runs in zip(self.answers, self.runs)]


def claims(files):
    """A claim text whose claims go through some runs."""
    text = Watched(files)
    text.lines.append(b"claims 2")
    text.load_path("r", PENTOMINO)
    text.load_path("s", "tests/files/r_pentomino_1103.rle")
    text.load_path("blinker", "examples/blinker.rle")
    text.load_path("block", "examples/block.rle")
    text.load_path("glider", "examples/glider.rle")
    text.load_path("diehard", "examples/reactions/diehard.rle")
    text.load("empty", "x = 1, y = 1\n!")
    text.long_claim("still block", "yes", digits(1))
    text.long_claim("becomes r 1103 s", "yes", digits(1103))
    text.long_claim("becomes r 1102 s", "no, cells differ after 1102", digits(1102))
    text.long_claim("becomes r 0 s", "no, cells differ after 0", (0, [0]))
    text.long_claim("becomes r 65535 s", "no, cells differ after 65535", digits(65535))
    # after the claim's own generations those of earlier times are shown, at which the pattern may be back: the time divided by a prime, the largest first
    text.long_claim("oscillator blinker 6", "no, the same after 2, shifted by 0,0", digits(6), digits(2), digits(1))
    text.long_claim("oscillator blinker 2", "yes", digits(2), digits(1))
    text.long_claim("spaceship glider 4 1 1", "yes", digits(4), digits(2))
    text.long_claim("spaceship glider 4 1 0", "no, cells differ after 4", digits(4))
    text.long_claim("becomes glider 4 glider shift 1 1", "yes", digits(4))
    # and those of times at which it may be dead
    text.long_claim("dies diehard 130", "yes", *halves(130, 130))
    text.long_claim("dies diehard 1000", "no, empty after 130", *halves(1000, 130))
    text.long_claim("dies diehard 129", "no, cells differ after 129", digits(129))
    text.long_claim("still empty", "no, empty")
    for line in (999, 1000, 1001, 65536, 100000, 131073):
        text.on_line(line)
        text.long_claim("becomes r 255 s", "no, cells differ after 255", digits(255))
        text.long_claim("still block", "yes", digits(1))
    return text


def on_a_terminal(refusing, words, faults):
    """What a run prints whose standard error is a terminal, and what is shown there."""
    (got, _), shown = on_terminal(lambda terminal: refusing.run(words, faults, stderr=terminal))
    return got.printed, shown


def judge(tally, refusing, name, words, printed, shown, status, **faults):
    """Expects what a run prints and what it shows."""
    got, _ = refusing.run(["verify", *words], faults)
    wanted = Outcome(printed, shown, status)
    complaints = []
    if got != wanted:
        pairs = zip(got.complaint.split(WIPE), shown.split(WIPE))
        first = next((f"shown {left!r}, wanted {right!r}" for left, right in pairs if left != right), "all that is shown is the same up to the shorter")
        complaints = [first, f"wanted: {wanted}", f"got:    {got}"]
    tally.tell(f"{name}, {faults}", complaints)


def try_claims(tally, refusing, files):
    """Claims of each kind, on early lines and late ones, under each clock."""
    text = claims(files)
    path, answers = text.write(), text.answers
    printed = b"".join(it.text(False) for it in answers)
    for step in STEPS:
        shown = b"".join(text.shown(step))
        judge(tally, refusing, "the line", ["--progress", path], printed, shown, 1, CLOCK_STEP=step)
        judge(tally, refusing, "without the word", [path], printed, b"", 1, CLOCK_STEP=step)
    judge(tally, refusing, "no clock", ["--progress", path], printed, b"", 1, CLOCK_FAILS=1)
    before = f"{path}: ".encode()
    several = b"".join(it.text(False, before) for it in answers)
    other = b"examples/block.claims: "
    shown = b"".join(text.shown(500, before)) + shown_of(other + b"line 2", [digits(1)], 500)
    judge(tally, refusing, "several texts", ["--progress", path, "examples/block.claims"], several + other + b"line 2: yes\n", shown, 1, CLOCK_STEP=500)


def try_notes(tally, refusing, files):
    """An explained run shows the same, and nothing where there is no claim or a text has a fault."""
    text = Watched(files)
    text.load_path("block", "examples/block.rle")
    text.load_path("lost", "examples/lost.rle")
    text.long_claim("still lost", "refused, no file")
    text.long_claim("becomes block 300 block", "yes", digits(300))
    printed = b"line 3: refused, no file\n  lost: examples/lost.rle: no such file\nline 4: yes\n"
    judge(tally, refusing, "explained", ["--progress", "--explain", text.write()], printed, b"".join(text.shown(1000)), 2, CLOCK_STEP=1000)
    judge(tally, refusing, "no claim", ["--progress", "tests/golden/verify/no_claims/claims"], b"", b"", 0, CLOCK_STEP=1000)
    judge(tally, refusing, "a fault", ["--progress", "tests/golden/verify/syntax/claims"], b"", b"cafile: claims line 2: syntax\n", 2, CLOCK_STEP=1000)


def try_dense(tally, refusing, files):
    """A dense plane of few generations, which is stepped, one generation at a time."""
    content, _ = distinct_squares((4, 4, 4, 4), "B3/S23")
    text = Watched(files)
    text.load("plane", content)
    text.load("nothing", "x = 1, y = 1\n!")
    text.long_claim("becomes plane 1000 nothing", "no, cells differ after 1000", each(1000))
    for step in (1000, 4):
        judge(tally, refusing, "a dense plane", ["--progress", text.write()], b"line 3: no, cells differ after 1000\n", b"".join(text.shown(step)), 1,
              CLOCK_STEP=step)


def try_aged(tally, refusing, files):
    """A dense plane under a Generations rule, which is stepped too: claims, and runs of each command."""
    chance = random.Random(6)
    cells = {(x, y): chance.randrange(1, 4) for x in range(80) for y in range(80) if chance.random() < 0.4}
    path = files.path("aged.rle", rle.tidy(cells, "345/2/4", 0, 4))
    last = ageing.after(cells, AgeingRule.of("345/2/4"), 99)
    later = ageing.after(last, AgeingRule.of("345/2/4"), 1)
    tally.tell("a Generations plane changes", [] if last != later else ["it doesn't"])
    text = Watched(files)
    text.load_path("soup", path)
    text.load("later", rle.tidy(later, "345/2/4", 0, 4))
    text.long_claim("becomes soup 100 later", "yes", each(100))
    text.long_claim("becomes soup 99 later", "no, cells differ after 99", each(99))
    for step in STEPS:
        judge(tally, refusing, "a Generations plane", ["--progress", text.write()], b"".join(it.text(False) for it in text.answers), b"".join(text.shown(step)),
              1, CLOCK_STEP=step)
        got, _ = refusing.run(["convert", path, "--to", "rle", "--after", "100", "--progress"], {"CLOCK_STEP": step})
        tally.expect(f"a Generations plane, converted, {step}", got, Outcome(rle.tidy(later, "345/2/4", 100, 4), shown_of(path.encode(), [each(100)], step), 0))


def try_order(tally, refusing, files):
    """Where both outputs go the same way, the line is wiped before the verdict's line."""
    text = claims(files)
    got, _ = refusing.run(["verify", "--progress", text.write()], {"CLOCK_STEP": 500}, stderr=subprocess.STDOUT)
    wanted = b"".join(shown + answer.text(False) for shown, answer in zip(text.shown(500), text.answers))
    tally.expect("wiped before the verdict", got, Outcome(wanted, b"", 1))


def try_identify(tally, refusing, files):
    """`identify` shows the file's path and the generations that were looked at, at most twice a second."""
    grown = "none of these within 20 generations: 32 cells, in a box of 12 by 8, after 20"
    looked_at = {
        "examples/glider.rle": (4, "load glider examples/glider.rle\nspaceship glider 4 1 1\n"),
        "examples/empty.rle": (0, "load empty examples/empty.rle\n# empty: no cell is live\n"),
        OSCILLATOR: (15, f"load pentadecathlon {OSCILLATOR}\noscillator pentadecathlon 15\n"),
        PENTOMINO: (20, f"load r_pentomino {PENTOMINO}\n# r_pentomino: {grown}\n"),
        "my block.rle": (0, "# my_block: my block.rle: no claim text can name this path\n"),
        "examples/lost.rle": (0, "# lost: examples/lost.rle: no file\n"),
        "examples/block.rle": (1, "load block examples/block.rle\nstill block\n"),
    }
    words, printed = ["identify", "--limit", "20", *looked_at], "".join(["claims 2\n", *(it for _, it in looked_at.values())]).encode()
    for step in STEPS:
        shown = b"".join(identified_shown(path, 20, generations, step) for path, (generations, _) in looked_at.items())
        got, _ = refusing.run([*words, "--progress"], {"CLOCK_STEP": step})
        tally.expect(f"identify, {step}", got, Outcome(printed, shown, 2))
        got, _ = refusing.run(words, {"CLOCK_STEP": step})
        tally.expect(f"identify without the word, {step}", got, Outcome(printed, b"", 2))
        got = on_a_terminal(refusing, words, {"CLOCK_STEP": step})
        tally.tell(f"identify on a terminal, {step}", [] if got == (printed, shown) else [f"wanted {(printed, shown)}, got {got}"])
        both = b"claims 2\n" + b"".join(identified_shown(path, 20, generations, step) + lines.encode() for path, (generations, lines) in looked_at.items())
        got, _ = refusing.run([*words, "--progress"], {"CLOCK_STEP": step}, stderr=subprocess.STDOUT)
        tally.expect(f"identify, wiped before the lines of each file, {step}", got, Outcome(both, b"", 2))
    got, _ = refusing.run([*words, "--progress"], {"CLOCK_FAILS": 1})
    tally.expect("identify, no clock", got, Outcome(printed, b"", 2))


def try_many_files(tally, refusing, files):
    """What is shown of each of twenty files, and of the claims of as many texts: its own path, and how far it is."""
    with open(os.path.join(ROOT, "examples", "glider.rle"), "rb") as file:
        glider = file.read()
    paths = [files.path(f"{number}.rle", glider) for number in range(20)]
    lines = "".join(["claims 2\n", *(f"load {number} {path}\nspaceship {number} 4 1 1\n" for number, path in enumerate(paths))])
    shown = b"".join(identified_shown(path, 20, 4, 1000) for path in paths)
    got, _ = refusing.run(["identify", "--limit", "20", "--progress", *paths], {"CLOCK_STEP": 1000})
    tally.expect("identify, 20 files", got, Outcome(lines.encode(), shown, 0))
    lines = "".join(["claims 2\n", *(f"load {number} {path}\n# {number} after 3 generations: spaceship 4 1 1\n" for number, path in enumerate(paths))])
    got, _ = refusing.run(["identify", "--limit", "20", "--after", "3", "--progress", *paths], {"CLOCK_STEP": 1000})
    shown = b"".join(identified_shown(path, 20, 4, 1000, 3) for path in paths)
    tally.expect("identify --after, 20 files", got, Outcome(lines.encode(), shown, 0))
    texts = [files.path(f"{number}.claims", f"load g {path}\n{chr(10) * number}becomes g 3 g\n") for number, path in enumerate(paths)]
    lines = "".join(f"{text}: line {2 + number}: no, cells differ after 3\n" for number, text in enumerate(texts))
    shown = b"".join(shown_of(f"{text}: line {2 + number}".encode(), [digits(3)], 1000) for number, text in enumerate(texts))
    got, _ = refusing.run(["verify", "--progress", *texts], {"CLOCK_STEP": 1000})
    tally.expect("verify, 20 texts", got, Outcome(lines.encode(), shown, 1))


def try_identify_by_strides(tally, refusing, _):
    """`identify` shows the end of each stride of a pattern that is back late, and how far it looks at most."""
    for path, period, limits in (("examples/period_57960.rle", 57960, (65536, 57960, 70000)), ("tests/files/period_840.rle", 840, (840, 900, 1000, 65536))):
        name = os.path.basename(path).removesuffix(".rle")
        for limit, step in itertools.product(limits, STEPS):
            got, _ = refusing.run(["identify", "--limit", str(limit), path, "--progress"], {"CLOCK_STEP": step})
            wanted = Outcome(f"claims 2\nload {name} {path}\noscillator {name} {period}\n".encode(), identified_shown(path, limit, period, step), 0)
            tally.expect(f"identify by strides, {name} as far as {limit}, {step}", got, wanted)


def try_identify_after(tally, refusing, _):
    """`identify --after` first shows the run to the later plane, of as many generations as are asked for."""
    for begun in (1, 6, 1000):
        later = f"after {begun} generation{'s' * (begun != 1)}"
        looked_at = {
            "examples/glider.rle": (4, f"load glider examples/glider.rle\n# glider {later}: spaceship 4 1 1\n"),
            "my block.rle": (None, "# my_block: my block.rle: no claim text can name this path\n"),
            "examples/empty.rle": (0, f"load empty examples/empty.rle\n# empty {later}: no cell is live\n"),
            "examples/lost.rle": (None, "# lost: examples/lost.rle: no file\n"),
            OSCILLATOR: (15, f"load pentadecathlon {OSCILLATOR}\n# pentadecathlon {later}: oscillator 15\n"),
        }
        words = ["identify", "--limit", "20", "--after", str(begun), *looked_at]
        printed = "".join(["claims 2\n", *(it for _, it in looked_at.values())]).encode()
        for step in STEPS:
            shown = b"".join(identified_shown(path, 20, generations, step, begun) for path, (generations, _) in looked_at.items() if generations is not None)
            got, _ = refusing.run([*words, "--progress"], {"CLOCK_STEP": step})
            tally.expect(f"identify after {begun}, {step}", got, Outcome(printed, shown, 2))
        got = on_a_terminal(refusing, words, {"CLOCK_STEP": 1000})
        shown = b"".join(identified_shown(path, 20, generations, 1000, begun) for path, (generations, _) in looked_at.items() if generations is not None)
        tally.tell(f"identify after {begun} on a terminal", [] if got == (printed, shown) else [f"wanted {(printed, shown)}, got {got}"])


def try_identify_results(tally, refusing, files):
    """The results of a run of `identify --after` are shown with that run alone, and not with the generations that are looked at then, or with the next file."""
    table, soup = files.path("ageing.rule", TABLE), files.path("soup.rle", soup_of(100))
    paths, begun, limit = ("examples/glider.rle", soup, OSCILLATOR), 128, 3
    got, _ = refusing.run(["identify", "--progress", "--rule", table, "--after", str(begun), "--limit", str(limit), *paths], {"CLOCK_STEP": 1000})
    glider, oscillator = (identified_shown(path, limit, limit, 1000, begun) for path in (paths[0], paths[2]))
    run_of, later = re.escape(f"\r\x1b[K{soup}: ".encode()), b"".join(WIPE + f"{soup}: {it} of {limit} generations".encode() for it in range(limit))
    results = rb", \d+\.\d million results, \d+\.\d million squares"
    wanted = re.escape(glider) + rb"(%s0 of 128 generations%s)+%s128 of 128 generations%s" % (run_of, results, run_of, results) + re.escape(later + WIPE + oscillator)
    tally.tell("results of a run of identify --after",
               [] if re.fullmatch(wanted, got.complaint) and got.status == 0 else [f"wanted {wanted}, got {got.complaint}"])


def try_after(tally, refusing, files):
    """`show`, `convert` and `draw` with `--after` show the file's path and the generations that are reached, and wipe that before they print. After no
    generations nothing is run, and nothing shown."""
    dense = files.path("dense.rle", distinct_squares((4, 4, 4, 4), "B3/S23")[0])
    runs = ((["examples/glider.rle"], digits(1000)), ([PENTOMINO], digits(1)), ([PENTOMINO], digits(0)), ([dense], each(300)),
            (["examples/tables/spread.rle", "--rules", "examples/rules"], digits(5)))
    for (file, run_of), kind in itertools.product(runs, (["show"], ["convert", "--to", "mc"], ["draw"])):
        words = [*kind, *file, "--after", str(run_of[0])]
        run_on = [run_of] if run_of[0] else []
        plain = run(words)
        tally.tell(f"it prints something, {' '.join(words)}", [] if plain.printed and not plain.complaint and plain.status == 0 else [str(plain)])
        for step in STEPS:
            shown = shown_of(file[0].encode(), run_on, step)
            got, _ = refusing.run([*words, "--progress"], {"CLOCK_STEP": step})
            tally.expect(f"{' '.join(words)}, {step}", got, Outcome(plain.printed, shown, 0))
            got, _ = refusing.run(words, {"CLOCK_STEP": step})
            tally.expect(f"without the word, {' '.join(words)}, {step}", got, plain)
        shown = shown_of(file[0].encode(), run_on, 500)
        got, _ = refusing.run([*words, "--progress"], {"CLOCK_STEP": 500}, stderr=subprocess.STDOUT)
        tally.expect(f"wiped before what is printed, {' '.join(words)}", got, Outcome(shown + plain.printed, b"", 0))
        got = on_a_terminal(refusing, words, {"CLOCK_STEP": 500})
        tally.tell(f"on a terminal, {' '.join(words)}", [] if got == (plain.printed, shown) else [f"wanted {(plain.printed, shown)}, got {got}"])
        got, _ = refusing.run([*words, "--progress"], {"CLOCK_FAILS": 1})
        tally.expect(f"no clock, {' '.join(words)}", got, plain)
        got, _ = refusing.run([*kind, *file, "--progress"], {"CLOCK_STEP": 1000})
        tally.expect(f"at once, {' '.join(words)}", got, run([*kind, *file]))
    try_refused_after(tally, refusing)


def try_refused_after(tally, refusing):
    """The line is wiped before a run's fault is printed, and a pattern that can't be taken up shows none."""
    for kind in (["show"], ["convert", "--to", "rle"], ["draw"]):
        words = [*kind, PENTOMINO, "--after", "1103", "--work", "20", "--progress"]
        got, _ = refusing.run(words, {"CLOCK_STEP": 1000})
        told = re.fullmatch(rb"((?:\r\x1b\[K[^\r]+)+)\r\x1b\[Kcafile: work\n", got.complaint)
        first = WIPE + PENTOMINO.encode() + b": 0 of 1103 generations"
        well = told and told[1].startswith(first) and (got.printed, got.status) == (b"", 2)
        tally.tell(f"wiped before the fault, {' '.join(words)}", [] if well else [str(got)])
        words = [*kind, "examples/bad/syntax.rle", "--after", "5"]
        got, _ = refusing.run([*words, "--progress"], {"CLOCK_STEP": 1000})
        tally.expect(f"a fault of the file, {' '.join(words)}", got, run(words))
    with open(os.path.join(ROOT, "examples", "glider.rle"), "rb") as file:
        content = file.read()
    words = ["show", "-", "--after", "7"]
    got, _ = refusing.run([*words, "--progress"], {"CLOCK_STEP": 1000}, input=content)
    tally.expect("standard input", got, Outcome(run(words, input=content).printed, shown_of(b"-", [digits(7)], 1000), 0))


def try_closed(tally, refusing, files):
    """Where standard error takes nothing, or not every byte, the verdicts are the same."""
    text = claims(files)
    words, printed = ["verify", "--progress", text.write()], b"".join(it.text(False) for it in text.answers)
    with open("/dev/full", "wb") as full:
        got, _ = refusing.run(words, {"CLOCK_STEP": 500}, stderr=full)
    tally.expect("standard error takes nothing", got, Outcome(printed, b"", 1))
    shown = b"".join(text.shown(500))
    got, _ = refusing.run(words, {"CLOCK_STEP": 500, "WRITE_TO": 2, "WRITE_MOST": 3})
    tally.expect("standard error takes three bytes at a time", got, Outcome(printed, shown, 1))
    got, _ = refusing.run(words, {"CLOCK_STEP": 500, "WRITE_TO": 2, "WRITE_FAILS": 2})
    second = shown.index(WIPE, 1)
    third = shown.index(WIPE, second + 1)
    tally.expect("standard error takes no second line", got, Outcome(printed, shown[:second] + shown[third:], 1))


def try_terminal(tally, refusing, files):
    """On a terminal no word is needed; a quick run shows nothing there."""
    text = Watched(files)
    text.load_path("r", PENTOMINO)
    text.long_claim("becomes r 511 r", "no, cells differ after 511", digits(511))
    for step in (1000, 400, 0):
        got = on_a_terminal(refusing, ["verify", text.write()], {"CLOCK_STEP": step})
        wanted = b"line 2: no, cells differ after 511\n", b"".join(text.shown(step))
        tally.tell(f"on a terminal, {step}", [] if got == wanted else [f"wanted {wanted}, got {got}"])


def soup_of(side):
    """A soup whose squares hardly repeat, under that rule."""
    chance = random.Random(2)
    rows = "$".join("".join(chance.choice(".A") for _ in range(side)) for _ in range(side))
    return f"x = {side}, y = {side}, rule = Ageing\n{rows}!\n"


def try_results(tally, refusing, files):
    """While one leap lasts, what was computed is shown about twice a second, and no generation that isn't reached."""
    text = Watched(files)
    text.rule(TABLE)
    text.load("soup", soup_of(200))
    text.load_path("glider", "examples/glider.rle")
    text.claim("becomes soup 1024 soup", "no, cells differ after 1024")
    text.claim("spaceship glider 4 1 1", "yes")
    printed = b"line 4: no, cells differ after 1024\nline 5: yes\n"
    line = re.compile(rb"line 4: (\d+) of 1024 generations(?:, (\d+)\.(\d) million results, (\d+)\.(\d) million squares)?")
    shown = {}
    for step in (1000, 100):
        got, _ = refusing.run(["verify", "--progress", text.write()], {"CLOCK_STEP": step})
        # of the next claim no results are shown: it took too few
        next_one = shown_of(b"line 5", [digits(4), digits(2)], step)
        told = [line.fullmatch(it) for it in got.complaint.removesuffix(next_one).split(WIPE)[1:-1]]
        results = [10 * int(it[2]) + int(it[3]) for it in told if it and it[2]]
        reached = [int(it[1]) for it in told if it]
        well = got.printed == printed and got.complaint.endswith(WIPE + next_one) and all(told) and reached == [0] * (len(told) - 1) + [1024]
        well = well and results == sorted(results) and results[-1] > 2
        shown[step] = len(results)
        tally.tell(f"results of one leap, {step}", [] if well else [f"{got}"])
    # what is shown last is nearly what the claim needs: a limit just below it is too small, and one a little above it isn't
    least = 100000 * results[-1]
    for limit, verdict in ((least - 1, b"refused, work"), (least + 100000 + 65536, b"no, cells differ after 1024")):
        got = run(["verify", "--work", str(limit), text.write()])
        tally.tell(f"as many results as a claim needs, {verdict.decode()}", [] if got.printed == b"line 4: " + verdict + b"\nline 5: yes\n" else [f"{got}"])
    tally.tell("shown at most twice a second", [] if 4 * shown[100] < shown[1000] < 6 * shown[100] + 6 else [f"{shown}"])


def try_refused_memory(tally, refusing, _):
    """Where memory is refused, the line is wiped before that is printed, and before what is printed."""
    told = re.compile(rb"(?:(?:\r\x1b\[K[^\r\n]+)+\r\x1b\[K)*(?:cafile: memory\n)?")
    for words in (["identify", "examples/glider.rle", "examples/block.rle"], ["identify", "--after", "3", "examples/glider.rle"],
                  ["show", "examples/glider.rle", "--after", "3"],
                  ["verify", "examples/glider.claims"]):
        outcomes = refusing.until_unmet([*words, "--progress"], "REFUSE", itertools.count(1), {"CLOCK_STEP": 1000})
        complaints = [f"allocation {number}: {it}" for number, it in outcomes.items() if not told.fullmatch(it.complaint)]
        late = sum(it.complaint.endswith(WIPE + b"cafile: memory\n") for it in outcomes.values())
        if "verify" not in words and not late:
            complaints.append("no run was out of memory once a line was shown")
        tally.tell(f"{len(outcomes)} allocations refused, {late} once a line was shown, {' '.join(words)}", complaints)


def try_the_clock(tally, _, files):
    """By the machine's own clock nothing is shown before a second is over. The claim is far longer, and is ended where it has shown something."""
    content, _ = distinct_squares((16, 16, 16, 16), "B3/S23")
    text = Watched(files)
    text.load("plane", content)
    text.claim("becomes plane 16384 plane", "")
    begin = time.monotonic()
    with subprocess.Popen([PROGRAM, "verify", "--progress", text.write()], cwd=ROOT, stdin=subprocess.DEVNULL, stdout=subprocess.DEVNULL,
                          stderr=subprocess.PIPE) as program:
        shown = os.read(program.stderr.fileno(), 65536)
        seconds = time.monotonic() - begin
        program.kill()
    told = re.fullmatch(rb"(\r\x1b\[Kline 2: (\d+) of 16384 generations)+", shown)
    well = told and 0 < int(told[2]) < 16384 and 1 <= seconds < MOST_WAITING
    tally.tell("after a second", [] if well else [f"shown {shown!r} after {seconds:.1f} s"])


def try_quick(tally, refusing, _):
    """Quick runs are those without the word: no time passes."""
    for words in (["examples/several.claims"], ["--explain", "examples/several.claims"], ["examples/block.claims", "examples/glider.claims"],
                  ["examples/lost.claim"]):
        got, _ = refusing.run(["verify", "--progress", *words], {"CLOCK_STEP": 0})
        tally.expect(f"a quick run, {' '.join(words)}", got, run(["verify", *words]))


def interruptible():
    """A run that is started in the background may be one that SIGINT doesn't end; what it starts is ended."""
    signal.signal(signal.SIGINT, signal.SIG_DFL)


def first_lines(words, count, stop=signal.SIGKILL):
    """The first lines that a run prints, whether it goes on after them, what it prints besides until it is stopped a little later, and whether it ends by that."""
    with subprocess.Popen([PROGRAM, *words], cwd=ROOT, stdin=subprocess.DEVNULL, stdout=subprocess.PIPE, stderr=subprocess.STDOUT,
                          preexec_fn=interruptible) as program:
        try:
            end, lines = time.monotonic() + SECONDS, b""
            while lines.count(b"\n") < count and select.select([program.stdout], [], [], max(end - time.monotonic(), 0))[0]:
                piece = os.read(program.stdout.fileno(), 65536)
                if not piece:
                    break
                lines += piece
            time.sleep(0.2)
            goes_on = program.poll() is None
        finally:
            program.send_signal(stop)
        return lines, goes_on, program.stdout.read(), program.wait(SECONDS) == -stop


def endless_soup(files):
    """A pattern that grows without order, so that nobody knows its later generations but by making them."""
    chance = random.Random(2)
    cells = {(x, y): 1 for x in range(60) for y in range(60) if chance.random() < 0.3}
    return files.path("soup.rle", rle.tidy(cells, "B2/S", 0, 2))


def try_stopped(tally, files):
    """A run is stopped in its third claim, after two lines came through a pipe."""
    soup = f"load soup {endless_soup(files)}\n"
    for name, claim in (("oscillator", "oscillator soup 1000000007"), ("becomes", f"becomes soup {1 << 60} soup"),
                        ("spaceship", "spaceship soup 4294967295 1 1")):
        path = files.path(f"{name}.claims", f"{LOAD_BLOCK}{soup}still block\nbecomes block 1 block\n{claim}\nstill block\n")
        got = first_lines(["verify", path], 2)
        wanted = (b"line 3: yes\nline 4: yes\n", True, b"", True)
        tally.tell(f"stopped, {name}", [] if got == wanted else [f"wanted {wanted}, got {got}"])
    explained = files.path("explained.claims", f"{LOAD_BLOCK}load lost examples/lost.rle\n{soup}still lost\nstill block\nbecomes soup {1 << 60} soup\n")
    lines = b"line 4: refused, no file\n  lost: examples/lost.rle: no such file\nline 5: yes\n"
    got = first_lines(["verify", "--explain", explained], 3)
    tally.tell("stopped, explained", [] if got == (lines, True, b"", True) else [f"wanted {lines}, got {got}"])
    several = ["verify", "examples/block.claims", path]
    lines = f"examples/block.claims: line 2: yes\n{path}: line 3: yes\n{path}: line 4: yes\n".encode()
    got = first_lines(several, 3)
    tally.tell("stopped, in the second text", [] if got == (lines, True, b"", True) else [f"wanted {lines}, got {got}"])


def try_stopped_identify(tally, files):
    """A run is stopped in its third file, or its second, after the lines on the others came through a pipe."""
    soup, bad, glider = endless_soup(files), "examples/bad/syntax.rle", "examples/glider.rle"
    first, second = f"load glider {glider}\nspaceship glider 4 1 1\n", f"# syntax: {bad}: bad pattern: rle syntax, line 2\n"
    table = "examples/tables/wireworld.rule"
    for words, lines in (([glider, soup, bad], first), ([bad, glider, soup], second + first), (["--explain", glider, bad, soup], first + second),
                         (["--rule", table, glider, soup], f"rule {table}\n{first}"), ([soup, glider], "")):
        for stop in (signal.SIGTERM, signal.SIGINT):
            got, wanted = first_lines(["identify", "--limit", "4294967295", *words], lines.count("\n") + 1, stop), (f"claims 2\n{lines}".encode(), True, b"", True)
            tally.tell(f"stopped by {stop.name}, identify {' '.join(words)}", [] if got == wanted else [f"wanted {wanted}, got {got}"])


def try_head(tally, files):
    """The reader ends after a line: the run ends too, and says why."""
    long = files.path("long.claims", LOAD_BLOCK + "still block\n" * 40000)
    for words, line in ((["verify", long], b"line 2: yes\n"), (["verify", "--explain", long], b"line 2: yes\n"),
                        (["verify", long, "examples/block.claims"], f"{long}: line 2: yes\n".encode()),
                        (["identify", *["examples/block.rle"] * 4000], b"claims 2\n")):
        with subprocess.Popen([PROGRAM, *words], cwd=ROOT, stdin=subprocess.DEVNULL, stdout=subprocess.PIPE, stderr=subprocess.PIPE) as program:
            head = subprocess.run(["head", "-n", "1"], stdin=program.stdout, stdout=subprocess.PIPE, timeout=SECONDS, check=False)
            program.stdout.close()
            complaint = program.stderr.read()
        got, wanted = (head.stdout, complaint, program.returncode), (line, b"cafile: write\n", 2)
        tally.tell(f"head of {' '.join(words)}", [] if got == wanted else [f"wanted {wanted}, got {got}"])
    tally.tell("the whole of it", [] if run(["verify", long]).printed.count(b": yes\n") == 40000 else ["other lines"])


def main():
    tally = Tally()
    with refusing_program(tally, "progress") as (_, refusing):
        parts = (try_claims, try_identify, try_many_files, try_identify_by_strides, try_identify_after, try_identify_results, try_after, try_notes, try_dense,
                 try_aged, try_order, try_closed, try_terminal, try_results, try_refused_memory, try_the_clock, try_quick)
        try_each(tally, parts if refusing else (), refusing)
    try_each(tally, (try_stopped, try_stopped_identify, try_head))
    tally.finish()


if __name__ == "__main__":
    main()
