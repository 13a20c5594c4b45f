#!/usr/bin/env -S python3 -B
"""`cafile rule`: isotropic rules in Hensel's notation, MAP strings, B/S and Generations rules, written as rule tables, and texts that are refused.

What is written is read by the reader of tests/lib/rule_table.py, and its next states are compared with those of tests/lib/isotropic.py and of
tests/lib/steps.py, which know nothing of tables, and with those that Golly gives (tests/lib/rule_file_texts.py); and soups that the program runs under the
written table with naive steps: small ones, which are leapt, cell by cell, by a counting that is found for the rule or by a diagram of it, and dense ones, which
are stepped by one of these.
"""
import random
import tempfile

from lib import isotropic, steps
from lib.program import Runs, Tally, fault, run
from lib.rle import cells_and_rule, tidy
from lib.rle_reader import Fault, rule_of
from lib.rule_file_texts import AGEING_CELLS, GOLLY_STATES
from lib.rule_table import read_table

LIFE = "MAPARYXfhZofugWaH7oaIDogBZofuhogOiAaIDogIAAgAAWaH7oaIDogGiA6ICAAIAAaIDogIAAgACAAIAAAAAAAA"
ALPHABET = isotropic.ALPHABET

# Isotropic rules in all spellings, and every letter of every digit by itself.
ISOTROPIC = (
    "B2-a/S12", "B3/S2-i34q", "b3-ks23", "S12ae/B2ce3", "s2-k3b3-cnry4z", "23-q/2n3", "B34w/S23", "B3/S234y", "2-i34q/2i34cej5y", "B3aijn/S2-in3-ekq4j",
    "B2cek3i/S12cei", "B2c/S", "B3CE/S2-I", "B33a/S", "B3a3i/S", "/2a", "B1c/S", "B/S0", "B8/S8", "B2c/S2ceaikn", "B4-ceaiknjqrytw/S4-z",
    "B/S", "/", "B" + "2c3a4-q" * 500 + "/S" + "23-k" * 500, *(f"B{count}{letter}/S{count}-{letter}" for count, letter in isotropic.kinds() if letter),
)
BS_RULES = ("B3/S23", "23/3", "s23b36", "B3678/S34678", "B2/S013V", "b13/s012v", "B2/S34H", "B24/S34h", "B/S012345678")
GENERATIONS = (
    "/2/3", "345/2/4", "23/3/8", "23/3/2", "332/33/03", "012345678/12345678/3", "//2", "//256", "2/2/5", "1/1/0007", "3467/25/6", "23/3/256", "8/8/3", "0/1/17",
)
REFUSED = (
    ("B0/S23", "wakes"), ("B03-k/S23", "wakes"), ("/0", "wakes"), ("MAP" + "/" * 85 + "w", "wakes"), ("MAP" + "/" * 86, "unknown"), ("B3/S23:T9,9", "bounded"),
    ("B2-a/S12:P3,3", "bounded"), ("", "unknown"), ("Life", "unknown"), ("B3x/S23", "unknown"), ("B1a/S23", "unknown"), ("B3-/S23", "unknown"), ("B0c/S", "unknown"),
    ("B8e/S", "unknown"), ("B9/S", "unknown"), ("B2-a/S12V", "unknown"), ("B2-a/S12H", "unknown"), ("B2a-c/S", "unknown"), ("B2--a/S", "unknown"), ("B3/S23/", "unknown"),
    (LIFE[:-1], "unknown"), (LIFE + "A", "unknown"), (LIFE[:-1] + "=", "unknown"), ("map" + LIFE[3:], "unknown"), ("B2-a /S12", "unknown"),
    ("2-a/12/4", "unknown"), ("345/2/4V", "unknown"), ("345/2/4:T9,9", "bounded"), ("23/3/1", "unknown"), ("23/3/257", "unknown"), ("23/0/4", "wakes"), ("9/0/3", "unknown"),
    ("23/3/", "unknown"), ("23//", "unknown"), ("/2/3/", "unknown"), ("S23/B3/8", "unknown"),
    ("Ba2/S", "unknown"), ("B2w/S", "unknown"), ("B5t/S", "unknown"),
    ("B2-a/S12:T9,9", "bounded"), ("B02-a/S12", "wakes"), ("B8c/S", "unknown"), ("B2t/S", "unknown"), ("B2-/S", "unknown"), ("B2ac-a/S", "unknown"),
    ("B2a/S12V", "unknown"), ("23/3/4:T9,9", "bounded"), ("2-a/3/4", "unknown"), ("23/3/4V", "unknown"), (LIFE.replace("MAPA", "MAPg"), "wakes"),
    (LIFE[:-1] + "B", "unknown"),
)

# Soups under rules whose diagrams have few nodes and many, and three that go by a counting that is found: the side, and the generations. Random MAP strings give the largest diagrams.
DENSE = (("B2-a/S12", 100, 65), ("B3/S2-i34q", 90, 33), ("B3-cnry4z/S2-k3", 80, 64), ("B34ceky/S23-a4cityz", 80, 33), ("B2kin3aj/S23-ik", 80, 32), ("B8/S8", 80, 40),
         ("B3/S23", 90, 129), ("B2/S013V", 80, 33), ("B24/S34H", 80, 33))

# Soups that are leapt over by a diagram or a counting that is found, since they are small: the side, and the generations.
LEAPT = (("B2-a/S12", 20, 64), ("B3/S2-i34q", 24, 127), ("B3-cnry4z/S2-k3", 30, 96), ("B34ceky/S23-a4cityz", 16, 65), ("B2kin3aj/S23-ik", 24, 100), ("B3/S23", 24, 200),
         ("B2/S013V", 10, 64), ("B24/S34H", 16, 70))

# Rules under which small soups settle to oscillators.
SETTLING = ("B3-cnry4z/S2-k3", "B2kin3aj/S23-ik", "B3-k/S23", "B3/S2-i34q")

# The neighbours of a cell in the order of a table's ring, as the bits of a neighbourhood's number.
RING_BITS = (128, 64, 8, 1, 2, 4, 32, 256)


def map_text(bits):
    """The MAP string of 512 next states."""
    padded = "".join(map(str, bits)) + "0000"
    return "MAP" + "".join(ALPHABET[int(padded[at:at + 6], 2)] for at in range(0, 516, 6))


def maps():
    """MAP strings: Life's, those of some rules that turn and reflect to others, and random ones."""
    chance = random.Random(7)
    yield LIFE
    for shown in ((256, 16), (128, 2), (64, 1), (32, 8), (4, 256)):
        yield map_text([int(any(number & it for it in shown[:1]) and not number & shown[1]) for number in range(512)])
    for _ in range(8):
        yield map_text([0, *(int(chance.random() < 0.4) for _ in range(511))])


def written(runs, text):
    """The table that is written for a text, and the path of its file; None where there is none."""
    got = run(["rule", text])
    runs.count += 1
    if got.status or got.complaint:
        runs.complaints.append(f"{text}: {got}")
        return None, None
    path = runs.path("written.rule", got.printed)
    table = read_table(got.printed.decode("latin-1"))
    if table.name != text:
        runs.complaints.append(f"{text}: the table is named {table.name}")
    return table, path


def named_table(text):
    """The rule file of a text, under a name that is no rule's own."""
    return run(["rule", text]).printed.replace(f"@RULE {text}\n".encode(), b"@RULE Named\n", 1)


def two_states(runs, text, bits):
    """A rule of two states, with these next states for all 512 neighbourhoods."""
    table, path = written(runs, text)
    if not table:
        return
    at = {it: next((at for at, step in enumerate(table.ring) if step == place), None)
          for it, place in zip(RING_BITS, ((0, -1), (1, -1), (1, 0), (1, 1), (0, 1), (-1, 1), (-1, 0), (-1, -1)))}
    for number in range(512):
        ring = [0] * len(table.ring)
        for bit, place in at.items():
            if place is not None:
                ring[place] = int(bool(number & bit))
        if table.states != 2 or table.next(int(bool(number & 16)), tuple(ring)) != bits[number]:
            runs.complaints.append(f"{text}: neighbourhood {number}")
            return
    chance = random.Random(text)
    live = {(x, y) for x in range(9) for y in range(9) if chance.random() < 0.4}
    pattern = runs.path("soup.rle", tidy({it: 1 for it in live}, text, 0, 2))
    for _ in range(5):
        live = isotropic.step(live, bits)
    names_itself = not is_known(text)
    words = ["convert", pattern, "--to", "rle", "--after", "5"]
    got = run([*words, *(["--rule", path] if names_itself else [])])
    runs.count += 1
    if got.status or set(cells_and_rule(got.printed.decode())[0]) != live:
        runs.complaints.append(f"{text}: after 5 generations {got}")


def all_neighbourhoods(runs, text, bits):
    """All 512 neighbourhoods, far from each other, and the cells in their middle a generation later under the table of a rule, as the program reads it."""
    middles = {(9 * (number % 32), 9 * (number // 32)): number for number in range(512)}
    live = {(x + dx, y + dy): 1 for (x, y), number in middles.items() for dx in (-1, 0, 1) for dy in (-1, 0, 1) if number >> (4 - 3 * dy - dx) & 1}
    pattern = runs.path("neighbourhoods.rle", tidy(live, "Named", 0, 2))
    got = run(["convert", pattern, "--to", "rle", "--after", "1", "--rule", runs.path("named.rule", named_table(text))])
    runs.count += 1
    later = cells_and_rule(got.printed.decode())[0] if got.status == 0 else None
    if later is None or any(later.get(place, 0) != bits[number] for place, number in middles.items()):
        runs.complaints.append(f"{text}: the neighbourhoods a generation later {got}")


def golly_states(runs, text, digits):
    """A rule under which Golly gives these next states for all 512 neighbourhoods."""
    bits = [int(bit) for digit in digits for bit in f"{int(digit, 16):04b}"]
    two_states(runs, text, bits)
    all_neighbourhoods(runs, text, bits)


def ageing_cell(runs, text, states, nine, following):
    """A Generations rule of so many states, under which the middle one of nine cells goes on so: by its table, and as the program reads it."""
    table, _ = written(runs, text)
    if not table:
        return
    by_table = table.next(nine[4], tuple(nine[4 + 3 * dy + dx] for dx, dy in table.ring))
    pattern = runs.path("nine.rle", tidy({(at % 3, at // 3): state for at, state in enumerate(nine) if state}, "Named", 0, states))
    got = run(["convert", pattern, "--to", "rle", "--after", "1", "--rule", runs.path("named.rule", named_table(text))])
    runs.count += 1
    by_run = cells_and_rule(got.printed.decode())[0].get((1, 1), 0) if got.status == 0 else None
    if (table.states, by_table, by_run) != (states, following, following):
        runs.complaints.append(f"{text}: {nine} gives {by_table}, and {by_run} in a run, of {table.states} states {got.complaint}")


def soup(runs, text, bits, side, count):
    """A soup of `side` cells a side after `count` generations, under the table of a rule, beside naive steps. The table has a name that is no rule's own."""
    table, _ = written(runs, text)
    if not table:
        return
    path = runs.path("named.rule", named_table(text))
    chance = random.Random(f"{text} {side}")
    left, top = chance.randrange(-200, 200), chance.randrange(-200, 200)
    live = {(left + x, top + y) for x in range(side) for y in range(side) if chance.random() < 0.4}
    pattern = runs.path("soup.rle", tidy({it: 1 for it in live}, "Named", 0, 2))
    for _ in range(count):
        live = isotropic.step(live, bits)
    got = run(["convert", pattern, "--to", "rle", "--after", str(count), "--rule", path])
    runs.count += 1
    if got.status or set(cells_and_rule(got.printed.decode())[0]) != live:
        runs.complaints.append(f"{text}: a soup of {side} after {count} generations {got.complaint}")


def large_soup(runs, text, corners, side, count):
    """Soups of `side` cells a side, one from each of these corners, under a rule's own table, beside the same soups under that table with a state more, which
    go cell by cell. One large soup is stepped in many bricks; many small ones are leapt over, in many squares."""
    written_table = named_table(text)
    chance = random.Random(f"{text} {side}")
    live = {(left + x, top + y): 1 for left, top in corners for x in range(side) for y in range(side) if chance.random() < 0.4}
    pattern = runs.path("named.rle", tidy(live, "Named", 0, 2))
    tables = (written_table, written_table.replace(b"n_states:2", b"n_states:3", 1))
    ours, plain = (run(["convert", pattern, "--to", "rle", "--after", str(count), "--rule", runs.path("named.rule", it)]) for it in tables)
    runs.count += 1
    if ours.status or plain.status or cells_and_rule(ours.printed.decode())[0] != cells_and_rule(plain.printed.decode())[0]:
        runs.complaints.append(f"{text}: {len(corners)} soups of {side} after {count} generations {ours.complaint or plain.complaint}")


def long_run(runs, text, bits):
    """A small soup that naive steps show to settle, after enough generations that it is only leapt over."""
    table, path = written(runs, text)
    for seed in range(40 if table else 0):
        chance = random.Random(f"{text} {seed}")
        live = frozenset((x, y) for x in range(8) for y in range(8) if chance.random() < 0.4)
        seen, planes = {}, []
        while live not in seen and len(planes) < 150:
            seen[live] = len(planes)
            planes.append(live)
            live = frozenset(isotropic.step(live, bits))
        if live and live in seen:
            count = (1 << 41) + seed
            want = planes[seen[live] + (count - seen[live]) % (len(planes) - seen[live])]
            pattern = runs.path("soup.rle", tidy({it: 1 for it in planes[0]}, text, 0, 2))
            got = run(["convert", pattern, "--to", "rle", "--after", str(count), "--rule", path])
            runs.count += 1
            if got.status or set(cells_and_rule(got.printed.decode())[0]) != want:
                runs.complaints.append(f"{text}: a small soup after {count} generations {got.complaint}")
            return
    runs.complaints.append(f"{text}: no small soup settles")


def small_tree(runs):
    """A blinker and a block under the table of a rule by whose diagram they go as in Life, after enough generations that it is made, and one by itself of a
    tree of the lowest levels."""
    path = runs.path("named.rule", named_table("B3-k/S23"))
    column, row, block = ({(0, -1), (0, 0), (0, 1)}, {(-1, 0), (0, 0), (1, 0)}, {(-1, -1), (-1, 0), (0, -1), (0, 0)})
    for live, count, want in ((column, 65, row), (column, 64, column), (row, 1001, column), (block, 65, block), (block, 67, block)):
        pattern = runs.path("small.rle", tidy({it: 1 for it in live}, "Named", 0, 2))
        got = run(["convert", pattern, "--to", "rle", "--after", str(count), "--rule", path])
        runs.count += 1
        if got.status or set(cells_and_rule(got.printed.decode())[0]) != want:
            runs.complaints.append(f"{sorted(live)} after {count} generations: {got}")


def next_states(text):
    """The next states of all 512 neighbourhoods."""
    return counted_bits(steps.rule_of(rule_of(text.encode())[0])) if is_known(text) else isotropic.rule_bits(text)


def generations(runs, text):
    """A Generations rule: each live or other ring round a cell of each state, random rings, and a soup."""
    table, path = written(runs, text)
    if not table:
        return
    rule, chance = steps.rule_of(text), random.Random(text)
    others = [0, *range(2, rule.states)]
    rings = [tuple(1 if number >> bit & 1 else chance.choice(others) for bit in range(8)) for number in range(256)]
    rings += [tuple(chance.randrange(rule.states) for _ in range(8)) for _ in range(40)]
    centres = range(rule.states) if rule.states < 20 else [0, 1, 2, 3, *chance.sample(range(4, rule.states - 2), 2), rule.states - 2, rule.states - 1]
    if table.states != rule.states or table.ring != rule.ring:
        runs.complaints.append(f"{text}: {table.states} states")
    for centre in centres:
        for ring in rings:
            if table.next(centre, ring) != rule.next(centre, ring):
                runs.complaints.append(f"{text}: {centre} in {ring}")
                return
    with open(path, encoding="ascii") as file:
        renamed = runs.path("renamed.rule", file.read().replace(f"@RULE {text}", "@RULE Renamed", 1))
    soup = {(x, y): chance.choice((1, 1, *range(1, rule.states))) for x in range(12) for y in range(12) if chance.random() < 0.4}
    got = run(["convert", runs.path("soup.rle", tidy(soup, "Renamed", 0, rule.states)), "--to", "rle", "--after", "6", "--rule", renamed])
    runs.count += 1
    if got.status or cells_and_rule(got.printed.decode())[0] != steps.steps(soup, rule, 6):
        runs.complaints.append(f"{text}: after 6 generations {got}")


def is_known(text):
    """Whether the text names a rule of its own, without a table."""
    try:
        rule_of(text.encode())
        return True
    except Fault:
        return False


def counted_bits(rule):
    """The next states of all 512 neighbourhoods under a B/S rule."""
    place = {(dx, dy): 1 << (4 - 3 * dy - dx) for dx in (-1, 0, 1) for dy in (-1, 0, 1)}
    return [rule.next(int(bool(number & 16)), tuple(int(bool(number & place[it])) for it in rule.ring)) for number in range(512)]


def main():
    tally = Tally()
    with tempfile.TemporaryDirectory() as folder:
        runs = Runs(folder)
        for text in ISOTROPIC:
            two_states(runs, text, isotropic.rule_bits(text))
        runs.tell(tally, "isotropic rules")
        for text in maps():
            two_states(runs, text, isotropic.rule_bits(text))
        runs.tell(tally, "MAP strings")
        for text in BS_RULES:
            two_states(runs, text, counted_bits(steps.rule_of(rule_of(text.encode())[0])))
        runs.tell(tally, "B/S rules")
        for text, digits in GOLLY_STATES.items():
            golly_states(runs, text, digits)
        runs.tell(tally, "next states of Golly")
        for text, side, count in (*DENSE, *((text, 70, 32) for text in list(maps())[-3:])):
            soup(runs, text, next_states(text), side, count)
        for text, side in (("B3/S23", 600), ("B34/S456", 500), ("B3-k/S23", 1000), ("B34w/S23", 400)):
            large_soup(runs, text, [(0, 0)], side, 64)
        runs.tell(tally, "dense soups")
        for text, side, count in (*LEAPT, *zip(list(maps())[-3:], (12, 12, 12), (64, 100, 130))):
            soup(runs, text, next_states(text), side, count)
        for text in SETTLING:
            long_run(runs, text, next_states(text))
        for text in ("B3/S23", "B34w/S23"):
            large_soup(runs, text, [(400 * x, 400 * y) for x in range(10) for y in range(10)], 20, 256)
        small_tree(runs)
        runs.tell(tally, "soups that are leapt over")
        for text in GENERATIONS:
            generations(runs, text)
        for cell in AGEING_CELLS:
            ageing_cell(runs, *cell)
        runs.tell(tally, "Generations rules")
        for text, told in REFUSED:
            runs.expect("a refused text", ["rule", text], fault(f"bad rule: {told}"))
        runs.tell(tally, "texts that are refused")
    tally.finish()


if __name__ == "__main__":
    main()
