#!/usr/bin/env -S python3 -B
"""`identify`: the claim text that it prints, and what it tells of patterns of which no claim is true.

Files are known ones, soups that are run here, and all of examples/ and tests/files/, whose text is proved by `verify`. Other tests are of names, paths and rule
files, of files that are refused, and of how far it looks, with a limit and while patience lasts.
"""
import math
import os
import random
import re
import tempfile

from lib import apgcode, golden, remedies, rle
from lib.gallery import found
from lib.program import ROOT, Folder, Outcome, Tally, ample, fault, lines_outcome, run
from lib.steps import drifted, next_live
from lib.work import excess, timed

# Patterns whose claims are known from elsewhere: the field's names for them, or docs/CLAIMS.md.
KNOWN = {
    "examples/block.rle": "still", "tests/files/beehive.rle": "still", "tests/files/loaf.rle": "still", "examples/blinker.rle": "oscillator 2",
    "tests/files/toad.rle": "oscillator 2", "examples/pulsar.rle": "oscillator 3", "tests/files/pentadecathlon.rle": "oscillator 15",
    "tests/files/queen_bee_shuttle.rle": "oscillator 30", "examples/glider.rle": "spaceship 4 1 1", "examples/reactions/diehard.rle": "dies 130",
    "examples/reactions/eater.rle": "still", "tests/files/generations/brians_brain_oscillator.rle": "oscillator 3",
}

# Texts of patterns that have no code: none of the three kinds, or under a rule under which nothing has one.
CODELESS = {
    "empty": "x = 0, y = 0\n!\n", "dies": "x = 1, y = 1\no!\n", "grows": "x = 3, y = 3\nb2o$2o$bo!\n", "hexagonal": "x = 2, y = 2, rule = B/S23H\n2o$2o!\n",
    "three states": "x = 2, y = 2, rule = 23/3/3\n2o$2o!\n", "Generations of two states": "x = 2, y = 2, rule = 23/3/2\n2o$2o!\n",
}

BLOCK, EMPTY = "x = 2, y = 2\n2o$2o!\n", "x = 0, y = 0\n!\n"
GLIDER = "x = 3, y = 3\nbob$2bo$3o!\n"


def whole(lines, complaint=b"", status=0):
    """The outcome of a run that prints the text with these lines after its first."""
    return Outcome(f"claims 2\n{lines}".encode(), complaint, status)


def claim_of(name, told):
    """The line of a claim, whose first word and numbers are `told`."""
    word, *numbers = told.split()
    return " ".join([word, name, *numbers])


def entry(name, path, told):
    """The lines on a file for which `told` is expected: its claim, or after `#` its comment."""
    if told.startswith("# "):
        return f"load {name} {path}\n# {name}: {told[2:]}\n"
    return f"load {name} {path}\n{claim_of(name, told)}\n"


def later_entry(name, path, generations, told):
    """The lines on a file for whose plane after `generations` this is expected."""
    return f"load {name} {path}\n# {name} after {generations} generation{'s' * (generations != 1)}: {told.removeprefix('# ')}\n"


def none_within(limit, count, width, height, begun=0):
    """The comment on a plane, `begun` generations after the pattern, of which no claim is true within a limit, and which has `count` cells at the limit, in a
    box of this width and height."""
    return f"# none of these within {limit} generation{'s' * (limit != 1)}: {count} cell{'s' * (count != 1)}, in a box of {width} by {height}, after {begun + limit}"


def none_of(cells, limit, begun=0):
    """The same by the cells after as many generations as the limit."""
    across, down = [x for x, _ in cells], [y for _, y in cells]
    return none_within(limit, len(cells), max(across) - min(across) + 1, max(down) - min(down) + 1, begun)


def shown_after(path, limit, *words, begun=0):
    """The same by what `show` tells of the plane then."""
    told = dict(line.split(" ", 1) for line in run(["show", path, "--after", str(begun + limit), *words]).printed.decode().splitlines())
    return none_within(limit, int(told["cells"]), *map(int, told["box"].split()[2:]), begun)


def base_name(path):
    """The name for a file of this path, where it isn't taken."""
    own = path.rsplit("/", 1)[-1]
    own = own.rsplit(".", 1)[0] if "." in own else own
    own = re.sub(r"[ \t\r\n]", "_", own)
    return re.sub("^#", "_", own) or "_"


def names_of(paths):
    """The names for files of these paths."""
    names = []
    for path in paths:
        base = base_name(path)
        tries = [base, *(f"{base}-{number}" for number in range(2, len(paths) + 2))]
        names.append(next(it for it in tries if it not in names))
    return names


def try_known(tally):
    """Files whose claims are known, each alone and all together."""
    entries = [entry(name, path, told) for name, (path, told) in zip(names_of(KNOWN), KNOWN.items())]
    for (path, told), lines in zip(KNOWN.items(), entries):
        tally.expect(f"{path}: {told}", run(["identify", path]), whole(lines))
    tally.expect("all of these", run(["identify", *KNOWN]), whole("".join(entries)))


def true_claims():
    """The claims of golden runs about one pattern that are true: for each path, and the rule files of its text, what `identify` should say."""
    claims = {}
    for case in golden.cases("verify"):
        _, *words = golden.words(case)
        if len(words) > 1 or words == ["-"]:
            continue
        with open(os.path.join(ROOT, words[0]), encoding="utf-8", errors="replace") as text:
            lines = [line.split() for line in text]
        yes = map(int, re.findall(r"^line (\d+): yes$", golden.outcome(case).printed.decode(), re.M))
        rules = tuple(words[1] for words in lines if words[:1] == ["rule"])
        paths = {words[1]: words[2] for words in lines if words[:1] == ["load"]}
        for number in yes:
            word, name, *numbers = lines[number - 1]
            if word in ("still", "oscillator", "spaceship", "dies"):
                claims.setdefault((rules, paths[name]), set()).add(" ".join([word, *numbers]))
    return claims


def try_true_claims(tally):
    """What golden runs claim of a pattern, and is true, is what is found."""
    claims = true_claims()
    complaints = [f"{key}: {told}" for key, told in claims.items() if len(told) != 1]
    for (rules, path), told in claims.items():
        told = next(iter(told))
        words = [word for rule in rules for word in ("--rule", rule)]
        if len(rules) > 1 or int((told.split() + ["1"])[1] if told != "still" else 1) > 65536:
            continue
        lines = "".join(f"rule {rule}\n" for rule in rules) + entry(base_name(path), path, told)
        got = run(["identify", path, *words])
        if got != whole(lines):
            complaints.append(f"{path}: wanted {lines!r}, {got}")
    tally.tell(f"{len(claims)} patterns whose claims are true", complaints if len(claims) > 40 else ["too few claims"])


def told_of(cells, birth, survival, limit, begun=0):
    """What a plane is, `begun` generations after the pattern, by running it here."""
    if not cells:
        return "# no cell is live"
    left, top = min(x for x, _ in cells), min(y for _, y in cells)
    first, now = frozenset((x - left, y - top) for x, y in cells), cells
    for generation in range(1, limit + 1):
        now = next_live(now, birth, survival)
        if not now:
            return f"dies {generation}"
        west, north = min(x for x, _ in now), min(y for _, y in now)
        if frozenset((x - west, y - north) for x, y in now) == first:
            if (west, north) == (left, top):
                return "still" if generation == 1 else f"oscillator {generation}"
            return f"spaceship {generation} {west - left} {north - top}"
    return none_of(now, limit, begun)


def try_squares(tally, files):
    """The live patterns of 3 by 3 cells under three rules, run here; of the third rule, whose patterns grow fast, those of two rows and a cell."""
    limit = 40
    for birth, survival, count, least in (({3}, {2, 3}, 512, 5), ({3, 6}, {2, 3}, 512, 5), ({2}, set(), 128, 3)):
        rule = f"B{''.join(map(str, sorted(birth)))}/S{''.join(map(str, sorted(survival)))}"
        paths, tolds = [], []
        for number in range(1, count):
            cells = {(place % 3, place // 3) for place in range(9) if number >> place & 1}
            paths.append(files.path(f"square_{number}.rle", rle.tidy({it: 1 for it in cells}, rule, 0, 2)))
            tolds.append(told_of(frozenset(cells), birth, survival, limit))
        lines = "".join(entry(name, path, told) for name, path, told in zip(names_of(paths), paths, tolds))
        kinds = {it.split()[0] if it[0] != "#" else it for it in tolds}
        complaints = [] if len(kinds) >= least else [f"only {kinds}"]
        got = run(["identify", "--limit", str(limit), *paths])
        tally.tell(f"{count - 1} squares under {rule}: {sorted(kinds)}", complaints + ([] if got == whole(lines) else [f"wanted {lines!r}", str(got)]))


def try_long_periods(tally, files):
    """Cells that each go through states of their own in turn: the period is the product of the numbers of these states, which have no common divisor."""
    for lengths, words in (((39, 40, 41), ()), ((39, 40, 41), ("--limit", "65537")), ((40, 41, 43), ("--limit", "70520")),
                           ((2, 25, 47, 49), ("--limit", "115150"))):
        first, period, lines, cells = 1, 1, [], {}
        for at, length in enumerate(lengths):
            lines += [f"{first + step},0,0,0,0,{first + (step + 1) % length}" for step in range(length)]
            cells[3 * at, 0] = first
            first, period = first + length, period * length
        rule = files.path("turns.rule", f"@RULE Turns\n@TABLE\nn_states:{first}\nneighborhood:vonNeumann\nsymmetries:none\n" + "\n".join([*lines, ""]))
        path = files.path("turns.rle", rle.tidy(cells, "Turns", 0, first))
        words = ["identify", path, "--rule", rule, *words]
        tally.expect(f"a period of {period}", run(words), whole(f"rule {rule}\n{entry('turns', path, f'oscillator {period}')}"))
        none = none_within(period - 1, len(cells), 3 * len(cells) - 2, 1)
        tally.expect(f"a limit of {period - 1}", run([*words[:4], "--limit", str(period - 1)]), whole(f"rule {rule}\n{entry('turns', path, none)}"))


def turning(lengths, goes):
    """A rule by which cells go through states of their own in turn, as many as `lengths` says for each, and its cells, one above the other, which are back
    together after the product of these numbers, where no two have a common divisor. The cells stay where they are, or go one place east each generation."""
    first, lines, cells = 1, [], {}
    for at, length in enumerate(lengths):
        states = range(first, first + length)
        lines += [f"0,0,0,0,{state},{first + (state + 1 - first) % length}" if goes else f"{state},0,0,0,0,{first + (state + 1 - first) % length}" for state in states]
        lines += [f"{state},0,0,0,0,0" for state in states if goes]
        cells[0, 3 * at] = first
        first += length
    return f"@RULE Turns\n@TABLE\nn_states:{first}\nneighborhood:vonNeumann\nsymmetries:none\n" + "\n".join([*lines, ""]), cells, first


def try_late_returns(tally, files):
    """Oscillators and spaceships that are back late: a generation or three after the first 512, one before and one after as many again, and much later; as far as
    their period, and as far as the generation before it."""
    for goes in (False, True):
        for lengths in ((19, 27), (5, 103), (11, 93), (25, 41), (39, 40, 41)):
            period = math.prod(lengths)
            text, cells, states = turning(lengths, goes)
            rule = files.path(f"turns_{period}.rule", text.replace("Turns", f"Turns_{period}"))
            path = files.path(f"turns_{period}.rle", rle.tidy(cells, f"Turns_{period}", 0, states))
            told = f"spaceship {period} {period} 0" if goes else f"oscillator {period}"
            none = none_within(period - 1, len(cells), 1, 3 * len(cells) - 2)
            for words, what in (((), told), (("--limit", str(period)), told), (("--limit", str(period - 1)), none)):
                tally.expect(f"{told} {words}", run(["identify", path, "--rule", rule, *words]), whole(f"rule {rule}\n{entry(f'turns_{period}', path, what)}"))


# Places by which gliders are apart that meet late, and generations after which others do.
PLACES, DEATHS = 250001, (2000, 10000)


def meeting(places):
    """Two gliders that fly towards each other and both die when they meet, the generations until then, and the last live plane, moved. That they do is seen here
    when they begin near each other; where each begins so many places further away, it takes four generations longer for each place."""
    glider, generations = {(1, 0), (2, 1), (0, 2), (1, 2), (2, 2)}, 0
    now = frozenset(glider | {(6 - x, 6 - y) for x, y in glider})
    while now:
        last, now, generations = now, next_live(now, {3}, {2, 3}), generations + 1
    far = 6 + 2 * places
    return frozenset(glider | {(far - x, far - y) for x, y in glider}), generations + 4 * places, last


def try_late_death(tally, files):
    """Gliders that meet after more than a million generations."""
    cells, generations, _ = meeting(PLACES)
    path = files.path("apart.rle", rle.tidy(dict.fromkeys(cells, 1), "B3/S23", 0, 2))
    told = f"dies {generations}"
    tally.expect(f"gliders that meet late: {told}", run(["identify", path, "--limit", "1100000"]), whole(entry("apart", path, told)))


def try_deaths(tally, files):
    """Gliders that die after known generations, and how they are judged: where it is claimed then, just before, just after and far later."""
    for generations in DEATHS:
        cells, begun, last = meeting((generations + 3) // 4)
        # the gliders begin so much later
        for _ in range(begun - generations):
            cells = next_live(cells, {3}, {2, 3})
        name = f"meet_{generations}"
        path = files.path(f"{name}.rle", rle.tidy(dict.fromkeys(cells, 1), "B3/S23", 0, 2))
        told = f"dies {generations}"
        for words in ((), ("--limit", str(generations)), ("--limit", "4294967295")):
            tally.expect(f"gliders: {told} {' '.join(words)}", run(["identify", path, *words]), whole(entry(name, path, told)))
        none = none_of(last, generations - 1)
        limit = str(generations - 1)
        tally.expect(f"gliders, looked at as far as {limit}", run(["identify", path, "--limit", limit]), whole(entry(name, path, none)))
        judged = ((generations, "yes"), (generations - 1, f"no, cells differ after {generations - 1}"), (generations + 1, f"no, empty after {generations}"),
                  (4 * generations, f"no, empty after {generations}"), (1 << 60, f"no, empty after {generations}"))
        claims = "".join(f"dies gliders {count}\n" for count, _ in judged)
        text = files.path(f"{name}.claims", f"claims 2\nload gliders {path}\n{claims}")
        tally.expect(f"gliders: {told}, judged", run(["verify", text]), lines_outcome([(at, verdict) for at, (_, verdict) in enumerate(judged, 3)]))


def try_longest_limit(tally, _):
    """A gun is looked at as far as can be. In each 60 generations two gliders of five cells come, and all fly 15 places away: that it does so is seen here."""
    limit, path = (1 << 32) - 1, "examples/gun.rle"
    now = frozenset(rle.cells_and_rule(open(os.path.join(ROOT, path), encoding="utf-8").read())[0])
    # when the first gliders are away from the gun, its last ones are as far as they are after the limit
    begun, grown = 600 + limit % 60, []
    for generation in range(begun + 121):
        if (generation - begun) % 60 == 0 and generation >= begun:
            grown.append((len(now), *(max(it) - min(it) + 1 for it in zip(*now))))
        now = next_live(now, {3}, {2, 3})
    each = [tuple(later - before for before, later in zip(*pair)) for pair in zip(grown, grown[1:])]
    tally.tell("what a gun makes in 60 generations", [] if each[0] == each[1] == (10, 15, 15) else [str(each)])
    times = (limit - begun) // 60
    tally.expect(f"a gun, as far as {limit}", run(["identify", path, "--limit", str(limit)]),
                 whole(entry("gun", path, none_within(limit, *(size + times * more for size, more in zip(grown[0], each[0]))))))


def try_limits(tally):
    """A period that is the limit is found, and one that is one more isn't."""
    for path, told, limit in (("examples/pulsar.rle", "oscillator 3", 3), ("examples/glider.rle", "spaceship 4 1 1", 4),
                              ("examples/reactions/diehard.rle", "dies 130", 130),
                              ("examples/block.rle", "still", 1), ("examples/blinker.rle", "oscillator 2", 2),
                              ("tests/files/pentadecathlon.rle", "oscillator 15", 15),
                              ("examples/period_57960.rle", "oscillator 57960", 57960)):
        tally.expect(f"{path}, as far as {limit}", run(["identify", path, "--limit", str(limit)]), whole(entry(base_name(path), path, told)))
        if limit > 1:
            tally.expect(f"{path}, as far as {limit - 1}", run(["identify", path, "--limit", str(limit - 1)]),
                         whole(entry(base_name(path), path, shown_after(path, limit - 1))))
    path, now, settled = "examples/r_pentomino.rle", {(1, 0), (2, 0), (0, 1), (1, 1), (1, 2)}, []
    for generation in range(1, 1109):
        now = next_live(now, {3}, {2, 3})
        if generation in (1, 7, 100, 1000):
            tally.expect(f"the R-pentomino, as far as {generation}", run(["identify", path, "--limit", str(generation)]),
                         whole(entry("r_pentomino", path, none_of(now, generation))))
        if generation in (1104, 1108):
            settled.append(now)
    end = drifted(*settled, (65536 - 1104) // 4)
    # with the usual patience its census is told too (LifeWiki, "R-pentomino": 1103 generations, 25 objects), also of a later plane
    tally.expect("the R-pentomino, as far as usual", run(["identify", path]), whole(
        entry("r_pentomino", path, none_of(end, 65536)) + "# r_pentomino: settles after 1103 generations into 25 objects: cafile census\n"))
    end = drifted(*settled, (66536 - 1104) // 4)
    tally.expect("the R-pentomino later, as far as usual", run(["identify", "--after", "1000", path]), whole(
        later_entry("r_pentomino", path, 1000, none_of(end, 65536, 1000))
        + "# r_pentomino after 1000 generations: settles after 103 generations into 25 objects: cafile census\n"))
    path = "examples/blinker.rle"
    tally.expect("as far as can be", run(["identify", path, "--limit", "4294967295"]), whole(entry("blinker", path, "oscillator 2")))


def try_patience(tally, files):
    """A soup that patience doesn't outlast: what is reported of it is true of the generations that are named, of its own plane and of a later one. With a limit
    that is set it is looked at as far as that, and a bound of the work that is no larger than patience is a bound as ever."""
    chance = random.Random(7)
    path = files.path("soup.rle", rle.tidy({(x, y): 1 for y in range(800) for x in range(800) if chance.random() < 0.375}, "B3/S23", 0, 2))
    told, seconds = timed(["identify", path])
    found = re.search(rb"none of these within (\d+) generations", told.printed)
    limit = int(found[1]) if found else 1
    tally.tell("a soup is looked at while patience lasts", ([] if 50 < limit < 60000 else [str(told)]) + excess(seconds, 100))
    tally.expect(f"within {limit} generations", told, whole(entry("soup", path, shown_after(path, limit))))
    tally.expect("no fewer than a limit that is set", run(["identify", path, "--limit", str(limit + limit // 2)]),
                 whole(entry("soup", path, shown_after(path, limit + limit // 2))))
    tally.expect("fewer than patience allows", run(["identify", path, "--limit", str(limit // 2)]), whole(entry("soup", path, shown_after(path, limit // 2))))
    later = run(["identify", path, "--after", "100"])
    found = re.search(rb"none of these within (\d+) generations", later.printed)
    limit = int(found[1]) if found else 1
    tally.tell("its plane 100 generations on", [] if 50 < limit < 60000 else [str(later)])
    tally.expect(f"that plane within {limit} generations", later, whole(later_entry("soup", path, 100, shown_after(path, limit, begun=100))))
    tally.expect("a bound of the work", run(["identify", path, "--work", "100000"]), whole(f"# soup: {path}: work\n", status=2))


def try_growth(tally, files):
    """One cell, and cells at the ends of the range."""
    lone = files.path("lone.rle", "x = 1, y = 1, rule = 23/3/4\nA!\n")
    tally.expect("a cell that ages", run(["identify", lone, "--limit", "1"]), whole(entry("lone", lone, none_within(1, 1, 1, 1))))
    edge, side = 1 << 60, 1 << 61
    corner = files.path("corner.rle", f"#CXRLE Pos={edge - 1},{-edge}\nx = 1, y = 1, rule = B1/S012345678\no!\n")
    tally.expect("a cell in a corner of the range", run(["identify", corner, "--limit", "3"]), whole(entry("corner", corner, shown_after(corner, 3))))
    ends = files.path("ends.rle", f"#CXRLE Pos={-edge},{-edge}\nx = {side}, y = {side}, rule = B3/S23\n3o{side - 2}${side - 2}b2o${side - 2}b2o!\n")
    tally.expect("patterns in two corners of the range", run(["identify", ends, "--limit", "1"]),
                 whole(entry("ends", ends, none_within(1, 7, side - 1, side + 1))))


def try_many_squares(tally, files):
    """Blinkers that lie so far apart that each generation has some 100000 different squares."""
    chance = random.Random(7)
    corners = {(chance.randrange(1 << 40), chance.randrange(1 << 40)) for _ in range(4000)}
    path = files.path("apart.rle", rle.tidy({(x + i, y): 1 for x, y in corners for i in range(3)}, "B3/S23", 0, 2))
    tally.expect("blinkers far apart", run(["identify", path]), whole(entry("apart", path, "oscillator 2")))


def try_after(tally, files):
    """Planes after some generations: beside steps that are made here, of patterns that come back after any number, and far out. No line is a claim."""
    limit = 30
    for generations in (1, 2, 7, 40):
        paths, tolds = [], []
        for number in range(1, 512, 3):
            cells = frozenset((place % 3, place // 3) for place in range(9) if number >> place & 1)
            paths.append(files.path(f"later_{number}.rle", rle.tidy({it: 1 for it in cells}, "B3/S23", 5, 2)))
            for _ in range(generations):
                cells = next_live(cells, {3}, {2, 3})
            tolds.append(told_of(cells, {3}, {2, 3}, limit, generations))
        lines = "".join(later_entry(name, path, generations, told) for name, path, told in zip(names_of(paths), paths, tolds))
        got = run(["identify", "--after", str(generations), "--limit", str(limit), *paths])
        kinds = {it.split()[0] for it in tolds}
        tally.tell(f"squares after {generations}: {len(kinds)} kinds",
                   ([] if len(kinds) > 2 else [str(kinds)]) + ([] if got == whole(lines) else [f"wanted {lines!r}", str(got)]))
        tally.expect("verify reads the text, which has no claim", run(["verify", "-"], input=got.printed), ample(b""))
    returning = {path: told for path, told in KNOWN.items() if not told.startswith("dies")}
    for generations in (3, 1000003, 1 << 60):
        lines = "".join(later_entry(name, path, generations, told) for name, (path, told) in zip(names_of(returning), returning.items()))
        tally.expect(f"patterns that come back, after {generations}", run(["identify", *returning, "--after", str(generations)]), whole(lines))
    path = "examples/reactions/diehard.rle"
    for generations, told in ((1, "dies 129"), (129, "dies 1"), (130, "no cell is live"), (1 << 60, "no cell is live")):
        tally.expect(f"diehard, after {generations}", run(["identify", path, "--after", str(generations)]),
                     whole(later_entry("diehard", path, generations, told)))
    edge, rule = 1 << 60, "B12345678/S012345678"
    for at in ((0, 0), (edge - 1, -edge), (-edge, edge - 1)):
        dot = files.path("dot.rle", f"#CXRLE Pos={at[0]},{at[1]}\nx = 1, y = 1, rule = {rule}\no!\n")
        side = 2 * (edge + 3) + 1
        tally.expect(f"a cell at {at} that grows, after 2^60", run(["identify", dot, "--after", str(edge), "--limit", "3"]),
                     whole(later_entry("dot", dot, edge, none_within(3, side * side, side, side, edge))))
    path = "examples/r_pentomino.rle"
    tally.expect("the R-pentomino when it settles", run(["identify", path, "--after", "1103", "--limit", "50"]),
                 whole(later_entry("r_pentomino", path, 1103, shown_after(path, 50, begun=1103))))
    tally.expect("no work", run(["identify", path, "--after", "1103", "--work", "1"]), whole(f"# r_pentomino: {path}: work\n", status=2))
    paths = found("**/*.rle", "**/*.mc")
    tally.expect("all pattern files after no generation", run(["identify", "--limit", "4", "--after", "0", *paths]), run(["identify", "--limit", "4", *paths]))


def refusals_by_verify(files, paths, rules):
    """Why `verify` refuses a claim on each of these files, with the line of its fault, as the comments of `identify` tell it; None where it doesn't."""
    lines = [*(f"rule {rule}" for rule in rules), *(f"load {number} {path}" for number, path in enumerate(paths))]
    first = len(lines) + 1
    lines += [f"still {number}" for number in range(len(paths))]
    told = run(["verify", "--explain", files.path("refused.claims", "\n".join([*lines, ""]))]).printed.decode()
    refusals = [None] * len(paths)
    for number, cause, note in re.findall(r"^line (\d+): refused, (.*)\n((?:  .*\n)?)(?:  try: .*\n)?", told, re.M):
        at = re.search(r"(, line \d+)$", note.rstrip("\n"))
        refusals[int(number) - first] = cause + (at[1] if at and cause.startswith("bad pattern") else "")
    return refusals


def rule_files(files):
    """A folder with the rule files of examples/ and tests/files/ under the names of their rules."""
    folder = os.path.join(files.folder, "rules")
    os.mkdir(folder)
    for path in found("tables/*.rule"):
        with open(os.path.join(ROOT, path), encoding="utf-8") as file:
            text = file.read()
        named = re.search(r"^@RULE\s+(\S+)", text, re.M)
        if named and "/" not in named[1] and "@TABLE" in text:
            files.path(os.path.join("rules", f"{named[1]}.rule"), text)
    return folder


def try_all(tally, files):
    """All pattern files of examples/ and tests/files/ at once: the text is proved by `verify`, its names are different, and each file has its lines, in order.
    Those that are refused are refused for what `verify` refuses them."""
    paths, rules = found("**/*.rle", "**/*.mc"), rule_files(files)
    limit = 300
    got = run(["identify", "--limit", str(limit), "--rules", rules, *paths])
    lines = got.printed.decode().splitlines()
    text = files.path("mine.claims", got.printed)
    judged = run(["verify", text])
    answers = judged.printed.decode().splitlines()
    claims = [line for line in lines if line.split()[0] in ("still", "oscillator", "spaceship", "dies")]
    complaints = [str(it) for it in (got, judged) if it.complaint] + [line for line in answers if not line.endswith(": yes")]
    if (got.status, judged.status, len(answers)) != (2, 0, len(claims)) or len(claims) < 60:
        complaints.append(f"status {got.status}, judged with {judged.status}: {len(claims)} claims, {len(answers)} answers")
    rule_lines = [line.split()[1] for line in lines if line.startswith("rule ")]
    refusals = refusals_by_verify(files, paths, rule_lines)
    rest = [line for line in lines if not line.startswith(("rule ", "claims "))]
    for name, path, refusal in zip(names_of(paths), paths, refusals):
        first = rest.pop(0)
        if refusal:
            complaints += [] if first == f"# {name}: {path}: {refusal}" else [f"{first}: {refusal}"]
            continue
        second = rest.pop(0)
        right = f"# {name}: no cell is live"
        if ": none of these" in second:
            right = f"# {name}: {shown_after(path, limit, '--rules', rules)[2:]}"
        if first != f"load {name} {path}" or not (second == right or second.split()[:2] in ([word, name] for word in ("still", "oscillator", "spaceship", "dies"))):
            complaints.append(f"{path}: {first}; {second}")
    tally.tell(f"all {len(paths)} pattern files: {len(claims)} claims are proved, {sum(map(bool, refusals))} files are refused", complaints + rest)
    again = run(["identify", "--limit", "4", *found("*.rle")])
    tally.expect("some patterns, from standard input to `verify`", run(["verify", "-"], input=again.printed),
                 ample("".join(f"line {at}: yes\n" for at, line in enumerate(again.printed.decode().splitlines(), 1)
                               if line.split()[0] in ("still", "oscillator", "spaceship", "dies")).encode()))


def try_names(tally, files):
    """Names, and paths that a claim text can't name."""
    for name in ("one", "two", "three"):
        os.mkdir(os.path.join(files.folder, name))
    made = ("one/block.rle", "two/block.rle", "three/block.mc.rle", "one/block-2.rle", "block.v2", "three/.rle", "one/#1.rle", "two/##.rle", "#", ".hidden",
            "no_ending", "a.b.c.rle", "two/x.rle",
            "two/é.rle", "a-2.rle", "one/a.rle", "two/a.rle", "load.rle", "two/-.rle", "2.rle", "...", "one/..rle")
    paths = [files.path(name, BLOCK) for name in made]
    got = run(["identify", *paths, paths[0], paths[0]])
    names = names_of([*paths, paths[0], paths[0]])
    lines = "".join(entry(name, path, "still") for name, path in zip(names, [*paths, paths[0], paths[0]]))
    tally.expect(f"names: {' '.join(names)}", got, whole(lines))
    wanted = ["block", "block-2", "block.mc", "block-2-2", "block-3", "_", "_1", "_#", "_-2", "_-3", "no_ending", "a.b.c", "x", "é", "a-2", "a", "a-3", "load",
              "-", "2", "..", ".", "block-4", "block-5"]
    tally.tell("these are the names", [] if names == wanted else [f"{names}", f"{wanted}"])
    tally.expect("and verify proves them", run(["verify", files.path("names.claims", got.printed)]),
                 ample("".join(f"line {at}: yes\n" for at in range(3, 2 * len(names) + 2, 2)).encode()))
    blanks = [files.path(name, BLOCK) for name in ("my block.rle", "two/a\tb.rle", "one/c\rd.rle", "one/e\nf.rle")]
    blanks += [os.path.join(files.folder, "lost one.rle"), "-", "", " "]
    shown = [it.replace("\t", r"\x09").replace("\r", r"\x0d").replace("\n", r"\x0a") for it in blanks]
    names = ["my_block", "a_b", "c_d", "e_f", "lost_one", "-", "_", "_-2"]
    lines = "".join(f"# {name}: {path}: no claim text can name this path\n" for name, path in zip(names, shown))
    got = run(["identify", *blanks, paths[0]], input=BLOCK.encode())
    tally.expect("paths that a claim text can't name", got, whole(lines + entry("block", paths[0], "still"), status=2))
    tally.expect("and verify reads the text", run(["verify", "-"], input=got.printed), ample(f"line {lines.count(chr(10)) + 3}: yes\n".encode()))
    spelled = {"a\x1b[31mb.rle": ("a\x1b[31mb", r"a\x1b[31mb"), "c\x7fd.rle": ("c\x7fd", r"c\x7fd"),
               "e\x85f\x9fé\xa0.rle": ("e\x85f\x9fé\xa0", "e\\xc2\\x85f\\xc2\\x9fé\xa0"), "\x01.rle": ("\x01", r"\x01")}
    for name, (own, told) in spelled.items():
        good, lost, at = files.path(name, BLOCK), os.path.join(files.folder, "lost", name), os.path.join(files.folder, "lost", told)
        got = run(["identify", good, lost, "--limit", "1"])
        tally.expect(f"control characters, {told}", got, whole(f"{entry(own, good, 'still')}# {told}-2: {at}.rle: no file\n", status=2))
        tally.expect(f"control characters, {told}, judged", run(["verify", "-"], input=got.printed), ample(b"line 3: yes\n"))
        files.path(name, GLIDER)
        tally.expect(f"control characters, {told}, a comment", run(["identify", good, "--limit", "3"]),
                     whole(f"load {own} {good}\n# {told}: none of these within 3 generations: 5 cells, in a box of 3 by 3, after 3\n"))
        tally.expect(f"control characters, {told}, later", run(["identify", good, "--after", "1"]),
                     whole(f"load {own} {good}\n# {told} after 1 generation: spaceship 4 1 1\n"))
    os.chdir(files.folder)
    try:
        tally.expect("a file that is called -", run(["identify", "./-.rle"], cwd=os.path.join(files.folder, "two")), whole("load - ./-.rle\nstill -\n"))
    finally:
        os.chdir(ROOT)


def try_odd_paths(tally, files):
    """Paths that aren't UTF-8 are reported as those of files that aren't there, and the other files are identified."""
    good, other, folder = files.path("good.rle", BLOCK), files.path("other.rle", BLOCK), files.folder.encode()
    odd = {b"\xff.rle": (b"\xff", b"\xff.rle"), b"a\x1b\xc3.rle": (b"a\\x1b\xc3", b"a\\x1b\xc3.rle"), b"\xc2\x80\xfe": (b"\\xc2\\x80\xfe", b"\\xc2\\x80\xfe"),
           b"\xed\xa0\x80.rle": (b"\xed\xa0\x80", b"\xed\xa0\x80.rle"),
           b"x" * 300 + b"\xff": (b"x" * 300 + b"\xff", b"x" * 300 + b"\xff")}
    ends = entry("good", good, "still").encode(), entry("other", other, "still").encode()
    for name, (own, told) in odd.items():
        path, comment = os.path.join(folder, name), b"# %s: %s: no file\n" % (own, os.path.join(folder, told))
        wanted = Outcome(b"claims 2\n" + ends[0] + comment + ends[1], b"", 2)
        for words in ([good, path, other], ["--explain", good, path, other], ["--", good, path, other], ["--limit", "9", good, path, "--memo", "9", other]):
            tally.expect(f"a path that isn't UTF-8, {told[:20]}, {words[0]}", run(["identify", *words]), wanted)
        tally.expect(f"and verify reads the text, {told[:20]}", run(["verify", "-"], input=wanted.printed), ample(b"line 3: yes\nline 6: yes\n"))
    first, second = os.path.join(folder, b"\xff.rle"), os.path.join(folder, b"\xfe.rle")
    with open(first, "wb") as file:
        file.write(BLOCK.encode())
    wanted = b"claims 2\n# \xff: %s: no file\n# \xfe: %s: no file\n# \xff-2: %s: no file\n" % (first, second, first)
    tally.expect("one that is there, and another, and the first again", run(["identify", first, second, first]), Outcome(wanted, b"", 2))
    tally.expect("one with a blank", run(["identify", b"\xff a.rle"]), Outcome(b"claims 2\n# \xff_a: \xff a.rle: no claim text can name this path\n", b"", 2))
    tally.expect("one that begins as an option does", run(["identify", "--", b"-\xff.rle", "examples/block.rle"]),
                 Outcome(b"claims 2\n# -\xff: -\xff.rle: no file\n" + entry("block", "examples/block.rle", "still").encode(), b"", 2))


def try_refused(tally, files):
    """Files that are refused, among others: their comments, and the status."""
    bad = {"lost.rle": (None, "no file"), "syntax.rle": ("x = 1, y = 1\nz!", "bad pattern: rle syntax, line 2"),
           "end.rle": ("x = 1, y = 1\no", "bad pattern: rle no end, line 2"),
           "life.rle": ("x = 1, y = 1, rule = Life\no!", "bad rule: unknown"), "grid.rle": ("x = 1, y = 1, rule = B3/S23:T30\no!", "bad rule: bounded"),
           "wakes.rle": ("x = 1, y = 1, rule = B0/S\no!", "bad rule: wakes"), "large.rle": ("x = 1, y = 1\nB!", "state too large"),
           "m.mc": ("[M2]\nz\n", "bad pattern: macrocell syntax, line 2")}
    good = files.path("good.rle", BLOCK)
    paths = [files.path(name, text) for name, (text, _) in bad.items()]
    comments = [f"# {base_name(path)}: {path}: {cause}\n" for path, (_, cause) in zip(paths, bad.values())]
    for path, comment in zip(paths, comments):
        tally.expect(f"{comment.split(': ', 2)[2].strip()}", run(["identify", good, path]), whole(entry("good", good, "still") + comment, status=2))
    tally.expect("a refused file, and then a good one", run(["identify", paths[1], good]), whole(comments[1] + entry("good", good, "still"), status=2))
    tally.expect("all of them", run(["identify", *paths]), whole("".join(comments), status=2))
    notes = [(paths[1], ", line 2"), (paths[2], ", line 2"), (paths[3], ": rule Life"), (paths[4], ": rule B3/S23:T30"), (paths[5], ": rule B0/S"),
             (paths[6], ""), (paths[7], ", line 2")]
    causes = {path: cause.split(", line")[0] for path, (_, cause) in zip(paths, bad.values())}
    explained = "".join(f"  {path}{note}\n" + remedies.line(causes[path], path.encode(), rule=note.encode()[7:]).decode() for path, note in notes)
    tally.expect("all of them, explained", run(["identify", "--explain", good, *paths]),
                 whole(entry("good", good, "still") + "".join(comments), explained.encode(), 2))
    tally.expect("good files, explained", run(["identify", "--explain", good]), whole(entry("good", good, "still")))
    tally.expect("a folder", run(["identify", files.folder]), whole(f"# {base_name(files.folder)}: {files.folder}: no file\n", status=2))
    long = files.path("long.rle", BLOCK.encode().ljust(67108865))
    tally.expect("a file that is too long", run(["identify", long]), whole(f"# long: {long}: no file\n", status=2))
    path = "examples/r_pentomino.rle"
    no_work = whole(f"# r_pentomino: {path}: work\n# good: {good}: work\n", status=2)
    tally.expect("no work", run(["identify", "--work", "0", path, good]), no_work)
    tally.expect("no work, explained", run(["identify", "--explain", "--work", "0", path, good]), no_work)
    empty = files.path("empty.rle", EMPTY)
    tally.expect("no live cell", run(["identify", "--work", "0", empty]), whole(entry("empty", empty, "# no cell is live")))
    for memo in (1, 1000, 16777216):
        tally.expect(f"a memo of {memo}", run(["identify", "--memo", str(memo), "examples/pulsar.rle"]),
                     whole(entry("pulsar", "examples/pulsar.rle", "oscillator 3")))


def rule_text(name, states=3):
    """A rule file of this name under which nothing changes."""
    return f"@RULE {name}\n@TABLE\nn_states:{states}\nneighborhood:vonNeumann\nsymmetries:none\n"


def pattern_of(rule):
    """A pattern under this rule."""
    return f"x = 2, y = 1, rule = {rule}\nB.A!\n"


def try_rules(tally, files):
    """Rule files, by `--rule` and `--rules`: the lines that name them, and what `verify` makes of the text."""
    folder = os.path.join(files.folder, "tables")
    os.mkdir(folder)

    def table(name, text):
        return files.path(os.path.join("tables", name), text)

    def both(name, words, text, status=0, complaint=b""):
        """Expects a text, whose claims `verify` proves."""
        got = run(["identify", *words])
        tally.expect(name, got, whole(text, complaint, status))
        yes = [at for at, line in enumerate(text.splitlines(), 2) if line.startswith(("still", "oscillator"))]
        tally.expect(f"{name}, judged", run(["verify", "-"], input=got.printed), ample("".join(f"line {at}: yes\n" for at in yes).encode()))

    a, b = (files.path(f"of_{name}.rle", pattern_of(name)) for name in ("A", "B"))
    block = files.path("plain.rle", BLOCK)
    given, one, two = files.path("given.rule", rule_text("A")), table("A.rule", rule_text("A")), table("B.rule", rule_text("B"))
    still = {path: entry(base_name(path), path, "still") for path in (a, b, block)}
    both("a rule file", ["--rule", given, a, block], f"rule {given}\n{still[a]}{still[block]}")
    both("a rule file that isn't needed", [block, "--rule", given], f"rule {given}\n{still[block]}")
    both("a rule that isn't in the rule file", ["--rule", given, b, a], f"rule {given}\n# of_B: {b}: bad rule: unknown\n{still[a]}", 2)
    both("a folder", ["--rules", folder, b, a, b, block],
         f"rule {two}\nrule {one}\n{still[b]}{still[a]}{still[b].replace('of_B ', 'of_B-2 ').replace('still of_B', 'still of_B-2')}{still[block]}")
    both("a folder that isn't needed", ["--rules", folder, block], still[block])
    both("a rule file and a folder", ["--rule", given, "--rules", folder, a, b], f"rule {given}\nrule {two}\n{still[a]}{still[b]}")
    table("C.rule", "@RULE C\n@TABLE\nn_states:1\n")
    c = files.path("of_C.rle", pattern_of("C"))
    both("a faulty rule file of a folder", ["--rules", folder, c, a], f"rule {one}\n# of_C: {c}: bad table: states\n{still[a]}", 2)
    noted = f"  rule file: {os.path.join(folder, 'C.rule')}, line 3\n".encode()
    both("a faulty rule file of a folder, explained", ["--explain", "--rules", folder, c, a], f"rule {one}\n# of_C: {c}: bad table: states\n{still[a]}", 2,
         noted)
    table("Z.rule", "@RULE Z\n@TABLE\nn_states:3\n\nneighborhood:Margolus\n")
    z = files.path("of_Z.rle", pattern_of("Z"))
    for words in ([a, c, b, z], [a, b, z, c, block], [block, z, a, block, c], [z, a, c, z, b]):
        text, notes, taken = "", b"", []
        for path, name in zip(words, names_of(words)):
            told = {c: "states", z: "neighborhood"}.get(path)
            text += f"# {name}: {path}: bad table: {told}\n" if told else entry(name, path, "still")
            notes += f"  rule file: {os.path.join(folder, 'C.rule' if path == c else 'Z.rule')}, line {3 if path == c else 5}\n".encode() if told else b""
            taken += [{a: one, b: two}[path]] if path in (a, b) else []
        text = "".join(f"rule {it}\n" for it in taken) + text
        both(f"faulty rule files of some of {len(words)} files", ["--rules", folder, *words], text, 2)
        both(f"faulty rule files of some of {len(words)} files, explained", ["--explain", *words, "--rules", folder], text, 2, notes)
    table("D.rule", rule_text("A"))
    d = files.path("of_D.rle", pattern_of("D"))
    both("a rule file of another name", ["--rules", folder, d, a], f"rule {one}\n# of_D: {d}: bad rule: unknown\n{still[a]}", 2)
    e = files.path("of_E.rle", pattern_of("E"))
    both("a rule file that isn't there, explained", ["--rules", folder, "--explain", e], f"# of_E: {e}: bad rule: unknown\n", 2,
         f"  {e}: rule E\n  try: name the folder of E.rule by --rules\n".encode())
    bad = os.path.join(folder, "C.rule")
    tally.expect("a faulty rule file", run(["identify", "--rule", bad, a]), fault("bad table: line 3 states"))
    tally.expect("a faulty rule file, explained", run(["identify", "--explain", "--rule", bad, a]),
                 Outcome(b"", f"cafile: bad table: line 3 states\n  rule file: {bad}, line 3\n".encode(), 2))
    tally.expect("a rule file that isn't there", run(["identify", "--rule", "nowhere.rule", a]), fault("cannot read nowhere.rule"))
    for path in (files.path("my table.rule", rule_text("A")), "-", ""):
        tally.expect(f"a rule file that a claim text can't name: {os.path.basename(path)}", run(["identify", "--rule", path, a]),
                     fault(f"no claim text can name {path}"))
    os.mkdir(os.path.join(files.folder, "my tables"))
    for path in (os.path.join(files.folder, "my tables"), "-", ""):
        tally.expect(f"a folder that a claim text can't name: {os.path.basename(path)}", run(["identify", "--rules", path, a]),
                     fault(f"no claim text can name {path}"))
    for path in (os.path.join(files.folder, "nowhere"), bad, os.path.join(bad, "rules")):
        for words in ([a], ["--explain", a], ["--rule", "nowhere.rule", a], ["nowhere.rle"]):
            tally.expect(f"a folder that is none: {os.path.basename(path)}", run(["identify", "--rules", path, *words]), fault(f"cannot read {path}"))
    table("F G.rule", rule_text("F G"))
    f = files.path("of_F_G.mc", "[M2]\n#R F G\n1 0 0 0 1\n")
    tally.expect("a rule with a blank in its name", run(["identify", "--rules", folder, f]), whole(f"# of_F_G: {f}: bad rule: unknown\n", status=2))


def try_given_rule(tally, files):
    """The table of `--rule` goes before another good one of its name in the folder: under it a lone cell dies, and under the other one it is still."""
    given = files.path("given.rule", rule_text("Lone") + "1,0,0,0,0,0\n")
    files.path("Lone.rule", rule_text("Lone"))
    path = files.path("lone.rle", "x = 1, y = 1, rule = Lone\nA!\n")
    for words in (["--rule", given, "--rules", files.folder], ["--rules", files.folder, "--rule", given]):
        for more, lines in (([], entry("lone", path, "dies 1")), (["--after", "0"], entry("lone", path, "dies 1")),
                            (["--after", "1"], later_entry("lone", path, 1, "no cell is live"))):
            tally.expect(f"a rule file beside a folder {' '.join(more)}", run(["identify", path, *words, *more]), whole(f"rule {given}\n{lines}"))


def code_of(path, *words):
    """The code that is printed of a file, or None."""
    lines = run(["identify", "--apgcode", *words, path]).printed.decode().splitlines()
    found = [re.fullmatch(r"# .*: ((?:x[spq]|ov_)[0-9a-z_]+)", line) for line in lines[3:]]
    return found[0][1] if len(found) == 1 and found[0] else None


def try_codes(tally, files):
    """Codes that are known, and no others; and without the words for them not a byte more."""
    lines = []
    for path, code in apgcode.KNOWN.items():
        told = run(["identify", path])
        lines.append(told.printed.decode().removeprefix("claims 2\n") + f"# {base_name(path)}: {code}\n")
        tally.expect(f"{path}: {code}", run(["identify", "--apgcode", path]), whole(lines[-1]))
    tally.expect("all codes that are known", run(["identify", "--apgcode", *apgcode.KNOWN]), whole("".join(lines)))
    tally.expect("a code some generations on", run(["identify", "--apgcode", "--after", "5", "examples/glider.rle"]),
                 whole(later_entry("glider", "examples/glider.rle", 5, "spaceship 4 1 1") + "# glider after 5 generations: xq4_153\n"))
    for name, text in CODELESS.items():
        path = files.path("p.rle", text)
        tally.expect(f"no code: {name}", run(["identify", "--apgcode", path]), run(["identify", path]))
    tally.expect("no code under a table", run(["identify", "--apgcode", "--rules", "examples/rules", "examples/tables/spread.rle"]),
                 run(["identify", "--rules", "examples/rules", "examples/tables/spread.rle"]))


def try_copies(tally, files):
    """Phases of objects, turned, reflected and moved, have one code; so have random pictures of three still lifes and oscillators."""
    generator = random.Random(7)
    soups = {f"three objects, {k}": place_all(generator) for k in range(12)}
    known = {path: rle.cells_and_rule(open(os.path.join(ROOT, path), encoding="utf-8").read())[0] for path in apgcode.KNOWN}
    for name, cells in {**known, **soups}.items():
        path = files.path("first.rle", text_of(cells))
        code = code_of(path)
        complaints = [] if code and (name not in apgcode.KNOWN or code == apgcode.KNOWN[name]) else [f"{code}"]
        for turn in apgcode.ORIENTATIONS:
            dx, dy = generator.randrange(-10 ** 9, 10 ** 9), generator.randrange(-10 ** 9, 10 ** 9)
            moved = files.path("moved.rle", text_of({turn(x, y): state for (x, y), state in cells.items()}, dx, dy))
            got = code_of(moved, "--after", str(generator.randrange(60)))
            if got != code:
                complaints.append(f"{got}, wanted {code}")
        tally.tell(f"one code of {name}", complaints)


def try_large_codes(tally, files):
    """Codes of many objects side by side, also where they fill 40 by 40 cells and a little more, as they are computed here."""
    generator = random.Random(11)
    smallest = [it for it in apgcode.KNOWN if apgcode.KNOWN[it][1] in "sp" and len(apgcode.KNOWN[it]) < 9]
    own = [frozenset(rle.cells_and_rule(open(os.path.join(ROOT, it), encoding="utf-8").read())[0]) for it in smallest]
    for columns, rows in [(1, 1), (2, 1), (3, 3), (5, 5), (5, 2), (6, 5), (5, 5), (5, 5), (4, 5), (6, 6)]:
        cells = set()
        for column in range(columns):
            for row in range(rows):
                cells |= {(x + 8 * column, y + 8 * row) for x, y in generator.choice(own)}
        period = 1 if next_live(frozenset(cells), {3}, {2, 3}) == cells else 2
        wanted = apgcode.code(cells, "s" if period == 1 else "p", period)
        got = code_of(files.path("many.rle", text_of({place: 1 for place in cells})))
        tally.tell(f"the code of {columns} by {rows} objects", [] if got == wanted else [f"{got}, wanted {wanted}"])
    blocks = {(3 * i + x, 3 * j + y) for i in range(13) for j in range(13) for x in (0, 1) for y in (0, 1)}
    wanted = apgcode.code(blocks, "s", 1)
    got = code_of(files.path("blocks.rle", text_of({place: 1 for place in blocks})))
    tally.tell(f"a code of {len(wanted)} characters", [] if got == wanted and len(wanted) > 300 else [f"{got}, wanted {wanted}"])


def place_all(generator):
    """Some of the smallest known patterns beside each other, which don't meet."""
    cells = {}
    for column, path in enumerate(generator.sample([it for it in apgcode.KNOWN if apgcode.KNOWN[it][1] in "sp" and len(apgcode.KNOWN[it]) < 9], 3)):
        own, down = rle.cells_and_rule(open(os.path.join(ROOT, path), encoding="utf-8").read())[0], generator.randrange(20)
        cells |= {(x + 12 * column, y + down): state for (x, y), state in own.items()}
    return cells


def text_of(cells, dx=0, dy=0):
    """An RLE of cells of two states, moved."""
    left, top = min(x for x, _ in cells), min(y for _, y in cells)
    rows = {}
    for x, y in cells:
        rows.setdefault(y - top, set()).add(x - left)
    body = "$".join("".join("o" if x in rows.get(y, ()) else "b" for x in range(max(rows.get(y, {0})) + 1)) for y in range(max(rows) + 1))
    return f"#CXRLE Pos={left + dx},{top + dy}\nx = 0, y = 0, rule = B3/S23\n{body}!\n"


# The code of tests/files/period_57960_small.rle, which another program has found that steps its cells and writes each phase in each orientation.
CODE_OF_57960 = "xp57960_33hm0mh33z8oy8o8z0123wswsw321y08k88k8y1gggeeez8e13y431e8x252252y1333zooybc4oy3oozydhhhz33yb643y333"

# Where its five oscillators lie: x, y, width and height.
CORNERS_OF_57960 = [(0, 0, 36, 13), (0, 13, 17, 13), (17, 13, 11, 13), (28, 13, 8, 13), (0, 26, 9, 6)]


def least_work(path, *words):
    """The smallest limit of work with which a file is identified."""
    low, high = 1, 1 << 22
    while low < high:
        middle = (low + high) // 2
        if run(["identify", *words, "--work", str(middle), path]).status == 0:
            high = middle
        else:
            low = middle + 1
    return low


def try_work_of_codes(tally, files):
    """Work that lasts for the claim and not for the code refuses the file. Objects that are too large for 40 by 40 cells at any time need none for their code, and
    those whose phases all fit need seven units for each of them but the first, less than half of what trees of them would need."""
    path = "tests/files/period_840.rle"
    low = least_work(path)
    tally.expect("work for the claim", run(["identify", "--work", str(low), path]), whole(entry("period_840", path, "oscillator 840")))
    tally.expect("work for the claim and not for the code", run(["identify", "--apgcode", "--work", str(low), path]),
                 whole(f"# period_840: {path}: work\n", status=2))
    path = "examples/period_57960.rle"
    tally.expect("no work for the code of a large object", run(["identify", "--apgcode", "--work", str(least_work(path)), path]),
                 whole(entry("period_57960", path, "oscillator 57960") + "# period_57960: ov_p57960\n"))
    path = "tests/files/period_57960_small.rle"
    tally.expect("a long period of small phases", run(["identify", "--apgcode", path]),
                 whole(entry("period_57960_small", path, "oscillator 57960") + f"# period_57960_small: {CODE_OF_57960}\n"))
    alone, coded = (min(timed(["identify", *words, path])[1] for _ in range(3)) for words in ([], ["--apgcode"]))
    # that takes up to twice as long, and five times where each phase is turned and written
    tally.tell("no phase is turned and written in vain", [] if coded <= 4 * alone else [f"{coded:.2f} s, and {alone:.2f} s without it"])
    low, bricks = least_work(path, "--apgcode"), 7 * 57959
    tally.tell("work for the code of a small object", [] if bricks < low < 2 * bricks else [f"{low}, and {bricks} for the bricks"])


def try_long_codes(tally, files):
    """Codes of the same five oscillators, with a period of 57960: a little apart, where no phase fits into 40 by 40 cells, and none of them is too large."""
    own = {place: (60 * (k % 3), 60 * (k // 3)) for k, place in enumerate(CORNERS_OF_57960)}
    cells = rle.cells_and_rule(open(os.path.join(ROOT, "tests/files/period_57960_small.rle"), encoding="utf-8").read())[0]
    apart = {}
    for (x, y), state in cells.items():
        corner = max(it for it in CORNERS_OF_57960 if it[0] <= x < it[0] + it[2] and it[1] <= y < it[1] + it[3])
        dx, dy = own[corner]
        apart[x - corner[0] + dx, y - corner[1] + dy] = state
    tally.tell("a long period of phases that don't fit", [] if code_of(files.path("apart.rle", text_of(apart))) == "ov_p57960" else ["another code"])


def try_many(tally, files):
    """1100 files of one name, of which the last 200 have rules of their own; a text of more than a million bytes; and the time that many files of one name take."""
    os.mkdir(os.path.join(files.folder, "rules"))
    paths, rules, lines = [], [], []
    for number in range(1100):
        own = number - 900
        os.mkdir(os.path.join(files.folder, str(number)))
        if own >= 0:
            rules.append(files.path(f"rules/R{own}.rule", rule_text(f"R{own}")))
        paths.append(files.path(f"{number}/p.rle", pattern_of(f"R{own}") if own >= 0 else BLOCK))
        lines.append(entry("p" if number == 0 else f"p-{number + 1}", paths[-1], "still"))
    text = "".join([*(f"rule {rule}\n" for rule in rules), *lines])
    tally.expect("1100 files of one name and 200 rules", run(["identify", "--rules", os.path.join(files.folder, "rules"), *paths]), whole(text))
    long = paths[0].replace("/", "/" + "./" * 1900, 1)
    lines = [entry(f"p-{number + 1}" if number else "p", long, "still") for number in range(300)]
    tally.expect("a text of more than a million bytes", run(["identify", *[long] * len(lines)]), whole("".join(lines)))
    count = 20002
    got, seconds = timed(["identify", *["examples/block.rle"] * count])
    lines = [entry(f"block-{number + 1}" if number else "block", "examples/block.rle", "still") for number in range(count)]
    tally.tell(f"{count} files of one name", ([] if got == whole("".join(lines)) else [str(got)]) + excess(seconds, 20))


def try_many_words(tally, files):
    """100000 words, of which a few name a file."""
    there = {0: BLOCK, 1: GLIDER, 49999: BLOCK, 50000: "x = 1, y = 1\nz!", 99998: GLIDER, 99999: BLOCK}
    for number, text in there.items():
        files.path(str(number), text)
    told = {BLOCK: "still", GLIDER: "spaceship 4 1 1"}
    lines = []
    for number in range(100000):
        text = there.get(number)
        refused = "bad pattern: rle syntax, line 2" if text else "no file"
        lines.append(entry(str(number), str(number), told[text]) if text in told else f"# {number}: {number}: {refused}\n")
    tally.expect("100000 words", run(["identify", *map(str, range(100000))], cwd=files.folder), whole("".join(lines), status=2))


def main():
    tally = Tally()
    try_known(tally)
    try_true_claims(tally)
    try_limits(tally)
    for trial in (try_squares, try_patience, try_growth, try_many_squares, try_long_periods, try_late_returns, try_late_death, try_deaths, try_longest_limit,
                  try_after, try_all, try_names, try_odd_paths, try_refused, try_rules, try_given_rule, try_codes, try_copies, try_large_codes, try_work_of_codes,
                  try_long_codes, try_many, try_many_words):
        with tempfile.TemporaryDirectory() as folder:
            trial(tally, Folder(folder))
    tally.finish()


if __name__ == "__main__":
    main()
