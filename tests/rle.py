#!/usr/bin/env -S python3 -B
"""RLE texts and the rules that they name: which cells a text holds, which texts are faulty, which spell a B/S rule or a Generations rule, and how rules and
rows are printed.

What each has to come to was computed by hand. Which cells a file holds is asked by `becomes read 0 plain`, where the plain file spells out the same cells one
by one, from another corner.
"""
import itertools

from lib.claim_table import ClaimTable
from lib.claim_text import ClaimText, differs, outcome
from lib.macrocell import EDGE
from lib.parts import try_all
from lib.program import ample, figures, run
from lib.rle_texts import BAD_BODIES, BAD_FILES, BODIES, FILES, HEADER
from lib.rule_table import RINGS
from lib.rule_texts import DIE, FAMILIES, NAMES

CHANGES = differs(1)

# Patterns, their rules, and whether they are still lifes.
STILL_LIFES = (
    ("B3/S23", "2o$2o!", "yes"),
    ("B36/S23", "2o$2o!", "yes"),
    # A ship, whose dead centre has six live neighbours.
    ("B3/S23", "b2o$obo$2o!", "yes"),
    ("B36/S23", "b2o$obo$2o!", CHANGES),
    # A beehive, which does not begin at its corner.
    ("B3/S23", "b2o$o2bo$b2o!", "yes"),
    # A lone cell has no neighbours.
    ("B/S0", "o!", "yes"),
    ("B3/S23", "2$5bo!", CHANGES),
    # Two blocks, far from each other.
    ("B3/S23", "2o$2o998$998b2o$998b2o!", "yes"),
    ("B3/S23", "3o!", CHANGES),
    # Each cell of a block has three neighbours.
    ("B3/S2", "2o$2o!", CHANGES),
    # Two cells side by side have one neighbour each; two on a diagonal have none that shares a side.
    ("B3/S1V", "2o!", "yes"),
    ("B3/S1V", "o$bo!", CHANGES),
    ("0/3v", "o$bo!", "yes"),
    # The hexagonal neighbours are all but the north-east and the south-west.
    ("s1b3h", "o$bo!", "yes"),
    ("s1b3h", "bo$o!", CHANGES),
    ("S0/B3H", "bo$o!", "yes"),
    ("B3/S23", "oB!", "refused, state too large"),
    ("B3/S23", "pAxXyO!", "refused, state too large"),
)

# The places round a cell.
ROUND = RINGS["Moore"]

# Rules that give birth to a cell with one live neighbour, rules that let one survive with all of them live, and the places that both count.
COUNTED = (("B1/S", "B/S8", ROUND), ("B1/SV", "B/S4V", RINGS["vonNeumann"]), ("B1/SH", "B/S6H", RINGS["hexagonal"]))

# A name longer than the printed form of any other rule.
LONG_NAME = "A-rule-whose-name-is-longer-than-any-printed-form"

TABLE = f"@RULE {LONG_NAME}\n@TABLE\nn_states:3\nneighborhood:vonNeumann\nsymmetries:rotate4\nvar a={{1,2}}\n0a000a\n"

# Rows of cells at every second place and what stands beside them, and their text: an item that doesn't fit goes to the next line whole, the end too.
FOLDED = (
    ("every second of 79 cells", "x = 79, y = 1\n" + "ob" * 39 + "o!", "x = 79, y = 1, rule = B3/S23\n" + "ob" * 35 + "\n" + "ob" * 4 + "o!\n"),
    ("an end alone", "x = 70, y = 1\n" + "ob" * 34 + "2o!", "x = 70, y = 1, rule = B3/S23\n" + "ob" * 34 + "2o\n!\n"),
    ("an item of two bytes", "x = 68, y = 2\nbo$" + "ob" * 33 + "2o!", "x = 68, y = 2, rule = B3/S23\nbo$" + "ob" * 33 + "\n2o!\n"),
)


def block(rule):
    """A block under this rule."""
    return f"x = 2, y = 2, rule = {rule}\n2o$2o!\n"


def plain(cells, rule="B3/S23"):
    """A file of these cells, with no counts, from the corner above and left of them where that is in range."""
    left = max(min((x for x, _ in cells), default=0) - 1, -EDGE)
    top = max(min((y for _, y in cells), default=0) - 1, -EDGE)
    rows = []
    for y in range(top, max((y for _, y in cells), default=top) + 1):
        end = max((x for x, at in cells if at == y), default=left - 1)
        rows.append("".join("o" if (x, y) in cells else "b" for x in range(left, end + 1)))
    return f"#CXRLE Pos={left},{top}\nx = 1, y = 1, rule = {rule}\n{'$'.join(rows)}!\n"


def try_cells(tally, files):
    """Files that hold these cells and no others."""
    table = ClaimTable(files.folder)
    for text, cells in [*((HEADER + body, cells) for body, cells in BODIES), *FILES]:
        table.becomes(text, 0, plain(cells))
        table.becomes(text, 0, plain(cells[1:] if cells else [(0, 0)]), "no, cells differ after 0")
    table.judge(tally, "cells of files")


def try_faults(tally, files):
    """Files that don't read."""
    table = ClaimTable(files.folder)
    for text, told in [*((HEADER + body, told) for body, told in BAD_BODIES), *BAD_FILES]:
        table.still(text, f"refused, bad pattern: rle {told}")
    table.judge(tally, "files that do not read")


def try_cut_text(tally, files):
    """A text cut at each place."""
    text = HEADER + "b2o$2o$bo!"
    table = ClaimTable(files.folder)
    for length in range(len(text)):
        # A header without a rule, or with a rule of one letter at least, stands there whole.
        is_headed = length == len("x = 3, y = 3") or length >= len("x = 3, y = 3, rule =")
        table.still(text[:length], f"refused, bad pattern: rle {'no end' if is_headed else 'header'}")
    table.still(text, CHANGES)
    table.judge(tally, "a text cut short")


def try_each_byte(tally, files):
    """Bodies of one byte and an end."""
    table = ClaimTable(files.folder)
    for byte in range(256):
        verdict = "refused, bad pattern: rle syntax"
        if byte in b"b.$! \t\r\n":
            verdict = "no, empty"
        elif byte in b"oA":
            verdict = CHANGES
        elif byte in b"BCDEFGHIJKLMNOPQRSTUVWX":
            verdict = "refused, state too large"
        elif byte in b"#":
            verdict = "refused, bad pattern: rle no end"
        table.still(HEADER.encode() + bytes([byte]) + b"!", verdict)
    table.judge(tally, "bodies of one byte")


def try_rules(tally, files):
    """Texts that name a rule, and which are of one rule, in both formats; and texts that name none."""
    for family in FAMILIES:
        table = ClaimTable(files.folder)
        for printed, texts in family.spellings.items():
            for text in (printed, *texts.split()):
                table.becomes(block(text), 0, block(printed))
                table.becomes(block(text), 0, f"[M2]\n#R {printed}\n1 0 0 0 1\n", differs(0))
        for one, other in itertools.permutations([*family.spellings, *family.others.split()], 2):
            table.becomes(block(one), 0, block(other), "refused, mixed rules")
        table.judge(tally, f"spellings of {family.name}")
        table = ClaimTable(files.folder)
        for told, texts in family.no_rules.items():
            for text in texts.split():
                table.still(block(text), f"refused, bad rule: {told}")
        table.judge(tally, f"texts that name none of the {family.name}")


def try_names(tally, files):
    """Rule files whose name is a rule text: a spelling goes before the table."""
    for name, rule, verdict in NAMES:
        text = ClaimText(files)
        text.rule(DIE.format(name=name))
        text.load("dot", f"x = 1, y = 1, rule = {rule}\no!")
        text.load("nothing", f"x = 1, y = 1, rule = {rule}\n!")
        text.claim("becomes dot 1 nothing", verdict)
        tally.expect(f"a rule file named {name}, and the rule {rule}", run(["verify", text.write()]), outcome(text.answers, False))


def try_patterns(tally, files):
    """Patterns under rules of each neighbourhood."""
    table = ClaimTable(files.folder)
    for rule, body, verdict in STILL_LIFES:
        table.still(f"x = 1, y = 1, rule = {rule}\n{body}\n", verdict)
    large, other = "x = 1, y = 1, rule = B3/S23\nB!", plain([(0, 0)], "B3/S2")
    table.becomes(large, 0, other, "refused, state too large")
    table.becomes(plain([(0, 0)]), 0, other, "refused, mixed rules")
    for birth, survival, counted in COUNTED:
        table.becomes(plain([(0, 0)], birth), 1, plain(counted, birth))
        table.becomes(plain([(0, 0), *ROUND], survival), 1, plain([(0, 0)], survival))
        table.becomes(plain(ROUND, survival), 1, plain([], survival))
        for place in ROUND:
            crowd = [(0, 0), *(it for it in ROUND if it != place)]
            table.becomes(plain(crowd, survival), 1, plain([] if place in counted else [(0, 0)], survival))
    table.judge(tally, "patterns and their rules")


def try_printed_rules(tally, files):
    """Each spelling of a rule in its printed form, and the name of a rule file's table."""
    for family in FAMILIES:
        for printed, texts in family.spellings.items():
            for text in (printed, *texts.split()):
                tally.expect(f"the rule {text[:40]}", run(["show", files.path("block.rle", block(text))]), figures(0, 4, "0 0 2 2", "rle", printed))
    table = files.path("long.rule", TABLE)
    tally.expect("a long name", run(["show", files.path("block.rle", block(LONG_NAME)), "--rule", table]), figures(0, 4, "0 0 2 2", "rle", LONG_NAME))


def try_printed_rows(tally, files):
    """Lines of 70 bytes at most."""
    for name, text, wanted in FOLDED:
        path = files.path("rows.rle", text)
        tally.expect(name, run(["convert", path, "--to", "rle"]), ample(f"#CXRLE Pos=0,0\n{wanted}".encode()))


if __name__ == "__main__":
    try_all(try_cells, try_faults, try_cut_text, try_each_byte, try_rules, try_names, try_patterns, try_printed_rules, try_printed_rows)
