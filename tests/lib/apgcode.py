"""Apgcodes, written and read as docs/FORMATS.md says: apart from the program."""
from lib.steps import next_live

DIGITS = "0123456789abcdefghijklmnopqrstuvwxyz"

# Patterns whose codes are known from LifeWiki's pages on them.
KNOWN = {
    "examples/block.rle": "xs4_33", "tests/files/beehive.rle": "xs6_696", "tests/files/loaf.rle": "xs7_2596", "examples/reactions/eater.rle": "xs7_178c",
    "examples/blinker.rle": "xp2_7", "tests/files/toad.rle": "xp2_7e", "examples/pulsar.rle": "xp3_co9nas0san9oczgoldlo0oldlogz1047210127401",
    "tests/files/pentadecathlon.rle": "xp15_4r4z4r4", "tests/files/queen_bee_shuttle.rle": "xp30_w33z8kqrqk8zzzx33", "examples/glider.rle": "xq4_153",
    "tests/files/lwss.rle": "xq4_6frc", "tests/files/mwss.rle": "xq4_27dee6", "tests/files/hwss.rle": "xq4_27deee6",
}

# The eight turns and reflections of a place.
ORIENTATIONS = (lambda x, y: (x, y), lambda x, y: (-y, x), lambda x, y: (-x, -y), lambda x, y: (y, -x), lambda x, y: (-x, y), lambda x, y: (x, -y),
                lambda x, y: (y, x), lambda x, y: (-y, -x))


def gap_text(count):
    """What is written for `count` columns without cells."""
    return ["", "0", "w", "x"][count] if count < 4 else "y" + DIGITS[count - 4]


def strip_text(columns):
    """The text of five rows, whose columns are numbers."""
    text, gap = "", 0
    for column in columns:
        if column == 0:
            gap += 1
        else:
            text, gap = text + gap_text(gap) + DIGITS[column], 0
    return text


def box(cells):
    """The corner of the smallest box round some cells, and how wide and high it is."""
    across, down = [x for x, _ in cells], [y for _, y in cells]
    return min(across), min(down), max(across) - min(across) + 1, max(down) - min(down) + 1


def representation(cells):
    """The text of some cells in their smallest box."""
    left, top, width, height = box(cells)
    strips = []
    for y in range(top, top + height, 5):
        strips.append(strip_text(sum(2 ** row * ((x, y + row) in cells) for row in range(5)) for x in range(left, left + width)))
    return "z".join(strips)


def read_representation(text):
    """The cells that a text represents, from 0,0, or None."""
    cells, x, y, at = set(), 0, 0, 0
    while at < len(text) and x <= 40 and y < 40:
        digit, next_digit = (DIGITS.find(it) for it in (text[at], text[at + 1:at + 2] or "-"))
        if text[at] == "z":
            x, y = 0, y + 5
        elif text[at] in "0wx":
            x += "0wx".index(text[at]) + 1
        elif text[at] == "y" and next_digit >= 0:
            x, at = x + next_digit + 4, at + 1
        elif 0 < digit < 32:
            cells |= {(x, y + row) for row in range(5) if digit >> row & 1}
            x += 1
        else:
            return None
        at += 1
    # A text that isn't what is written of its cells is none of any.
    return cells if cells and box(cells)[:2] == (0, 0) and max(box(cells)[2:]) <= 40 and representation(cells) == text else None


def code(cells, kind, period):
    """The code of cells that are an object of this kind (`s`, `p` or `q`) and period under B3/S23."""
    texts, now = [], frozenset(cells)
    for _ in range(period):
        if max(box(now)[2:]) <= 40:
            texts += [representation({turn(x, y) for x, y in now}) for turn in ORIENTATIONS]
        now = next_live(now, {3}, {2, 3})
    number = len(cells) if kind == "s" else period
    return f"x{kind}{number}_" + min(texts, key=lambda text: (len(text), text)) if texts else f"ov_{kind}{number}"
