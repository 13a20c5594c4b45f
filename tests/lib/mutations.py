"""Good texts of all four kinds, mutated, cut and joined. One seed always gives the same texts."""
import os
import re

from lib.gallery import found
from lib.macrocell import EDGE
from lib.program import ROOT, contents

KINDS = ("rle", "macrocell", "rule", "claims")

# Texts and files longer than this are cut or left out.
MOST_BYTES = 4000

NUMBER = re.compile(rb"\d+")

# Numbers at limits. 2^24 isn't among them, since that many cells are allowed and take their time.
NUMBERS = tuple(b"%d" % it for it in (
    0, 1, 2, 3, 4, 7, 24, 120, 121, 255, 256, 257, 5000, (1 << 24) + 1, (1 << 32) - 1, 1 << 32, EDGE - 1, EDGE, EDGE + 1,
    4 * EDGE, 4 * EDGE + 1, 8 * EDGE - 1, 8 * EDGE, 16 * EDGE - 1, 16 * EDGE, 10**39,
)) + (b"00", b"002", b"-1", b"-0", b"-%d" % EDGE, b"-%d" % (EDGE + 1))

# Pieces that mean something in any kind of text, and those of each kind.
COMMON = (
    b"\n", b"\r", b"\r\n", b" ", b"\t", b"#", b",", b"-", b":", b"/", b"\n\n", b"\x00", b"\xff", b"\xef\xbb\xbf",
)
PIECES = {
    "rle": (
        b"$", b"!", b"b", b"o", b".", b"A", b"B", b"X", b"Y", b"pA", b"yO", b"yP", b"y", b"2$", b"3o", b"3 \n o", b"0b", b"z", b"x",
        b"\n#r 23/3\n", b"\n#r\r\n", b"#CXRLE Pos=1,2 Gen=3\n", b" Pos=-3,+1", b" Gen=", b"Gen=9223372036854775808", b"\n# c !\n",
        b"x = 1, y = 1\n", b"x=0,y=0,rule=23/3\n", b"345/2/4", b"B03/S23", b"B2/S34H", b"b1sv", b"/2/3", b":T30,20", b"Life",
    ),
    "macrocell": (
        b"[M2]", b"\n#FRAMES 2\n", b"\n#R 345/2/4\n", b"\n#R B03/S23\n", b"\n#R\n", b"\n#G 4\n", b"\n#G\n", b"\n#G 4 4\n", b"$", b"*",
        b".", b"********", b"$$$$$$$$", b"\n1 1 0 0 1\n", b"\n1 0 0 0 200\n", b"\n2 1 1 1 1\n", b"\n4 1 0 0 1\n", b"\n4 0 0 0 0\n",
        b"\n5 2 0 2 0\n", b"\n120 0 0 0 0\n", b" 0", b" 1", b" 2",
    ),
    "rule": (
        b"@RULE Name\n", b"\n@TABLE\n", b"\n@TREE\n", b"\nn_states:3\n", b"n_states:", b"\nneighborhood:Moore\n", b"oneDimensional",
        b"hexagonal", b"vonNeumann", b"none", b"permute", b"rotate4reflect", b"\nsymmetries:reflect\n", b"\nvar a={1,2}\n",
        b"\nvar c = {a, 0}\n", b"{", b"}", b"=", b"a", b"c", b"0,", b"\n0,a,0,0,0,a\n", b"\n0a000a\n", b"\n0,0,0,0,0,1\n",
        b"\n1,0,0,0,0,0\n", b"# c\n", b"@",
    ),
    "claims": (
        b"claims 2\n", b"\nload n0 block.rle\n", b"\nload n1 lost.rle\n", b"\nload n5 glider.mc\n", b"\nrule good.rule\n",
        b"\nrule bad.rule\n", b"\nrule lost.rule\n", b"\nstill n0\n", b"\nstill n1\n", b"\noscillator n0 2\n", b"\nspaceship n2 4 1 1\n",
        b"\nbecomes n1 0 n2\n", b"\nbecomes n0 1 n0 shift 0 0\n", b"\ndies n3 2\n", b" shift 1 1", b" 0", b" 4", b"n0", b"n1", b"n2",
        b"still", b"dies", b".", b".rle", b" x",
    ),
}

# Files that claim texts load, the first ones more often, and the claims.
FILES = (
    "block.rle", "blinker.rle", "glider.rle", "ship.rle", "empty.rle", "dot.rle", "fuse.rle", "upright.rle", "high.rle", "broken.rle",
    "bounded.rle", "large.rle", "glider.mc", "broken.mc", "lost.rle", ".",
)
CLAIMS = {
    1: ("still {a}", "oscillator {a} {n}", "spaceship {a} {n} {x} {y}", "spaceship {a} 8 -4 0", "spaceship {a} 8 2 2", "becomes {a} {n} {b}"),
    2: ("becomes {a} {n} {b} shift {x} {y}", "becomes {a} 4 {a} shift 1 1", "dies {a} {n}", "dies {a} {n}"),
}

# Lines that stand among the claims at times.
OTHER_LINES = ("rule good.rule", "rule good.rule", "rule lost.rule", "rule bad.rule", "# nothing", "")


def claim_text(chance):
    """A claim text about a few of the files."""
    names, lines = [], []
    for at in range(chance.randint(1, 4)):
        names.append(f"n{at}")
        lines.append(f"load n{at} {chance.choice(FILES[:8] * 2 + FILES)}")
    is_second = chance.random() < 0.6
    for _ in range(chance.randint(1, 6)):
        n, x, y = (chance.choice(it) for it in ((1, 2, 2, 4, 4, 8, 12, EDGE), (0, 1, 1, -2, 2, 3), (0, 0, 1, 1, -1, 3)))
        form = chance.choice(CLAIMS[1] + CLAIMS[2] * is_second)
        n = max(2, min(n, 1 << 31)) if form.startswith(("osc", "spa")) else n
        lines.append(form.format(a=chance.choice(names), b=chance.choice(names), n=n, x=x, y=y if x else 1))
    if chance.random() < 0.2:
        lines.insert(chance.randint(0, len(lines)), chance.choice(OTHER_LINES))
    return "".join(f"{it}\n" for it in (["claims 2"] if is_second else []) + lines).encode()


def good_texts(*names):
    """The shorter ones of these files of examples/ and tests/files/."""
    texts = [contents(os.path.join(ROOT, it)) for it in found(*names)]
    return [it for it in texts if len(it) <= MOST_BYTES]


def place(chance, text):
    """A place in a text, or its end."""
    return chance.randint(0, len(text))


def piece_put(chance, text, kind, _):
    """The text with a piece put in."""
    at = place(chance, text)
    return text[:at] + chance.choice(PIECES[kind] + COMMON) + text[at:]


def piece_exchanged(chance, text, kind, _):
    """The text with a piece in the place of a few bytes."""
    at = place(chance, text)
    return text[:at] + chance.choice(PIECES[kind] + COMMON) + text[at + chance.randint(1, 4):]


def byte_changed(chance, text, _kind, _other):
    """The text with any other byte at a place."""
    at = place(chance, text)
    return text[:at] + bytes([chance.randrange(256)]) + text[at + 1:]


def bytes_dropped(chance, text, _kind, _other):
    """The text without some bytes."""
    at = place(chance, text)
    return text[:at] + text[at + chance.choice((1, 1, 1, 2, 3, 10)):]


def bytes_doubled(chance, text, _kind, _other):
    """The text with some bytes twice."""
    at = place(chance, text)
    end = at + chance.choice((1, 1, 2, 5, 20, 100))
    return text[:end] + text[at:]


def number_changed(chance, text, _kind, _other):
    """The text with a number at a limit in the place of one, or with one of its digits twice."""
    found = [*NUMBER.finditer(text)]
    if not found:
        return text
    old = chance.choice(found)
    return text[:old.start()] + chance.choice(NUMBERS + (old[0] + old[0][:1],)) + text[old.end():]


def line_moved(chance, text, _kind, _other):
    """The text with a line at another place, left out, or twice."""
    lines = text.split(b"\n")
    line, at = chance.choice(lines), chance.randint(0, len(lines))
    if chance.random() < 0.7:
        lines.remove(line)
    return b"\n".join(lines[:at] + [line] * chance.randint(0, 1) + lines[at:])


def cut(chance, text, _kind, _other):
    """The first part of the text, or the last."""
    at = place(chance, text)
    return text[:at] if chance.random() < 0.8 else text[at:]


def joined(chance, text, _kind, other):
    """The first part of the text and the last one of the other."""
    return text[:place(chance, text)] + other[place(chance, other):]


ENDS = ((b"\n", b"\r\n"), (b" ", b"  "), (b" ", b"\t"), (b" ", b""), (b"\n", b" \n"), (b"$", b"$\n"), (b"o", b"O"), (b"\n", b"\r"))


def ends_changed(chance, text, _kind, _other):
    """The text with other line ends or blanks, or with letters of the other case."""
    old, new = chance.choice(ENDS)
    return text.replace(old, new) if chance.random() < 0.3 else text.replace(old, new, 1)


WAYS = (piece_put, piece_exchanged, byte_changed, bytes_dropped, bytes_doubled, number_changed, number_changed, line_moved, cut, joined, ends_changed)


class Mutator:
    """Makes one text after another from good ones and a source of chance."""

    def __init__(self, chance):
        self.chance = chance
        self.texts = {
            "rle": good_texts("*.rle", "published/*.rle", "generations/*.rle", "bad/*.rle", "edge/*.rle", "tables/*.rle"),
            "macrocell": good_texts("macrocell/*.mc", "bad/*.mc"),
            "rule": good_texts("tables/*.rule"),
        }

    def good(self, kind):
        """A text that isn't mutated."""
        return claim_text(self.chance) if kind == "claims" else self.chance.choice(self.texts[kind])

    def text(self, kind):
        """A text of this kind, mutated so often, at times not at all, and the one that it was."""
        chance, first = self.chance, self.good(kind)
        text = first
        for _ in range(chance.choice((0, 1, 1, 1, 1, 2, 2, 3, 5))):
            other = self.good(kind if chance.random() < 0.9 else chance.choice(KINDS))
            text = chance.choice(WAYS)(chance, text, kind, other)[:MOST_BYTES]
        return first, text
