"""Isotropic rules in Hensel's notation and MAP strings, apart from the program: which next state each of the 512 neighbourhoods of a cell has.

A neighbourhood is a number: north-west 256, north 128, north-east 64, west 32, the cell itself 16, east 8, south-west 4, south 2, south-east 1.
"""
import re
from functools import cache

ALPHABET = "ABCDEFGHIJKLMNOPQRSTUVWXYZabcdefghijklmnopqrstuvwxyz0123456789+/"
CENTRE, NEIGHBOURS = 16, 0b111101111

# The letters of each count from 1 to 4, and one neighbourhood of each.
LETTERS = {
    1: dict(zip("ce", (1, 2))),
    2: dict(zip("ceaikn", (5, 10, 3, 40, 33, 68))),
    3: dict(zip("ceaiknjqry", (69, 42, 11, 7, 98, 13, 14, 70, 41, 97))),
    4: dict(zip("ceaiknjqrytwz", (325, 170, 15, 45, 99, 71, 106, 102, 43, 101, 105, 78, 108))),
}


def turned(number):
    """The neighbourhood a quarter turn on."""
    rows = [[number >> (8 - 3 * y - x) & 1 for x in range(3)] for y in range(3)]
    return sum(rows[2 - x][y] << (8 - 3 * y - x) for y in range(3) for x in range(3))


def mirrored(number):
    """The neighbourhood with east and west exchanged."""
    return sum((number >> (8 - 3 * y - x) & 1) << (8 - 3 * y - (2 - x)) for y in range(3) for x in range(3))


def alike(number):
    """A neighbourhood in its eight orientations."""
    found = set()
    for it in (number, mirrored(number)):
        for _ in range(4):
            it = turned(it)
            found.add(it)
    return found


@cache
def kinds():
    """The neighbourhoods of each kind, by its count and its letter (none for 0 and 8)."""
    found = {(0, ""): {0}, (8, ""): {NEIGHBOURS}}
    for count, letters in LETTERS.items():
        for letter, number in letters.items():
            found[count, letter] = alike(number)
            if count < 4:
                found[8 - count, letter] = {NEIGHBOURS ^ it for it in alike(number)}
    return found


def condition(text):
    """The neighbourhoods that a list of digits and letters names, or None where it is none."""
    found, all_kinds = set(), kinds()
    for digit, minus, letters in re.findall(r"([0-8])(-?)([a-z]*)", text):
        own = {letter for count, letter in all_kinds if count == int(digit)}
        if (minus and not letters) or not set(letters) <= own:
            return None
        chosen = own - set(letters) if minus else set(letters) or own
        for letter in chosen:
            found |= all_kinds[int(digit), letter]
    return found


def rule_bits(text):
    """The next states of all 512 neighbourhoods under an isotropic rule or a MAP string, or None where the text is neither."""
    if re.fullmatch(r"MAP[A-Za-z0-9+/]{86}", text):
        bits = "".join(f"{ALPHABET.index(it):06b}" for it in text[3:])
        return [int(it) for it in bits[:512]]
    part = r"((?:[0-8](?:-?[a-z]+)?)*)"
    lowered = text.lower()
    for form, birth_first in ((rf"b{part}/?s{part}", True), (rf"s{part}/?b{part}", False), (rf"{part}/{part}", False)):
        if found := re.fullmatch(form, lowered):
            one, two = map(condition, found.groups())
            if one is None or two is None:
                return None
            birth, survival = (one, two) if birth_first else (two, one)
            return [int(number & NEIGHBOURS in (survival if number & CENTRE else birth)) for number in range(512)]
    return None


def step(live, bits):
    """The live cells one generation later."""
    places = {(x + dx, y + dy) for x, y in live for dx in (-1, 0, 1) for dy in (-1, 0, 1)}
    around = lambda x, y: sum(((x + dx, y + dy) in live) << (4 - 3 * dy - dx) for dy in (-1, 0, 1) for dx in (-1, 0, 1))
    return {(x, y) for x, y in places if bits[around(x, y)]}
