"""Tidy RLE texts of planes of any extent, written as docs/FORMATS.md says, and the cells of usual ones: apart from the program."""
import re


def state_of(tag):
    """The state that a tag of RLE stands for."""
    if tag in "b.":
        return 0
    if tag == "o":
        return 1
    prefix = "pqrstuvwxy".index(tag[0]) + 1 if len(tag) == 2 else 0
    return 24 * prefix + ord(tag[-1]) - ord("A") + 1


def tag_of(state, states):
    """The tag that stands for a state."""
    if states == 2:
        return "bo"[state]
    if state == 0:
        return "."
    prefix, letter = divmod(state - 1, 24)
    return " pqrstuvwxy"[prefix].strip() + chr(ord("A") + letter)


def cells_and_rule(text):
    """The cells of a usual RLE text that aren't 0, by their places, and its rule text. tests/lib/rle_reader.py reads all others."""
    lines = text.splitlines()
    corner = (0, 0)
    for line in lines:
        if position := re.match(r"#CXRLE.*Pos=(-?\d+),(-?\d+)", line):
            corner = (int(position[1]), int(position[2]))
    rest = [line for line in lines if not line.startswith("#")]
    rule = re.search(r"rule\s*=\s*(\S+)", rest[0])
    cells, (x, y) = {}, corner
    for count, tag in re.findall(r"(\d*)([b.o$!]|[p-y]?[A-X])", "".join(rest[1:])):
        count = int(count or 1)
        if tag == "!":
            break
        if tag == "$":
            x, y = corner[0], y + count
            continue
        if state := state_of(tag):
            cells |= {(x + k, y): state for k in range(count)}
        x += count
    return cells, rule[1] if rule else "B3/S23"


def folded(items):
    """The items in lines of at most 70 characters."""
    lines = [""]
    for item in items:
        if len(lines[-1]) + len(item) > 70:
            lines.append("")
        lines[-1] += item
    return "\n".join(lines)


def counted(count, tag):
    """An item."""
    return f"{count if count > 1 else ''}{tag}"


def items_of(tags):
    """The items of tags of one byte each, in which equal ones side by side are counted."""
    return [counted(len(run[0]), run[1]) for run in re.finditer(r"(.)\1*", tags)]


def row_items(row, left, states):
    """The items of a row, given by the sorted places of its live cells and their states, without the dead cells at its end."""
    items, at, runs = [], left, []
    for x, state in row:
        if runs and runs[-1][1:] == [x, state]:
            runs[-1][1] += 1
        else:
            runs.append([x, x + 1, state])
    for begin, end, state in runs:
        if begin > at:
            items.append(counted(begin - at, tag_of(0, states)))
        items.append(counted(end - begin, tag_of(state, states)))
        at = end
    return items


def tidy(cells, rule, generation, states):
    """The tidy text of these cells under a rule of `states` states."""
    rows = {}
    for (x, y), state in cells.items():
        rows.setdefault(y, []).append((x, state))
    left, top = min((x for x, _ in cells), default=0), min(rows, default=0)
    width, height = max((x + 1 for x, _ in cells), default=left) - left, max(rows, default=top - 1) + 1 - top
    items, at = [], top
    for y in sorted(rows):
        items += [counted(y - at, "$")] * (y > at) + row_items(sorted(rows[y]), left, states)
        at = y
    gen = f" Gen={generation}" if generation else ""
    return f"#CXRLE Pos={left},{top}{gen}\nx = {width}, y = {height}, rule = {rule}\n{folded([*items, '!'])}\n".encode("latin-1")
