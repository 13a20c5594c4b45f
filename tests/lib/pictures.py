"""Pictures of windows of the plane, drawn square by square as docs/COMMANDS.md says: naive, apart from the program, and what tests expect of it."""
from dataclasses import dataclass

MOST_SIDE, MOST_SCALE = 8192, 124
USUAL = {"text": (80, 40), "pgm": (1024, 1024)}


@dataclass(frozen=True)
class Window:
    """Squares of 2^scale by 2^scale cells: the first column and row, and how many there are of each."""

    scale: int
    column: int
    row: int
    width: int
    height: int


def fitting(box, size, scale=None):
    """The window round a whole box, at a scale or the smallest at which it has at most this size; None where there is none."""
    x0, y0, wide, high = box
    for it in range(MOST_SCALE + 1) if scale is None else (scale,):
        column, row = x0 >> it, y0 >> it
        width, height = (x0 + wide - 1 >> it) - column + 1, (y0 + high - 1 >> it) - row + 1
        if width <= size[0] and height <= size[1]:
            return Window(it, column, row, width, height)
    return None


def box_of(cells):
    """The corner, width and height of the smallest box round some cells, if there are any."""
    if not cells:
        return None
    (x0, x1), (y0, y1) = ((min(it), max(it)) for it in zip(*cells))
    return x0, y0, x1 - x0 + 1, y1 - y0 + 1


def squares_of(tree, window):
    """The window's squares that have live cells, by their columns and rows, with the state of one of these cells."""
    found, half = {}, 1 << (tree.level - 1)
    waiting = [(it, tree.level - 1, at % 2 * half - half, at // 2 * half - half) for at, it in enumerate(tree.squares.parts[tree.root] if tree.root else ())]
    while waiting:
        square, level, x, y = waiting.pop()
        last = (1 << level) - 1
        if not square or x + last >> window.scale < window.column or y + last >> window.scale < window.row:
            continue
        if x >> window.scale >= window.column + window.width or y >> window.scale >= window.row + window.height:
            continue
        if level <= window.scale:
            found[x >> window.scale, y >> window.scale] = square
        else:
            side = 1 << (level - 1)
            waiting += [(it, level - 1, x + at % 2 * side, y + at // 2 * side) for at, it in enumerate(tree.squares.parts[square])]
    return found


def cells_squares(cells, window):
    """The same of cells by their places."""
    return {(x >> window.scale, y >> window.scale): state for (x, y), state in cells.items()}


def character(state, told):
    """The character of a square, whose state is shown where `told`."""
    if state == 0:
        return "."
    if not told:
        return "o"
    return chr(ord("A") + state - 1) if state <= 24 else chr(ord("a") + state - 25) if state <= 48 else "*"


def grey(state, told, states):
    """The same of an image."""
    if state == 0:
        return 255
    return min(255 * (state - 1) // (states - 1), 254) if told else 0


def picture(squares, window, states, to="text", zoom=None):
    """The picture of a window whose squares with live cells are these. A zoom is one of an image."""
    told = window.scale == 0 and states > 2
    lines = [[squares.get((window.column + x, window.row + y), 0) for x in range(window.width)] for y in range(window.height)]
    if to == "text":
        return "".join("".join(character(it, told) for it in line) + "\n" for line in lines).encode()
    greys, times = [[grey(it, told, states) for it in line] for line in lines], zoom or 1
    pixels = b"".join(bytes(it for it in line for _ in range(times)) * times for line in greys)
    return f"P5\n{window.width * times} {window.height * times}\n255\n".encode() + pixels


def wanted_window(box, at=None, size=None, scale=None, to="text", zoom=None):
    """The window that these words ask for, of a plane with this box, or None where it is empty."""
    if zoom is not None:
        scale = 0
    usual = USUAL[to] if at or scale is None else (MOST_SIDE, MOST_SIDE)
    width, height = (it // (zoom or 1) for it in size or usual)
    if at:
        return Window(scale or 0, at[0] >> (scale or 0), at[1] >> (scale or 0), width, height)
    return fitting(box or (0, 0, 1, 1), (width, height), scale)


def drawn(cells, states):
    """What `draw` prints of these cells, of a rule of `states` states."""
    window = wanted_window(box_of(cells))
    return picture(cells_squares(cells, window), window, states)
