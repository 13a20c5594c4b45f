"""What planes settle into under B3/S23, found apart from the program: a plane is run on until its population repeats, the objects that it consists of then are
taken back, generation by generation, and the first generation is that up to which they are the plane and keep apart."""
from collections import Counter
from dataclasses import dataclass

from lib import apgcode

# The longest period of an object that is found, and a multiple of all periods up to it that are usual.
MOST_PERIOD = 60


@dataclass
class Plane:
    """A plane: the column of its westernmost cells, and its rows, each a number whose bits are the cells from that column on. It takes as much room as its
    cells are wide, wherever they are."""

    west: int
    rows: dict

    def cells(self):
        """Its cells."""
        found = set()
        for y, row in self.rows.items():
            while row:
                bit = row & -row
                found.add((self.west + bit.bit_length() - 1, y))
                row ^= bit
        return found

    def count(self):
        """How many cells it has."""
        return sum(bin(row).count("1") for row in self.rows.values())

    def next(self):
        """The plane one generation later."""
        later, columns = {}, 0
        for y in {y + it for y in self.rows for it in (-1, 0, 1)}:
            row = next_row(self.rows.get(y - 1, 0), self.rows.get(y, 0), self.rows.get(y + 1, 0))
            if row:
                later[y] = row
                columns |= row
        empty = max((columns & -columns).bit_length() - 1, 0)
        return Plane(self.west - 1 + empty, {y: row >> empty for y, row in later.items()})


def plane_of(cells):
    """The plane of some cells."""
    west, rows = min((x for x, _ in cells), default=0), {}
    for x, y in cells:
        rows[y] = rows.get(y, 0) | 1 << x - west
    return Plane(west, rows)


def next_row(above, row, below):
    """A row one generation later, whose bits begin one column further west."""
    ones = twos = fours = 0
    for it in (above << 2, above << 1, above, row << 2, row, below << 2, below << 1, below):
        carry = ones & it
        ones ^= it
        fours |= twos & carry
        twos ^= carry
    return twos & ~fours & (ones | row << 1)


def stages_of(cells, most):
    """The planes of some cells, up to a generation long after which the population has repeated."""
    stages = [plane_of(cells)]
    counts = [len(cells)]
    while len(stages) < most:
        stages.append(stages[-1].next())
        counts.append(stages[-1].count())
        if len(counts) % 64 == 0 and len(counts) > 8 * MOST_PERIOD:
            last = counts[-4 * MOST_PERIOD:]
            if last[:-MOST_PERIOD] == last[MOST_PERIOD:]:
                return stages
    return None


def joined(cells, reach):
    """The parts of some cells between which no steps of at most `reach` lead."""
    left, parts = set(cells), []
    while left:
        part, todo = set(), [left.pop()]
        while todo:
            x, y = todo.pop()
            part.add((x, y))
            near = {(x + u, y + v) for u in range(-reach, reach + 1) for v in range(-reach, reach + 1)} & left
            left -= near
            todo += near
        parts.append(part)
    return parts


def phases_of(cells):
    """The planes of a part over its period, and how it is moved then, or None."""
    phases, now = [frozenset(cells)], plane_of(cells)
    left, top = apgcode.box(cells)[:2]
    for _ in range(MOST_PERIOD):
        now = now.next()
        later = now.cells()
        if not later:
            return None
        x, y = apgcode.box(later)[:2]
        if {(u - x, v - y) for u, v in later} == {(u - left, v - top) for u, v in cells}:
            return phases, x - left, y - top
        phases.append(frozenset(later))
    return None


def plane_after(part, n):
    """The cells of a part n generations later, or earlier."""
    phases, dx, dy = part
    turns, phase = divmod(n, len(phases))
    return {(x + turns * dx, y + turns * dy) for x, y in phases[phase]}


def seen_from(cells):
    """The places that windows of three by three cells see which see one of these cells."""
    return {(x + u, y + v) for x, y in cells for u in range(-2, 3) for v in range(-2, 3)}


def are_apart(one, other):
    """Whether no window of three by three cells sees cells of both."""
    return seen_from(one).isdisjoint(other)


def objects_of(cells):
    """The objects of a settled plane: islands that go on as they do alone, or several where they don't."""
    groups = joined(cells, 1)
    whole = [plane_of(cells)]
    for _ in range(MOST_PERIOD):
        whole.append(whole[-1].next())
    whole = [it.cells() for it in whole]
    while True:
        runs = [[it] for it in groups]
        for n in range(1, MOST_PERIOD + 1):
            for it in runs:
                it.append(plane_of(it[-1]).next().cells())
            differ = whole[n] ^ set().union(*(it[n] for it in runs))
            if differ:
                break
        else:
            return [phases_of(it) for it in groups]
        x, y = min(differ)
        near = {(x + u, y + v) for u in (-1, 0, 1) for v in (-1, 0, 1)}
        seen = [index for index, it in enumerate(runs) if it[n - 1] & near]
        if len(seen) < 2:
            return None
        groups = [it for index, it in enumerate(groups) if index not in seen] + [set().union(*(groups[index] for index in seen))]


def are_far(one, other):
    """Whether no window of three by three cells sees places of both boxes."""
    return any(after[axis] - before[axis] - before[axis + 2] > 1 for after, before in ((one, other), (other, one)) for axis in (0, 1))


def clusters_of(objects):
    """The objects by clusters: those that come near one another within a period."""
    near = {index: [index] for index in range(len(objects))}
    boxes = [apgcode.box(set().union(*(plane_after(it, n) for n in range(MOST_PERIOD)))) for it in objects]
    for one in range(len(objects)):
        for other in range(one):
            if near[one] is near[other] or are_far(boxes[one], boxes[other]):
                continue
            if any(not are_apart(plane_after(objects[one], n), plane_after(objects[other], n)) for n in range(MOST_PERIOD)):
                both = near[one] + near[other]
                for index in both:
                    near[index] = both
    return list({id(it): it for it in near.values()}.values())


def part_after(objects, cluster, n):
    """The cells of a cluster n generations later, or earlier."""
    return set().union(*(plane_after(objects[index], n) for index in cluster))


def settling(cells, most=20000):
    """The first generation after which the plane is settled, and its objects, each with its planes over a period from then on and how it is moved, or None
    where this way doesn't tell."""
    stages = stages_of(cells, most)
    if stages is None:
        return None
    end = len(stages) - 1
    objects = objects_of(stages[end].cells())
    if objects is None or None in objects:
        return None
    clusters = clusters_of(objects)
    first = end
    while first > 0:
        parts = [part_after(objects, cluster, first - 1 - end) for cluster in clusters]
        whole = set().union(*parts)
        if whole != stages[first - 1].cells() or sum(map(len, parts)) != len(whole):
            break
        moving = [index for index, cluster in enumerate(clusters) if any(objects[it][1:] != (0, 0) for it in cluster)]
        if any(len(seen_from(parts[it]) & whole) > len(parts[it]) for it in moving):
            break
        first -= 1
    return first, [phases_of(plane_after(it, first - end)) for it in objects]


def kind_of(part):
    """The letter of its code that tells what an object is."""
    return "q" if part[1:] != (0, 0) else "p" if len(part[0]) > 1 else "s"


def code_of(part):
    """The code of an object."""
    return apgcode.code(part[0][0], kind_of(part), len(part[0]))


def settles(cells, most=20000):
    """The first generation after which the plane is settled, the codes of its objects then with their numbers, and how many cells they have, or None where
    this way doesn't tell."""
    found = settling(cells, most)
    if found is None:
        return None
    first, objects = found
    return first, Counter(map(code_of, objects)), sum(len(it[0][0]) for it in objects)


def counted_word(count, word):
    """A number with its word."""
    return f"{count} {word}" if count == 1 else f"{count} {word}s"


def census_text(name, first, counted, cells):
    """What `census` prints of a plane that settles so."""
    lines = [f"# {name}: settles after {counted_word(first, 'generation')}: {counted_word(sum(counted.values()), 'object')}, {counted_word(cells, 'cell')}"]
    lines += [f"{count} {code}" for code, count in sorted(counted.items(), key=lambda it: (-it[1], it[0]))]
    return "".join(it + "\n" for it in lines).encode()
