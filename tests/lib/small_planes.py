"""Small planes beside naive steps, and claims about them: random ones, and patterns that come back."""
from lib import rle, steps
from lib.claim_text import ClaimText, outcome
from lib.macrocell import EDGE
from lib.program import run

# The longest period, and the most cells of a plane that is stepped here.
LONGEST, MOST = (1 << 32) - 1, 3000

# Small patterns that come back, each with its rule, found by a search of random ones: oscillators of the periods 2 to 26, and spaceships.
RETURNING = (
    ("B3/S23", "3o!"), ("B2/S0568", "2bo$b3o$2ob2o$b3o$2bo!"), ("B2/S14H", "obo2$o3bo2$2bobo!"), ("B23/S124V", "b2o$4o$4o$b2o!"),
    ("B2/S5H", "o$o$b2o!"), ("B235/S3H", "bo$2o$3bo$2bo!"), ("B24/S13V", "o$3o$2bo!"), ("B2568/S2345", "3o2$bo!"), ("B2/S134V", "3o$4o$b3o!"),
    ("B2/S48", "obo2$obo!"), ("B267/S47", "3bo$bobobo$2b3o$3ob3o$2b3o$bobobo$3bo!"), ("B2/S234V", "b3o$4o$b3o$b3o!"), ("B34/S37", "2bo$2o$2bo!"),
    ("B35/S125H", "b2o$obo$3o!"), ("B356/S0124H", "o$3o$o!"), ("B2456/S03567", "obo$bo$obo!"), ("B234/S12V", "2o$3o$2bo$obo!"), ("B2578/S37", "obo2$obo!"),
    ("B23/S4H", "o2bo$b2o$bo!"), ("B234/S36H", "obo$bob2o$b2obo$3bobo!"), ("B3/S13", "b2o$3o$o2bo$bo!"), ("B28/S5", "2bo$2bo$2ob2o$2bo$2bo!"),
    ("B24/S024V", "bo$obo$o$obo!"), ("B2/S02V", "ob2o$2b2o$obo!"), ("B24/S12V", "3o$3o$obo$3o!"), ("B37/S235", "3o$bo$bo!"), ("B3/S34", "2o$3o!"),
    ("B23/S356H", "o$b2o$obo$4bo$bobo$3b2o$3bo!"), ("B47/S012356", "bobo$b2o$3o!"), ("B23/S134V", "bo$b2o$obo$b2o!"), ("B23/S012V", "o2bo$2obo$3bo$o2bo!"),
    ("B2/S38", "bo$o$o$bo!"), ("B258/S356", "o2bo2$b2o!"), ("B28/S57", "b2o$o2bo!"), ("B27/S0578", "o$bo$bo$o!"), ("B34568/S0368", "b3o$o2bo$b3o!"),
    ("B38/S23567", "2o$obo$o!"), ("B36/S2358", "obo$b2o$bo!"), ("B3568/S236", "2bo$bo$o2bo$bo$2bo!"), ("B347/S12", "2o$b2o$b2o$bo!"),
)

# The same under Generations rules, and still lifes.
AGEING_RETURNING = (
    ("/2/3", "2A$2B!"), ("/2/3", "2.A$A2B$.2BA$.A!"), ("/2/3", "2.2A$.A2B$AB$B.A$.AB!"), ("/2/3", "BA$2.B$.ABA!"), ("/2/3", "2.2A$2.2B$.A$ABA$B.BA$3.B$.BA!"),
    ("/2/3", ".2A$.2BA$3.BA$2.A.BA$.ABA.B$.B$A$BA$.B$2.A$3.B!"), ("23/3/8", "2A$2A!"), ("23/3/8", "2.2A$3.A$A$2A!"),
    ("23/3/8", ".D$EFCB$.2FCA$3.2CA$.AFCA$.3A$2.A!"),
    ("345/2/4", ".A$3A$.A!"), ("345/2/4", "2A$2B$2C!"), ("345/2/4", "2A$2B$2CA$2.B$.ACA$.B.B$.C.C$2.B!"), ("345/2/4", "C.A$B3A$A.A!"),
    ("345/2/4", "2.C$A.A.A$B3AB$C.2A$3.BA!"), ("345/2/4", "CA.C$B.B6.C$AC.A5.B$.B.B4.CA$.AC.C3.B$2.B.B2.CA$2.ACA2.B$3.B2.CA$3.A2CB$4.2BA$4.2A!"),
    ("0/2/5", "A!"), ("0/2/5", "A3.A5$A2$4.A$.A2$3.A!"), ("0/2/5", ".A$C.C$ACA$.A!"), ("08/23/5", "D$BD.C$ABCA$2.A!"), ("12/34/3", "A2.A$A2.A$.2A!"),
    ("12/34/3", "A.B$A$.2A!"), ("23/3/2", "2o$2o!"), ("23/3/2", "bo$2bo$3o!"), ("23/3/2", "2bo4bo$2ob4ob2o$2bo4bo!"), ("34/23/3", ".A$BAB$3.A$2.B!"),
    ("345/24/25", "XWVUTSRQPONMLKJIHGFEDCBA$XWVUTSRQPONMLKJIHGFEDCBA!"), ("345/24/25", "2.XW$.2AX$3A$.A!"), ("3456/2/6", "E.A$D3A$C.3A$.B.A$2.A!"),
    ("3456/2/6", "DB$E2AD$3AB$.C!"), ("3458/37/4", ".C$B2A$3A!"), ("345/3/6", "2.E$E.CD$CDAB$ABA$3A$.A!"),
)

# How far a pattern goes in the steps made here.
ROOM = 400

CORNERS = (0, -1, 1, -4, 7, -8, 1000, -1000003, 1 << 30, (1 << 40) - 5, -(1 << 59), -EDGE + ROOM, EDGE - ROOM)


def random_rule(chance):
    """A random B/S rule over one of the neighbourhoods."""
    suffix, most = chance.choice((("", 8), ("", 8), ("V", 4), ("H", 6)))
    birth = [str(it) for it in range(1, most + 1) if chance.random() < 0.35 and it > chance.choice((0, 1, 1))]
    survival = [str(it) for it in range(most + 1) if chance.random() < 0.4]
    return steps.Counting(f"B{''.join(birth)}/S{''.join(survival)}{suffix}")


def random_cells(chance, wide, high, states):
    """Random cells, some of them live."""
    share = chance.choice((0.2, 0.4, 0.6))
    return {(x, y): chance.randrange(1, states) for x in range(wide) for y in range(high) if chance.random() < share}


def moved(cells, vector):
    """The cells, moved."""
    return {(x + vector[0], y + vector[1]): state for (x, y), state in cells.items()}


def corner(cells):
    """The upper left corner of the smallest box round the cells."""
    return min(x for x, _ in cells), min(y for _, y in cells)


def one_changed(chance, cells, states):
    """The cells with one that is another, near the others or among them."""
    place = chance.choice([*cells, *((x + 1, y - 1) for x, y in cells), (0, 0)])
    other = {**cells, place: (cells.get(place, 0) + chance.randrange(1, states)) % states}
    return {at: state for at, state in other.items() if state}


class Text(ClaimText):
    """A claim text about planes that are given by their cells."""

    def plane(self, name, cells, rule):
        """Loads these cells."""
        self.load(name, rle.tidy(cells, rule.name, 0, rule.states))

    def becomes(self, chance, cells, rule, count, later):
        """Claims that the cells become these, and that they become others."""
        number = len(self.lines)
        for name, it in ((f"a{number}", cells), (f"b{number}", later), (f"c{number}", one_changed(chance, later, rule.states))):
            self.plane(name, it, rule)
        self.claim(f"becomes a{number} {count} b{number}", "yes")
        self.claim(f"becomes a{number} {count} c{number}", f"no, cells differ after {count}")


def judge(tally, name, text):
    """Expects the verdicts of a text, and tells the claims whose verdicts are others."""
    came, wanted = run(["verify", text.write()]), outcome(text.answers, False)
    complaints = []
    if came != wanted:
        lines = came.printed.decode().splitlines()
        complaints = [f"{text.lines[it.line - 1].decode()}: wanted {it.verdict}, got {lines[at] if at < len(lines) else came}"
                      for at, it in enumerate(text.answers) if at >= len(lines) or lines[at] != f"line {it.line}: {it.verdict}"]
    tally.tell(f"{name}: {len(text.answers)} claims", complaints or ([] if came == wanted else [str(came)]))


def stepped(cells, rule, count):
    """The cells after `count` generations, and that number; or after fewer, where they become many."""
    for done in range(count):
        if len(cells) > MOST:
            return cells, done
        cells = steps.step(cells, rule)
    return cells, count


class Returning:
    """A pattern that comes back after its least period, moved by a vector."""

    def __init__(self, rule, planes, vector):
        self.rule, self.planes, self.vector, self.period = rule, planes, vector, len(planes)

    def after(self, count):
        """The cells after any number of generations."""
        times, rest = divmod(count, self.period)
        return moved(self.planes[rest], (times * self.vector[0], times * self.vector[1]))

    def spaceship(self, period, vector):
        """The verdict on the claim of a spaceship."""
        if self.after(period) != moved(self.planes[0], vector):
            return f"no, cells differ after {period}"
        if period == self.period:
            return "yes"
        return f"no, the same after {self.period}, shifted by {self.vector[0]},{self.vector[1]}"

    def oscillator(self, period):
        """The verdict on the claim of an oscillator."""
        if self.after(period) != self.planes[0]:
            return f"no, cells differ after {period}"
        return "yes" if period == self.period else f"no, the same after {self.period}, shifted by 0,0"

    def still(self):
        """The verdict on the claim of a still life."""
        return "yes" if self.after(1) == self.planes[0] else "no, cells differ after 1"


def returning(name, body):
    """A pattern that comes back, with its generations until then."""
    rule = steps.rule_of(name)
    cells, _ = rle.cells_and_rule(f"x = 1, y = 1, rule = {name}\n{body}\n")
    left, top = corner(cells)
    shape, planes = moved(cells, (-left, -top)), [cells]
    while True:
        now = steps.step(planes[-1], rule)
        x, y = corner(now)
        if moved(now, (-x, -y)) == shape:
            return Returning(rule, planes, (x - left, y - top))
        planes.append(now)


def claim_returns(chance, text, it):
    """Claims about a pattern that comes back, with numbers of all sizes."""
    number = len(text.lines)
    at = chance.choice(CORNERS[:-2]), chance.choice(CORNERS[:-2])
    text.plane(f"a{number}", moved(it.planes[0], at), it.rule)
    text.claim(f"still a{number}", it.still())
    times = [1, 2, 3, 6, chance.randint(1, 200), LONGEST // it.period, chance.randint(1, LONGEST // it.period)]
    for period in [it.period * count + extra for count in times for extra in (0, chance.choice((-1, 1)))]:
        if 2 <= period <= LONGEST:
            text.claim(f"oscillator a{number} {period}", it.oscillator(period))
        there = it.vector[0] * (period // it.period), it.vector[1] * (period // it.period)
        beside = there[0] + chance.randint(-1, 1), there[1] + chance.randint(-1, 1)
        for vector in dict.fromkeys((there, beside)):
            if 1 <= period <= LONGEST and vector != (0, 0) and max(map(abs, vector)) <= EDGE:
                text.claim(f"spaceship a{number} {period} {vector[0]} {vector[1]}", it.spaceship(period, vector))
    for count in (chance.randrange(1 << chance.randint(1, 60)) for _ in range(4)):
        later = moved(it.after(count), at)
        if all(-EDGE <= part < EDGE for place in later for part in place):
            text.becomes(chance, moved(it.planes[0], at), it.rule, count, later)
