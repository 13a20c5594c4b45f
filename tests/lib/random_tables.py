"""Random rule tables, with cells that they say something of."""
from lib import rule_table


class RandomTable:
    """A random table with a name, and random cells that it says something of."""

    def __init__(self, chance, name, neighbourhood, symmetry):
        self.chance = chance
        self.states, self.neighbourhood, self.symmetry = chance.randint(2, 5), neighbourhood, symmetry
        wide, high = (5, 4) if symmetry != "permute" or neighbourhood != "Moore" else (3, 3)
        self.cells = {(x, y): chance.randrange(1, self.states) for x in range(wide) for y in range(high) if chance.random() < 0.6}
        self.sets = {letter: self.some_states() for letter in "abcdef"}
        # mostly each transition is made from a cell and its neighbours
        self.transitions = [self.transition() for _ in range(chance.randint(1, 12))]
        sets = [f"var {letter}={{{','.join(map(str, states))}}}" for letter, states in self.sets.items()]
        head = [f"@RULE {name}", "@TABLE", f"n_states:{self.states}", f"neighborhood:{neighbourhood}", f"symmetries:{symmetry}"]
        self.text = "\n".join([*head, *sets, *self.transitions]) + "\n"

    def some_states(self):
        """Some of the states."""
        return sorted(self.chance.sample(range(self.states), self.chance.randint(1, self.states)))

    def slot(self, cell):
        """A number or a variable that admits the cell."""
        letters = [letter for letter, states in self.sets.items() if cell in states]
        return self.chance.choice(letters) if letters and self.chance.random() < 0.75 else str(cell)

    def transition(self):
        """A transition for one of the cells and its neighbours, in any order."""
        ring = rule_table.RINGS[self.neighbourhood]
        x, y = self.chance.choice([*self.cells, (0, 0)])
        x, y = x + self.chance.randint(-1, 1), y + self.chance.randint(-1, 1)
        around = [self.cells.get((x + dx, y + dy), 0) for dx, dy in ring]
        turn = self.chance.randrange(len(around))
        around = around[turn:] + around[:turn]
        if self.chance.random() < 0.5:
            around.reverse()
        slots = [self.slot(cell) for cell in (self.cells.get((x, y), 0), *around)]
        names = [it for it in slots if it.isalpha()]
        result = self.chance.choice(names) if names and self.chance.random() < 0.7 else str(self.chance.randrange(self.states))
        return ("," if self.chance.random() < 0.5 else "").join([*slots, result])

    def table(self):
        """The table as the naive reader reads it; None where it wakes."""
        try:
            return rule_table.read_table(self.text)
        except rule_table.Fault:
            return None


def random_tables(chance, count):
    """Random tables that don't wake, `count` for each neighbourhood and symmetry; fewer where the naive stepper takes long."""
    for neighbourhood, symmetries in rule_table.SYMMETRIES.items():
        for symmetry in symmetries:
            made = 0
            while made < (count // 3 + 1 if (neighbourhood, symmetry) == ("Moore", "permute") else count):
                it = RandomTable(chance, f"{neighbourhood}-{symmetry}-{made}", neighbourhood, symmetry)
                table = it.table()
                if table:
                    made += 1
                    yield it, table
