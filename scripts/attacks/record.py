"""What came of each edit, told line by line, and counted."""
import collections
import enum
import threading


class Outcome(enum.Enum):
    """What came of an edit, as the line of its crate tells it."""

    REFUSED = "refused"
    SHAPE = "refused for their shape"
    PROVED = "proved as they have to be"
    CAUGHT = "caught by tests"
    FAILED = "to be mended"


def printable(text):
    """A text without what a terminal would obey."""
    return "".join(it if it.isprintable() else ascii(it)[1:-1] for it in text)


class Record:
    """The outcomes of the edits, two of one that a test has to catch, and what is to be mended."""

    def __init__(self):
        self.outcomes, self.faults, self.telling = collections.defaultdict(list), [], threading.Lock()

    def say(self, text, is_fault=False):
        """Prints a line, and keeps it where it tells a fault that none told before."""
        with self.telling:
            if is_fault and text in self.faults:
                return
            self.faults += [printable(text)] if is_fault else []
            print(printable(text), flush=True)

    def tell(self, edit, outcome, text):
        """Counts and prints what came of an edit."""
        self.outcomes[edit].append(outcome)
        self.say(f"{edit.label}: {text}", outcome is Outcome.FAILED or outcome is Outcome.SHAPE and not edit.is_shape)

    def give_up(self, edits):
        """Counts edits that can't be tried, which is told already."""
        for it in edits:
            self.outcomes[it].append(Outcome.FAILED)

    def count_of(self, edits):
        """How many of these edits came to what."""
        counts = collections.Counter(outcome for edit in edits for outcome in self.outcomes[edit])
        return ", ".join(f"{counts[it]} {it.value}" for it in Outcome if counts[it]) or "none tried"

    def finish(self):
        """Prints what is to be mended, and gives how many edits are refused or caught as they have to be, and how many not."""
        if self.faults:
            print("what is to be mended:", *self.faults, sep="\n    ")
        failed = sum(Outcome.FAILED in it for it in self.outcomes.values())
        return len(self.outcomes) - failed, failed
