"""What the checker says of a crate: whether it is proved, and else by which lines."""
import os
import re

# An error of a source, a definition or a proof, with its place; and a goal of a function that isn't proved.
ERROR = re.compile(r"(?:\./)?((?:src|specs|proofs)/[^:]+):(\d+):\d+: error(?:\[[\w-]+\])?: (.*)")
OPEN_GOAL = re.compile(r"note: (?:\./)?(src/[^:]+):(\d+):\d+: (it is not proved that .*)")
# What is said of a function, by its whole name.
VERDICT = re.compile(r"fn (\S+): (.*)")
# An error that tells of the text itself: it has no name, or its text can't be read.
UNREAD = re.compile(r"is not in scope|has no field|is no name|operand is missing|expected the end|cannot continue")
# An error of a proof that only tells that its script doesn't fit the function any more.
MISFIT = re.compile(r"has no field|is not in scope|has no `|can be named from here|was not admitted|not determined|which was rejected|unused")

# Where such an error is broken into two lines.
BROKEN = re.compile(r"\n +(?=has no (?:field|`))")


class Said:
    """What a check said."""

    def __init__(self, status, text):
        self.lines = BROKEN.sub(" ", text.rstrip("\n")).split("\n")
        self.is_proved = status == 0
        self.is_judged = self.is_proved or any(line.startswith("logic=not-proved") for line in self.lines)
        self.errors = [it for it in map(ERROR.match, self.lines) if it]
        self.goals = [it for it in map(OPEN_GOAL.match, self.lines) if it]
        self.verdicts = [it for it in map(VERDICT.match, self.lines) if it]

    def unread(self, changed):
        """The lines that say that a text can't be read: an error of a source, a definition or a changed file that names no goal."""
        return [it for it in self.errors if (it[1] in changed or not it[1].startswith("proofs/")) and is_unread(it[3])]

    def why(self):
        """The line that tells best why a crate isn't proved, or the last ones."""
        refusal = self.refusal()
        return refusal[1] if refusal else " ".join(self.lines[-4:])[:300]

    def refusal(self):
        """Whether a goal is open, and not only a script misfitting, and the line that tells it."""
        return told(self.goals, [it for it in self.errors if it[1].startswith("proofs/")], self.verdicts)

    def refusal_of(self, crate, functions):
        """The same of these functions alone, by their own goals, proofs and lines; nothing where they don't fail by themselves."""
        goals = [it for it in self.goals if is_in(functions, it[1], int(it[2]))]
        errors = [error for error in self.errors if any(it.has(proved_by(crate, error[1])) for it in functions.values())]
        verdicts = [line for line in self.verdicts if any(it.has(line[1]) for it in functions.values())]
        return told(goals, errors, verdicts)


def is_in(functions, file, line):
    """Whether a line stands in one of these functions."""
    return any(file == at and it.head - 1 <= line <= it.last for (at, _), it in functions.items())


def is_unread(text):
    """Whether an error of a text tells that it can't be read, and not that a goal isn't proved."""
    named = re.match(r"`[^`]*`: (.*)", text)
    return not named or bool(UNREAD.search(re.sub(r"`[^`]*`", "", named[1])))


def proved_by(crate, file):
    """The whole name of the function whose proof this file is."""
    return "::".join([crate, *os.path.dirname(file).split("/")[1:]])


def told(goals, errors, verdicts):
    """Whether a refusal is one by a goal, and the line that tells it best."""
    goals = sorted(goals, key=lambda it: "goal is false" not in it[3])
    searched = [it for it in verdicts if "did not prove" in it[2]]
    meant = [it for it in errors if not MISFIT.search(it[3])]
    for is_meant, lines in ((True, goals), (True, meant), (True, searched), (False, errors)):
        if lines:
            return is_meant, re.sub(r"^(?:note: )?(?:\./)?", "", lines[0][0])[:160]
    return None
