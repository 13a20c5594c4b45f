"""A table of texts and what claims about them come to, judged in one run."""
import itertools
import os
import tempfile

from lib.program import Outcome, lines_outcome, run


class ClaimTable:
    """Claims about files that are written for them, judged in one run."""

    def __init__(self, folder):
        self.folder = tempfile.mkdtemp(dir=folder)
        self.names = {}
        self.claims = []

    def name(self, text):
        """The name of a file of this text, which is written where there is none."""
        content = text if isinstance(text, bytes) else text.encode()
        if content not in self.names:
            self.names[content] = f"p{len(self.names)}"
            with open(self.path(self.names[content]), "wb") as file:
                file.write(content)
        return self.names[content]

    def path(self, name):
        """The path of the file with this name."""
        return os.path.join(self.folder, name)

    def still(self, text, verdict):
        """Claims that the text's pattern is a still life, which has to come to this verdict."""
        self.claims.append((f"still {self.name(text)}", verdict, text))

    def becomes(self, text, generations, other, verdict="yes"):
        """Claims that the text's pattern becomes the other's."""
        self.claims.append((f"becomes {self.name(text)} {generations} {self.name(other)}", verdict, (text, other)))

    def judge(self, tally, what):
        """Runs the program, and compares the lines that it prints."""
        loads = [f"load {name} {self.path(name)}" for name in self.names.values()]
        text = self.path("text.claims")
        with open(text, "w", encoding="ascii") as file:
            file.write("\n".join([*loads, *(claim for claim, _, _ in self.claims)]) + "\n")
        outcome = run(["verify", text])
        wanted = lines_outcome([(len(loads) + 1 + at, verdict) for at, (_, verdict, _) in enumerate(self.claims)])
        pairs = itertools.zip_longest(outcome.printed.split(b"\n"), wanted.printed.split(b"\n"), self.claims)
        complaints = [f"wanted {right}, got {left}, of {asked}" for left, right, asked in pairs if left != right]
        if (outcome.complaint, outcome.status) != (wanted.complaint, wanted.status):
            complaints.append(str(Outcome(b"", outcome.complaint, outcome.status)))
        tally.tell(f"{what}: {len(self.claims)}", complaints)
