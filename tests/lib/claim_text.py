"""Claim texts that are made line by line, with their files, and what runs over them have to tell, explained and not."""
import tempfile
from dataclasses import dataclass, field

from lib import remedies
from lib.program import Folder, Outcome, run


@dataclass(frozen=True)
class Answer:
    """What a run tells of a claim: the number of its line, its verdict, and the note of an explained run, if there is one."""

    line: int
    verdict: str
    note: bytes = b""

    def status(self):
        """The exit status of a run with this answer alone."""
        return {"yes": 0, "no": 1}.get(self.verdict.split(",")[0], 2)

    def text(self, explained, before=b""):
        """The line that is printed, and those of the note and of what helps."""
        line = before + f"line {self.line}: {self.verdict}\n".encode()
        if explained and self.note:
            line += before + b"  " + self.note + b"\n" + remedies.line_of(self.verdict, self.note, before)
        return line


def printed(answers, explained, before=b""):
    """What a run prints of a claim text, each line after `before`."""
    return b"".join(it.text(explained, before) for it in answers)


def status_of(answers):
    """The exit status of a run over these answers."""
    return max((it.status() for it in answers), default=0)


def outcome(answers, explained, before=b""):
    """What a run over a claim text without a fault comes to."""
    return Outcome(printed(answers, explained, before), b"", status_of(answers))


def encoded(text):
    """A text as bytes."""
    return text if isinstance(text, bytes) else text.encode()


@dataclass
class ClaimText:
    """The lines of a claim text, whose files are written into a folder, and the answers to its claims."""

    files: Folder
    lines: list = field(default_factory=list)
    answers: list = field(default_factory=list)

    def load(self, name, content):
        """Loads a pattern of this text, in a file of its own, and gives the file's path."""
        path = self.files.path(f"{len(self.lines)}.pattern", content).encode()
        return self.load_path(name, path)

    def load_path(self, name, path):
        """Loads the pattern at a path, and gives that."""
        self.lines.append(b"load %s %s" % (encoded(name), encoded(path)))
        return encoded(path)

    def rule(self, content):
        """Names a rule file of this text, and gives its path."""
        return self.rule_path(self.files.path(f"{len(self.lines)}.rule", content))

    def rule_path(self, path):
        """Names the rule file at a path, and gives that."""
        self.lines.append(b"rule %s" % encoded(path))
        return encoded(path)

    def claim(self, text, verdict, note=b""):
        """Claims this, which has to come to that verdict, and, where it is explained, that note."""
        self.lines.append(encoded(text))
        self.answers.append(Answer(len(self.lines), verdict, encoded(note)))

    def write(self, name="text.claims"):
        """Writes the claim text, and gives its path."""
        return self.files.path(name, b"\n".join([*self.lines, b""]))


class ClaimTexts:
    """Claim texts in a folder of their own, tried with notes and without."""

    def __init__(self, tally, folder):
        self.tally, self.files = tally, Folder(folder)

    def text(self):
        """A new claim text, whose files stand in a folder of their own."""
        return ClaimText(Folder(tempfile.mkdtemp(dir=self.files.folder)))

    def judge(self, name, text):
        """Runs the program over the text in both ways, and compares what it prints."""
        path, complaints = text.write(), []
        for words in (["verify", path], ["verify", "--explain", path], ["verify", path, "--explain"]):
            got, wanted = run(words), outcome(text.answers, "--explain" in words)
            if got != wanted:
                lines = zip(got.printed.split(b"\n"), wanted.printed.split(b"\n"))
                first = next((f"{at + 1}: wanted {right}, got {left}" for at, (left, right) in enumerate(lines) if left != right), "none in another")
                complaints.append(f"{' '.join(words)}: wanted status {wanted.status}, got {got.status} and {got.complaint}; first other line {first}")
        self.tally.tell(f"{name}: {len(text.answers)} claims", complaints)


def differs(generations):
    """The verdict of a claim that fails at some cell."""
    return f"no, cells differ after {generations}"
