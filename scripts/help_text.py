"""The help of the program, as `clap` prints it, taken apart: man page and completions are made of it, and so know each word that the program knows."""
import os
import re
import subprocess
from dataclasses import dataclass

# A line of each list of help, after its two blanks at least.
LINES = {
    "Commands": re.compile(r" +(?P<names>[a-z]+) {2,}(?P<about>\S.*)"),
    "Arguments": re.compile(r" +<(?P<value>[A-Z]+)>(?P<many>\.\.\.)? {2,}(?P<about>\S.*)"),
    "Options": re.compile(r" +(?P<names>(?:-[A-Za-z], )?--[a-z][a-z-]*)(?: <(?P<value>[A-Z,]+)>)? {2,}(?P<about>\S.*)"),
}

CHOICES = re.compile(r" \[possible values: ([^\]]*)\]$")

# A command whose words are names of commands, and which has no help of its own.
HELP = "help"


class Misread(Exception):
    """Help that isn't as this module knows it."""


@dataclass(frozen=True)
class Entry:
    """A command, argument or option of a list: its names as they are typed, the name of its value, what is said of it, and the only values that it may have."""

    names: tuple
    value: str
    is_many: bool
    about: str
    choices: tuple


@dataclass(frozen=True)
class Help:
    """The help of the program, or of one of its commands."""

    usage: str
    about: str
    commands: tuple
    arguments: tuple
    options: tuple
    paragraphs: tuple
    status: str
    examples: tuple

    def name(self):
        """The command's name, as in the list of commands."""
        return self.usage.split()[1]


def entry_of(title, line):
    """What a line of a list says."""
    found = LINES[title].fullmatch(line)
    if not found:
        raise Misread(f"a line of the help isn't understood: {line!r}")
    said = {"names": "", "value": "", "many": "", **found.groupdict("")}
    choices = CHOICES.search(said["about"])
    names = tuple(said["names"].split(", ")) if said["names"] else ()
    return Entry(names, said["value"], bool(said["many"]), CHOICES.sub("", said["about"]), tuple(choices[1].split(", ")) if choices else ())


def take_lists(blocks):
    """The lists at the beginning of these blocks of lines, by their titles. They are taken away."""
    lists = {title: () for title in LINES}
    while blocks and blocks[0].partition(":\n")[0] in LINES:
        title, _, lines = blocks.pop(0).partition(":\n")
        lists[title] = tuple(entry_of(title, it) for it in lines.split("\n"))
    return lists


def split_status(paragraph):
    """A paragraph without what it says of the exit status, and that."""
    before, word, after = paragraph.partition("The status is ")
    return before.rstrip(), word + after


def read_help(said):
    """The help that this text is."""
    found = re.fullmatch(r"(.*?)\n\nUsage: ([^\n]*)\n\n(.*)", said.rstrip("\n"), re.DOTALL)
    if not found:
        raise Misread(f"help that isn't understood begins with {said[:80]!r}")
    about, usage, rest = found.groups()
    blocks = rest.split("\n\n")
    lists = take_lists(blocks)
    examples = [it for it in blocks if it.startswith("Examples:\n")]
    split = [split_status(it) for it in blocks if it not in examples]
    return Help(
        usage, about, lists["Commands"], lists["Arguments"], lists["Options"],
        tuple(paragraph for paragraph, _ in split if paragraph), "".join(status for _, status in split),
        tuple(line.strip() for it in examples for line in it.split("\n")[1:]))


def ask(program, *words):
    """What the program prints."""
    ran = subprocess.run([program, *words], stdin=subprocess.DEVNULL, stdout=subprocess.PIPE, stderr=subprocess.STDOUT, check=False)
    if ran.returncode != 0:
        raise Misread(f"{' '.join([os.path.basename(program), *words])} ends with status {ran.returncode}")
    return ran.stdout.decode("utf-8", "replace")


def read_program(program):
    """The help of a program, and that of each of its commands."""
    whole = read_help(ask(program, "--help"))
    return whole, [read_help(ask(program, *it.names, "--help")) for it in whole.commands if it.names != (HELP,)]
