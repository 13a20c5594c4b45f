"""The edits that are tried: what each changes, and what has to catch it."""
import os

from scripts.attacks.functions import functions_of


# The folder of attacks/ whose edits change commands at the root, and no crate.
COMMANDS = "commands"


class BadEdit(Exception):
    """An edit that tries nothing."""


def read(path):
    """The text of a file."""
    try:
        with open(path, encoding="utf-8") as file:
            return file.read()
    except OSError as error:
        raise BadEdit(f"{os.path.basename(path)}: {error.strerror}") from error


def write(path, text):
    """Writes the text of a file."""
    with open(path, "w", encoding="utf-8") as file:
        file.write(text)


class Edit:
    """An edit of one crate, or of commands: what it changes, and what has to catch it."""

    def __init__(self, crate, path):
        self.crate, self.name, self.test, self.is_shape, self.changes = crate, os.path.basename(path)[: -len(".edit")], None, False, []
        self.label = f"{crate}/{'must-fail/' if 'must-fail' in path else ''}{self.name}.edit"
        file = old = None
        for line in read(path).split("\n"):
            kind, _, text = line.partition(": ") if ": " in line else line.partition(":")
            if kind == "caught by":
                self.test = text
            elif kind == "shape":
                self.is_shape = True
            elif kind == "file":
                file = text
            elif kind == "old":
                old = text
            elif kind == "new":
                self.changes.append((file, old, text))

    def folder_in(self, root):
        """The folder of what is edited in a copy of the repository."""
        return root if self.crate == COMMANDS else os.path.join(root, "crates", self.crate)

    def over(self, folder, texts):
        """The texts with this edit made over them, by path, and the functions whose bodies it changes, by the places of their heads: none where it
        changes anything else."""
        texts, functions, is_body = dict(texts), {}, True
        if all(old == new for _, old, new in self.changes):
            raise BadEdit("it changes nothing")
        for file, old, new in self.changes:
            if not file or not old:
                raise BadEdit("a 'new:' line stands before a 'file:' or an 'old:' line")
            text = texts[file] if file in texts else read(os.path.join(folder, file))
            if text.count(old) != 1:
                raise BadEdit(f"an 'old:' text stands in {file} {text.count(old)} times, and not once: {old.strip()}")
            function = self.function_at(folder, file, text[: text.index(old)].count("\n") + 1)
            if function:
                functions[file, function.head] = function
            is_body = is_body and function is not None
            texts[file] = text.replace(old, new)
        return texts, functions if is_body else {}

    def function_at(self, folder, file, line):
        """The function of a source in whose body the line stands. An edit changes no line into several, so the unedited text tells it."""
        if not file.startswith("src/"):
            return None
        functions = functions_of(self.crate, file, read(os.path.join(folder, file)))
        return next((it for it in functions if it.head < line and it.first <= line <= it.last), None)


def edits_of(root, crate):
    """The edits of a crate, or of the commands: those of the gate, and then the others, by name."""
    folders = [os.path.join(root, "crates", crate, "must-fail"), os.path.join(root, "attacks", crate)]
    paths = [os.path.join(folder, name) for folder in folders if os.path.isdir(folder) for name in sorted(os.listdir(folder))]
    return [Edit(crate, path) for path in paths if path.endswith(".edit")]


def asked_edits(root, crates, words):
    """The edits of these crates and of the commands that the words name, by crate, and the words that name none."""
    found = {crate: edits_of(root, crate) for crate in [*crates, COMMANDS]}
    names = {crate: {crate, *(f"{crate}/{it.name}" for it in edits)} for crate, edits in found.items() if edits}
    asked = {crate: [it for it in found[crate] if not words or {crate, f"{crate}/{it.name}"} & {*words}] for crate in names}
    return {crate: edits for crate, edits in asked.items() if edits}, [it for it in words if it not in set().union(*names.values())]
