"""The definitions of the repository that lines of a source cite, and the files in which they stand."""
import functools
import os
import re

from scripts.public_items import items_of
from scripts.repository import ROOT

# What a file of definitions passes on from another one.
PASSED_ON = re.compile(r"^pub use Rattle\.(\w+)\.specs\.([\w.]+)\.\{(.*)\}$", re.MULTILINE)


def file_of(crate, modules):
    """The file of definitions with this name."""
    return "/".join(["crates", crate, "specs", *modules]) + ".antt"


@functools.lru_cache(maxsize=None)
def passed_on(file):
    """The words that a file passes on: the file of each, and its name there."""
    with open(os.path.join(ROOT, file), encoding="utf-8") as definitions:
        lines = PASSED_ON.findall(definitions.read())
    words = [(crate, modules.split("."), *it.partition(" as ")[::2]) for crate, modules, names in lines for it in names.split(", ")]
    return {alias or word: (file_of(crate, modules), word) for crate, modules, word, alias in words}


def defined(file, word):
    """The file in which a word of this file is defined, which may be another one, and its name there."""
    return defined(*passed_on(file)[word]) if word in passed_on(file) else (file, word)


@functools.lru_cache(maxsize=None)
def imports(source):
    """The words of the repository's definitions that a source imports: the file of each, and its name there."""
    items = items_of(source)
    parts = [part for it in items if it.kind in ("impl", "trait") for part in it.parts()]
    found = {}
    for (_, crate, folder, *modules, word), name in (pair for it in [*items, *parts] if it.kind == "ghost use" for pair in it.names()):
        if folder == "specs" and modules[0] != "declared" and os.path.exists(os.path.join(ROOT, file_of(crate, modules))):
            found[name] = defined(file_of(crate, modules), word)
    return found


def cited(pieces):
    """The words that pieces of sources cite, each with its file and its lines: the file and the name of each where it is defined."""
    found = {}
    for source, lines in pieces:
        words = re.findall(r"[^\s(){},;.]+", "\n".join(it for it in lines if not it.lstrip().startswith("//")))
        found.update({it: imports(source)[it] for it in words if it in imports(source)})
    return found
