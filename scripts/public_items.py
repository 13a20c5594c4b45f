"""The public items of a crate, as its sources have them: what callers reach by `pub use` and `pub mod` of lib.rt. Sources are laid out by `rt fmt`."""
import functools
import os
import re
from dataclasses import dataclass

from scripts.repository import ROOT, crates_below, read_lines

CRATES = read_lines()

# The first line of an item or of a member of one, and of a field.
HEAD = re.compile(
    r"(?P<public>pub )?(?:pub\([a-z]+\) )?(?:const (?=fn ))?"
    r"(?P<kind>fn|struct|enum|trait|const|type|mod|use|impl|ghost use|ghost|macro_rules!)(?!\w) ?(?P<name>\w*)")
FIELD = re.compile(r"(?P<public>pub )?(?:pub\([a-z]+\) )?(?P<kind>ghost )?(?P<name>\w+):")

# A line at the margin that opens a body, and one that ends with an empty one.
OPENS, IS_EMPTY = re.compile(r"(?:\S.* )?\{$"), re.compile(r"(?:\S.* )?\{\}$")

# A `use`: the path before the names, and the names. An `impl`: its trait, and its type.
USE = re.compile(r"(?:pub |ghost )?use (.*?)(?:::|\.)?(?:\{(.*)\}|(\w+(?: as \w+)?));", re.DOTALL)
IMPL = re.compile(r"impl(?:<(?:[^<>]|<[^<>]*>)*>)? (?:(?P<trait>.*) for )?(?P<owner>.*)")


@dataclass(frozen=True)
class Item:
    """An item of a source, or a member of one: the comments and attributes before it, and its own lines, all of them as at the margin."""

    file: str
    kind: str
    name: str
    is_public: bool
    before: tuple
    lines: tuple

    def crate(self):
        """The crate in whose sources it stands."""
        return self.file.split("/")[1]

    def opening(self):
        """The place of the line that opens its body, or is an empty one."""
        return next((at for at, line in enumerate(self.lines) if OPENS.match(line) or IS_EMPTY.match(line)), len(self.lines))

    def head(self):
        """Its lines up to its body: of a function, its signature and its clauses."""
        last = [re.sub(r" ?\{\}?$", "", it) for it in self.lines[self.opening():][:1]]
        return [*self.lines[:self.opening()], *filter(None, last)]

    def parts(self, first_line=HEAD):
        """What its body holds: the members of a trait or an `impl`, or the fields of a struct."""
        return [*split(self.file, [re.sub("^ {4}", "", it) for it in self.lines[self.opening() + 1:-1]], first_line)]

    def names(self):
        """What a `use` names: the path of each thing, and its name here."""
        path, several, one = USE.fullmatch(" ".join(self.lines)).groups()
        pairs = [it.strip().partition(" as ") for it in (several or one).split(",") if it.strip()]
        return [(re.split(r"::|\.", f"{path}.{whole}"), alias or re.split(r"::|\.", whole)[-1]) for whole, _, alias in pairs]

    def owner(self):
        """The trait of an `impl`, or nothing, and its type, by their names."""
        found = IMPL.match(" ".join(self.head()))
        return [re.sub(r"<.*", "", found[it] or "").split("::")[-1] for it in ("trait", "owner")]


def is_whole(lines):
    """Whether each bracket that is opened in these lines is closed, those in texts apart."""
    text = re.sub('"[^"]*"', "", "\n".join(lines))
    return all(text.count(opened) <= text.count(closed) for opened, closed in ("()", "[]", "{}"))


def end_of(lines, first, sign):
    """The last line of what begins at this line: the one that closes its body, or, before any body, the first one at which it is whole and has this sign."""
    for at in range(first, len(lines)):
        if IS_EMPTY.match(lines[at]) or lines[at].endswith(sign) and is_whole(lines[first:at + 1]):
            return at
        if OPENS.match(lines[at]):
            return next(end for end in range(at + 1, len(lines)) if lines[end].startswith("}"))
    return len(lines) - 1


def split(file, lines, first_line=HEAD):
    """The items of a source, or the fields of a struct."""
    before, at = [], 0
    while at < len(lines):
        head = first_line.match(lines[at])
        if head:
            end = end_of(lines, at, "," if first_line is FIELD else ";")
            yield Item(file, (head["kind"] or "").strip(), head["name"], bool(head["public"]), tuple(before), tuple(lines[at:end + 1]))
            before, at = [], end + 1
        else:
            before, at = [*before, lines[at]] if lines[at] else [], at + 1


@functools.lru_cache(maxsize=None)
def items_of(file):
    """The items of a source, by its path in the repository."""
    with open(os.path.join(ROOT, file), encoding="utf-8") as source:
        return tuple(split(file, source.read().split("\n")))


@functools.lru_cache(maxsize=None)
def all_items(crate):
    """The items of all sources of a crate."""
    folder = os.path.join(ROOT, "crates", crate, "src")
    files = sorted(os.path.relpath(os.path.join(at, it), ROOT) for at, _, names in os.walk(folder) for it in names if it.endswith(".rt"))
    return tuple(item for it in files for item in items_of(it))


@dataclass(frozen=True)
class Reached:
    """What callers of a crate reach: the path by which they do, and the item; or, of what another crate has, that crate, and its path there."""

    path: str
    item: Item = None
    crate: str = None
    there: str = None


def file_of(crate, modules):
    """The source of a module."""
    return "/".join(["crates", crate, "src", *(modules or ["lib"])]) + ".rt"


def used(crate, modules, path, name):
    """What is reached by a `pub use` of this path under this name."""
    *within, last = path
    if not os.path.exists(os.path.join(ROOT, file_of(crate, (*modules, *within)))):
        return [Reached(name, crate=within[0], there="::".join([*within[1:], last]))]
    return [Reached(name, it.item, it.crate, it.there) for it in reached(crate, (*modules, *within)) if it.path == last]


@functools.lru_cache(maxsize=None)
def reached(crate, modules=()):
    """What callers reach of a crate or of a module of it, in the order of its source; macros come last."""
    found = []
    for item in items_of(file_of(crate, modules)):
        if item.is_public and item.kind == "mod":
            found += [Reached(f"{item.name}::{it.path}", it.item, it.crate, it.there) for it in reached(crate, (*modules, item.name))]
        elif item.is_public and item.kind == "use":
            found += [it for path, name in item.names() for it in used(crate, modules, path, name)]
        elif item.is_public:
            found.append(Reached(item.name, item))
    macros = [it for it in all_items(crate) if "#[macro_export]" in it.before and not modules]
    return (*found, *[Reached(f"{it.name}!", it) for it in macros])


@functools.lru_cache(maxsize=None)
def own_items(crate):
    """What callers reach of a crate's own items."""
    return [it for it in reached(crate) if it.item]


@functools.lru_cache(maxsize=None)
def traits_of(crate):
    """The traits of a crate, and whether callers of it reach them."""
    public = [it.item for it in own_items(crate)]
    return {it.name: (it, it in public) for it in all_items(crate) if it.kind == "trait"}


def find_trait(crate, name):
    """The trait of this name that stands in the crate, or in one below it, and whether callers of that one reach it; or nothing."""
    return next((traits_of(it)[name] for it in [crate, *crates_below(CRATES, crate)] if name in traits_of(it)), None)


def impls_for(crate, item):
    """Each `impl` for a type that callers reach, or of a trait those for types of other crates."""
    names = [it.item.name for it in own_items(crate)]
    for it in (it for it in all_items(crate) if it.kind == "impl"):
        trait, owner = it.owner()
        is_reached = not trait or not find_trait(crate, trait) or find_trait(crate, trait)[1]
        if is_reached and (owner == item.name or item.kind == "trait" and trait == item.name and owner not in names):
            yield it
