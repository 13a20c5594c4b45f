"""What the page CALLING.md of each library shows of the sources, word for word: a function above it that calls it, and its public items with their contracts.

    python3 -B -m scripts.calling
    python3 -B -m scripts.calling --check

The first writes this part of the pages anew. The second changes nothing: it names the pages in which it differs, and ends with status 1 where there are any.

A page's head is written by hand, up to the line MARKER. A line of it names the function above: `<!-- caller: ca_run/src/leaper/planes.rt load_plane -->`.
"""
import os
import re
import sys
from itertools import groupby

from scripts.cited_words import cited
from scripts.public_items import CRATES, FIELD, all_items, find_trait, impls_for, items_of, own_items, reached
from scripts.repository import PROGRAM, ROOT, say

# Nothing stands above these that could call them, the program and the tests of the libraries: so they have no page.
WITHOUT_PAGE = (PROGRAM, "ca_library_tests")
LIBRARIES = [it for it in CRATES if it not in WITHOUT_PAGE]

MARKER = "<!-- From here on, python3 -B -m scripts.calling makes the page of the sources. -->"
CALLER = re.compile(r"^<!-- caller: (\S+) (\w+) -->$", re.MULTILINE)

CALLS = (
    "These are the public items as the sources have them, without bodies and private functions. A crate that calls them names {crate} on its line of "
    "crates.txt. In a clause, `result` is what is returned, `x.now` is what a reference `x` points to, and `x.old` and `x.new` are what a `&mut` points to at "
    "the call and at the return. `x.entry` is a parameter that holds a reference, as it was passed. Where a type has a `view`, clauses speak of that in place "
    "of its fields. CONTRACTS.md of the kit explains the rest.")
WORDS = "These files define what the clauses say. Words that aren't here come from the kit, or name types and variants of the code."

# What an `impl Model` says of the values of a type.
MODEL = ("Value", "view", "invariant")


class Misnamed(Exception):
    """A page's head names no function as it should."""


def page_of(crate):
    """The path of a crate's page."""
    return os.path.join(ROOT, "crates", crate, "CALLING.md")


def read(path):
    """The text of a page, none where it isn't there."""
    if not os.path.exists(path):
        return ""
    with open(path, encoding="utf-8") as file:
        return file.read()


def joined(groups):
    """Groups of lines, with a blank line between each two."""
    return [line for group in groups if group for line in ["", *group]][1:]


def braced(head, inside):
    """The head of a type, a trait or an `impl`, and what it holds."""
    opening = [*head, "{"] if head[-1].endswith(",") else [*head[:-1], f"{head[-1]} {{"]
    return [*opening, *[f"    {it}" if it else "" for it in inside], "}"]


def has_view(item):
    """Whether clauses take a value of a type for something else."""
    return any(it.kind == "impl" and it.owner() == ["Model", item.name] for it in all_items(item.crate()))


def shown_function(item):
    """A function without its body."""
    return [*[it for it in item.before if it.startswith("///")], *item.head()]


def shown_struct(item):
    """A struct with its fields and the facts that it keeps, but without private fields where clauses speak of a view."""
    fields = item.parts(FIELD)
    shown = [it for it in fields if it.is_public or it.kind or not has_view(item)]
    hidden = ["/* private fields */"] if len(shown) < len(fields) else []
    return braced(item.head(), [line for it in shown for line in [*it.before, *it.lines]] + hidden) if fields else [*item.lines]


def shown_trait(item):
    """A trait without the bodies of its functions."""
    members = [it for it in item.parts() if it.kind != "ghost use"]
    return braced(item.head(), joined(shown_function(it) if it.kind == "fn" else [*it.before, *it.lines] for it in members))


def shown_item(item):
    """An item of any kind."""
    if item.kind == "fn":
        return shown_function(item)
    lines = {"struct": shown_struct, "trait": shown_trait}.get(item.kind, lambda it: [*it.lines])(item)
    return [*[it for it in item.before if it.startswith(("///", "#[derive", "#[error"))], *lines]


def ghosts_of(crate, trait):
    """The ghost members of an `impl` that are shown: those that the trait's contracts cite, or nothing where all are, as of a trait of the kit."""
    found = find_trait(crate, trait)
    contracts = [line for it in found[0].parts() if it.kind == "fn" for line in it.head()] if found else []
    return MODEL if trait == "Model" else re.findall(r"\w+", " ".join(contracts)) if found else None


def is_shown(trait, member):
    """Whether a member of an `impl` is shown. Where it is of no trait, it has to be public."""
    if member.kind == "ghost":
        ghosts = ghosts_of(member.crate(), trait)
        return ghosts is None or member.name in ghosts
    return member.kind != "ghost use" and (bool(trait) or member.is_public)


def shown_impl(item):
    """An `impl`, or nothing where callers reach nothing of it."""
    members = [it for it in item.parts() if is_shown(item.owner()[0], it)]
    inside = joined(shown_function(it) if it.kind == "fn" else [*it.lines] for it in members)
    return braced(item.head(), inside) if inside else []


def pieces_of(item):
    """An item and what is implemented for it, each with its file."""
    yield item.file, shown_item(item)
    if item.kind in ("struct", "enum", "trait"):
        for it in impls_for(item.crate(), item):
            yield it.file, shown_impl(it)


def block(pieces):
    """A block of pieces of sources. Before those of a file stands its name."""
    lines = []
    for file, found in groupby(((file, lines) for file, lines in pieces if lines), lambda it: it[0]):
        lines.append([f"// {'/'.join(file.split('/')[2:])}", *joined(it for _, it in found)])
    return ["```rust", *joined(lines), "```"]


def place_of(found):
    """In what order and with which others an item is shown: with those of its file, or after these, with those of its module."""
    module = found.path.rpartition("::")[0]
    return bool(module), module or found.item.file


def section(items):
    """The section of some items."""
    module = items[0].path.rpartition("::")[0]
    names = [f"`{module}`"] if module else [f"`{it.path}`" for it in items]
    others = [f"`{it.path}` is another name of `{it.item.name}`." for it in items if it.item.name not in re.split("::|!", it.path)]
    pieces = [piece for it in dict.fromkeys(it.item for it in items) for piece in pieces_of(it)]
    return joined([[f"### {', '.join(names)}"], others, block(pieces)])


def passed_on(crate):
    """The section of what callers reach of other crates under this crate's name."""
    found = {}
    for it in (it for it in reached(crate) if it.crate):
        found.setdefault(it.crate, []).append(f"`{it.path}`" if it.path == it.there.split("::")[-1] else f"`{it.path}` (there `{it.there}`)")
    rows = [f"- [{it}](../{it}/CALLING.md): {', '.join(names)}" for it, names in found.items()]
    return joined([["### What is passed on of other crates"], rows]) if rows else []


def words(crate, pieces):
    """The section of the definitions that pieces of sources cite."""
    found = {}
    for name, (file, word) in sorted(cited(pieces).items()):
        found.setdefault(os.path.relpath(file, f"crates/{crate}"), []).append(f"`{name}`" if name == word else f"`{name}` (there `{word}`)")
    rows = [f"| `{file}` | {', '.join(found[file])} |" for file in sorted(found)]
    return joined([["## Words"], [WORDS], ["| File | Words |", "|---|---|", *rows]]) if rows else []


def find_caller(head):
    """The function above that a page's head names."""
    named = CALLER.search(head)
    if not named:
        raise Misnamed("it names no caller")
    items = items_of(f"crates/{named[1]}")
    functions = [*items, *[part for it in items if it.kind == "impl" for part in it.parts()]]
    found = [it for it in functions if (it.kind, it.name) == ("fn", named[2])]
    if not found:
        raise Misnamed(f"{named[1]} has no function {named[2]}")
    return found[0]


def caller(item):
    """The section of the function above."""
    said = f"This is from `../{item.file[len('crates/'):]}`, and is proved over the contracts below."
    return joined([["## A caller"], [said], ["```rust", *item.before, *item.lines, "```"]])


def made(crate, head):
    """What a page has below its marker."""
    groups = [[*items] for _, items in groupby(sorted(own_items(crate), key=place_of), place_of)]
    pieces = [piece for items in groups for it in items for piece in pieces_of(it.item)]
    calls = [["## Calls"], [CALLS.format(crate=crate)], *map(section, groups), passed_on(crate)]
    return "\n".join(joined([caller(find_caller(head)), *calls, words(crate, pieces)]))


def whole_page(crate):
    """A page as the sources want it."""
    head = read(page_of(crate)).partition(MARKER)[0]
    try:
        return f"{head}{MARKER}\n\n{made(crate, head)}\n"
    except (Misnamed, OSError) as why:
        raise Misnamed(f"crates/{crate}/CALLING.md: {why}") from why


def main(*said):
    try:
        pages = {it: whole_page(it) for it in LIBRARIES}
    except Misnamed as why:
        say(why)
        return 1
    stale = [it for it in LIBRARIES if pages[it] != read(page_of(it))]
    for it in stale:
        if "--check" in said:
            say(f"crates/{it}/CALLING.md isn't what the sources say: run python3 -B -m scripts.calling")
        else:
            with open(page_of(it), "w", encoding="utf-8") as file:
                file.write(pages[it])
    return 1 if "--check" in said and stale else 0


if __name__ == "__main__":
    sys.exit(main(*sys.argv[1:]))
