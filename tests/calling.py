#!/usr/bin/env -S python3 -B
"""The pages CALLING.md of the libraries: that each shows what the sources say (scripts/calling.py), that the promises of its head name calls, clauses,
definitions and files that are there, as docs/PROMISES.md does, and that the caller that it shows stands above the crate and calls it. It runs no program."""
import functools
import glob
import os
import re
import sys

from lib.program import ROOT, Tally

sys.path.append(ROOT)
# pylint: disable=wrong-import-position
from scripts.calling import LIBRARIES, MARKER, Misnamed, find_caller, page_of, read, whole_page
from scripts.public_items import CRATES, all_items, impls_for, reached
from scripts.repository import PROGRAM, crates_below


def expanded(name):
    """The names that one with braces stands for, and `T::f` for `<T as U>::f`."""
    braces = re.fullmatch(r"([^{]*)\{(.*)\}(.*)", name)
    return [f"{braces[1]}{it.strip()}{braces[3]}" for it in braces[2].split(",")] if braces else [re.sub(r"<(\w+) as \w+>", r"\1", name)]


@functools.lru_cache(maxsize=None)
def public_names(crate):
    """The names of what callers of a crate reach."""
    names = set()
    for it in reached(crate):
        names.add(it.path)
        if it.crate:
            names.update(it.path + name.removeprefix(it.there) for name in public_names(it.crate) if name.startswith(f"{it.there}::"))
        elif it.item.kind in ("struct", "enum", "trait"):
            parts = [part for impl in impls_for(crate, it.item) for part in impl.parts() if part.is_public or impl.owner()[0]]
            names.update(f"{it.path}::{part.name}" for part in [*parts, *(it.item.parts() if it.item.kind == "trait" else [])])
    return names


@functools.lru_cache(maxsize=None)
def all_functions(crate):
    """The names of all functions of a crate, also of private ones."""
    methods = {f"{it.owner()[1]}::{part.name}" for it in all_items(crate) if it.kind == "impl" for part in it.parts()}
    return methods | {it.name for it in all_items(crate) if it.kind == "fn"}


@functools.lru_cache(maxsize=None)
def clause_names(crate):
    """The names of the clauses of a crate's functions."""
    lines = (line for it in all_items(crate) for line in it.lines)
    return {found[1] for found in (re.match(r" *(?:requires|ensures)\*? (\w+) \{", line) for line in lines) if found}


def find_files(crate, name):
    """The files and folders that a path of a page stands for: seen from the crate's folder, from that of all crates, or from the root."""
    folders = (os.path.dirname(page_of(crate)), os.path.join(ROOT, "crates"), ROOT)
    return [next(filter(os.path.exists, (os.path.join(folder, it) for folder in folders)), None) for it in expanded(name)]


def is_path(name):
    """Whether a name of a page is that of one file or folder of the repository, and not of one in each crate, or that the program reads or writes."""
    return bool(re.fullmatch(r"(?:specs|src|tests|must-fail|\.\.|ca_\w+|cafile|docs)/.*[^/]|must-fail", name))


def says(crate, phrase, name):
    """Whether there is what a phrase on what carries a promise calls by this name."""
    owner = re.match(r" *in (ca_\w+) ", phrase)
    crate = owner[1] if owner else crate
    if name.endswith("::*"):
        return any(it.startswith(name[:-1]) for it in public_names(crate))
    files = [it for path in re.findall(r"`([^`]*\.antt)`", phrase) for it in find_files(crate, path) if it]
    return (name in public_names(crate) or "private" in phrase and name in all_functions(crate) or "clause" in phrase and name in clause_names(crate)
            or any(re.search(rf"\b{re.escape(name)}\b", read(it)) for it in files))


def unknown_names(crate, head):
    """Names in the table of promises that nothing has."""
    rows = re.findall(r"^\| .* \| (.*) \|$", head, re.MULTILINE)
    phrases = [phrase for row in rows[1:] for phrase in row.split(";")]
    named = [(phrase, name) for phrase in phrases for it in re.findall("`([^`]*)`", phrase) if not is_path(it) for name in expanded(it)]
    return [f"{name} isn't there" for phrase, name in named if not says(crate, phrase, name)]


def missing_files(crate, head):
    """Files and folders that a head names and that aren't there."""
    named = [it for it in re.findall(r"`([^`\s]*)`|\]\(([^)]*)\)|(docs/\w+\.md)", head)]
    return [f"{path} isn't there" for it in named for path in filter(is_path, it) if None in find_files(crate, path)]


def wrong_caller(crate, head):
    """What is wrong with the function that a page shows as a caller."""
    item = find_caller(head)
    called = {it.split("::")[-1] for it in public_names(crate)}
    complaints = [] if crate in crates_below(CRATES, item.crate()) else [f"{item.name} doesn't stand above"]
    return complaints + ([] if called & {*re.findall(r"\w+(?=\()", "\n".join(item.lines))} else [f"{item.name} calls nothing of it"])


def faults(crate):
    """What is wrong with a library's page."""
    page = read(page_of(crate))
    head = page.partition(MARKER)[0]
    try:
        stale = [] if whole_page(crate) == page else ["isn't what the sources say: run python3 -B -m scripts.calling"]
    except Misnamed as why:
        return [str(why)]
    return [*stale, *unknown_names(crate, head), *missing_files(crate, head), *wrong_caller(crate, head)]


def promise_faults():
    """What is wrong with the page of what all promises have in common: calls of libraries, functions of the program, and files that aren't there."""
    page = read(os.path.join(ROOT, "docs", "PROMISES.md"))
    calls = [(crate, name) for crate, names in re.findall(r"`(ca_\w+)::([^`]*)`", page) for name in expanded(names)]
    rows = re.findall(r"^\| .* \| (`.*) \|$", page.partition("\n## cafile\n")[2].partition("\n## ")[0], re.MULTILINE)
    functions = [it for row in rows for it in re.findall(r"`(\w+)`", row)]
    unknown = [f"{crate}::{name}" for crate, name in calls if name not in public_names(crate)]
    unknown += [it for it in functions if it not in all_functions(PROGRAM)]
    return [f"{it} isn't there" for it in unknown] + missing_files(PROGRAM, page)


def main():
    tally = Tally()
    tally.tell("docs/PROMISES.md", promise_faults())
    there = {os.path.basename(os.path.dirname(it)) for it in glob.glob(os.path.join(ROOT, "crates", "*", "CALLING.md"))}
    tally.tell("each library has its page, and nothing else", sorted(there ^ {*LIBRARIES}))
    for crate in LIBRARIES:
        tally.tell(f"{crate}/CALLING.md", faults(crate))
    tally.finish()


if __name__ == "__main__":
    main()
