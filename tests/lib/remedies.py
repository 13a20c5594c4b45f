"""What helps where the file of a pattern is refused, by the table of docs/COMMANDS.md, "What to do"."""
import functools
import os
import re

from lib.program import ROOT, Outcome, escaped, file_word


@functools.cache
def table():
    """The remedies of the table's rows: for what is printed, and the first words of its usual cause."""
    with open(os.path.join(ROOT, "docs", "COMMANDS.md"), encoding="utf-8") as page:
        rows = page.read().split("## What to do\n")[1].split("\n\n")[1].split("\n")[2:]
    found = {}
    for row in rows:
        printed, cause, remedy = (cell.strip() for cell in row.strip().strip("|").split(" | "))
        for it in re.findall("`([^`]*)`", printed):
            found[it, cause] = remedy.replace("`", "")
    return found


def row(printed, cause):
    """The remedy of the one row for what is printed whose usual cause begins so."""
    rows = [remedy for (it, why), remedy in table().items() if it == printed and why.startswith(cause)]
    assert len(rows) == 1, (printed, cause, rows)
    return rows[0]


def unread(printed, data, otherwise):
    """The remedy for an RLE without a header or an end, by the bytes of its file."""
    if data[:3] == b"\xef\xbb\xbf":
        return row(printed, "the file begins with a byte order mark")
    if data[:2] == b"\x1f\x8b":
        return row(printed, "it is packed by gzip")
    if data[:9] == b"#Life 1.0" or data[:1] == b"!":
        return row(printed, "it is plaintext")
    if b"\r" in data and b"\n" not in data:
        return row(printed, "its lines end with CR alone")
    return row(printed, otherwise)


def unknown(rule):
    """The remedy for a rule text that names no rule, if there is one: a file can have the name, or more follows the rule."""
    if rule and not re.search(rb"/|\0|\\x00|\.\.", rule):
        return row("bad rule: unknown", "the rule is a name")
    return row("bad rule: unknown", "something follows the rule") if b"/" in rule and b"," in rule else None


def words(told, data=b"", rule=b""):
    """The remedy for what is reported of a file with these bytes and this rule text, if there is one."""
    kind = told.removeprefix("bad pattern: ")
    if kind == "rle header":
        return unread(kind, data, "the header has no commas")
    if kind == "rle no end":
        return unread(kind, data, "the text was cut off")
    if kind == "bad rule: unknown":
        return unknown(rule)
    firsts = {"rle syntax": "a letter", "rle xlife rule": "the rule is in", "state too large": "live cells", "macrocell timeline": "the file has several",
              "refused, too many cells": "the pattern of a", "cafile: too many cells": "more than", "cafile: work": "the generations"}
    return row(kind, firsts[kind]) if kind in firsts else None


def line(told, path, data=b"", rule=b"", before=b""):
    """The line that an explained run ends with for what is reported of the file of a path, with these bytes and this rule text."""
    remedy = words(told, data, rule)
    if remedy is None:
        return b""
    return before + b"  try: " + remedy.encode().replace(b"FILE", file_word(path)).replace(b"NAME", escaped(rule)) + b"\n"


def line_of(verdict, note, before=b""):
    """The same after the note on a verdict, `NAME: ` and what is reported of the file."""
    name, _, about = note.partition(b": ")
    if not verdict.startswith("refused, ") or name == b"rule file":
        return b""
    return line_after(verdict if verdict == "refused, too many cells" else verdict.removeprefix("refused, "), about, before)


def line_after(told, note, before=b"", folder=ROOT):
    """The same after a note about a file, `PATH`, `PATH, line N` or `PATH: rule TEXT`, where paths are those of a folder. The file is looked at where it lies."""
    path, _, rule = note.partition(b": rule ")
    path = re.sub(rb", line \d+$", b"", path)
    if re.search(rb": line \d+ [a-z ]+$", rule):
        return b""
    place = os.path.join(folder.encode(), path)
    data = b""
    if os.path.isfile(place):
        with open(place, "rb") as file:
            data = file.read()
    return line(told, path, data, rule, before)


def explained(told, note):
    """The outcome of a run that complains of this, and explains it by this note, and tells what helps, where something does."""
    note = note if isinstance(note, bytes) else note.encode()
    helps = line_after(f"cafile: {told}" if told in ("too many cells", "work") else told, note)
    return Outcome(b"", f"cafile: {told}\n".encode() + b"  " + note + b"\n" + helps, 2)
