#!/usr/bin/env -S python3 -B
"""The tables of docs/RULES.md: each page, definition, contract, proof, test and wrong body that a row names is there, and the contracts of a row cite its
definitions. And each public definition of specs/ is in a row, or serves one as the page's end says: what is named there cites it.

It reads the sources alone, and needs no program.
"""
import functools
import glob
import os
import re
from dataclasses import dataclass

from lib.program import ROOT, Tally, contents

PAGE = "docs/RULES.md"
COLUMNS = 7

# What a file of definitions declares for others: `abbrev pub NAME`, `unfoldable pub NAME`, `pub record NAME` and `pub data NAME`, each from the start of a line.
DECLARED = re.compile(r"^(?:(?:abbrev|unfoldable) pub|pub (?:record|data)) (\S+)")
DECLARED_ALONE = re.compile(r"^(?:abbrev|unfoldable|record|data) (\S+)")

# What a file imports: names of a module, or a module under another name.
IMPORTS = re.compile(r"^\s*(?:ghost )?(?:pub )?use Rattle\.([^\s;{]+?)(?:\.\{([^}]*)\}| as (\w+))?;?$", re.MULTILINE)

# A name, and one of a module that has another name here.
NAME = re.compile(r"(?<![\w.])([a-z_]\w*)\.([A-Za-z_]\w*)|([A-Za-z_]\w*)")

FUNCTION = re.compile(r"^\s*(pub )?(?:pub\(\w+\) )?(?:const )?fn (\w+)")
OWNER = re.compile(r"^(?:pub )?(impl(?:<.*?>)? (?:\S.* for )?|trait |struct |enum )([A-Z]\w*)")


def text_of(path):
    """The text of a file of the repository."""
    return contents(os.path.join(ROOT, path)).decode()


def found(pattern):
    """The paths of the repository that are so, in order."""
    return sorted(glob.glob(pattern, root_dir=ROOT, recursive=True))


class Definitions:
    """The definitions of all crates, by module and name, as `ca_rle.specs.Items`, and what each cites."""

    def __init__(self):
        self.texts = {path[len("crates/"):-len(".antt")].replace("/", "."): text_of(path) for path in found("crates/*/specs/**/*.antt")}
        self.declared = {module: self.declarations(text) for module, text in self.texts.items()}
        self.imports = {module: IMPORTS.findall(text) for module, text in self.texts.items()}
        self.cited = {}
        for module, text in self.texts.items():
            names = Names(self, text, module)
            for name, (_, body) in self.declared[module].items():
                self.cited[module, name] = names.cited("\n".join(body)) - {(module, name)}

    @staticmethod
    def declarations(text):
        """The names that a text declares, each with whether others see it and with its lines."""
        declared, now = {}, None
        for line in text.splitlines():
            name = DECLARED.match(line) or DECLARED_ALONE.match(line)
            if name:
                now = declared.setdefault(name[1], (bool(DECLARED.match(line)), []))[1]
            elif line.startswith(("use ", "pub use ", "pub mod ")):
                now = None
            if now is not None and not line.startswith("--"):
                now.append(line)
        return declared

    def public(self):
        """Those that have to be in a row, by their files: not those of specs/inner."""
        return {module: {name for name, (is_public, _) in declared.items() if is_public}
                for module, declared in self.declared.items() if ".inner" not in module}

    def resolved(self, module, name, seen=()):
        """Where a name of a module is declared, also where the module only passes it on."""
        if name in self.declared.get(module, ()):
            return module, name
        for base, names, _ in self.imports.get(module, ()):
            for it in names.split(",") if module not in seen else ():
                inner, last = f"{base}.{it.strip()}".rsplit(".", 1)
                where = last == name and self.resolved(inner, last, (*seen, module))
                if where:
                    return where
        return None

    def reached(self, first):
        """These definitions, and all that they cite."""
        reached, open_ones = set(first), [*first]
        while open_ones:
            more = self.cited[open_ones.pop()] - reached
            reached |= more
            open_ones += more
        return reached


class Names:
    """What the names of a file stand for."""

    def __init__(self, definitions, text, own=None):
        self.definitions, self.modules, self.known = definitions, {}, {}
        for base, names, other in IMPORTS.findall(text):
            if other:
                self.modules[other] = base
            for it in names.split(",") if names else () if other else (None,):
                module, name = (f"{base}.{it.strip()}" if it else base).rsplit(".", 1)
                self.known[name] = definitions.resolved(module, name)
        self.known.update((name, (own, name)) for name in definitions.declared.get(own, ()))

    def cited(self, text):
        """The definitions that a text cites."""
        cited = set()
        for first, name, alone in NAME.findall(text):
            if first in self.modules:
                cited.add(self.definitions.resolved(self.modules[first], name))
            else:
                cited.add(self.known.get(first or alone))
        return cited - {None}


@dataclass(frozen=True, eq=False)
class Function:
    """A function of a crate, or a type, by the place of its file below src/ and its type; whether others may see it, and its head with the ghost lines of its
    type, whose names are those of its file."""

    crate: str
    place: str
    owner: str
    name: str
    is_public: bool
    head: str
    ghosts: list
    names: Names

    @property
    def path(self):
        """Its name, after that of its type where it has one."""
        return "::".join(filter(None, (self.owner, self.name)))

    @property
    def clauses(self):
        """The names of its clauses."""
        return set(re.findall(r"\bensures (\w+)", self.head))

    @functools.cached_property
    def cited(self):
        """The definitions that its contract cites."""
        return self.names.cited("\n".join([self.head, *(line for lines in self.ghosts for line in lines)]))

    def folders(self, proofs):
        """The folders of its proof, among those of its crate: they have its name, and stand in a folder of its type, or of its module where it has none."""
        for folder in proofs:
            *above, last = folder.split("/")
            types = [it for it in above if it[0].isupper()]
            of_its_type = types and all(it.startswith(self.owner) for it in types)
            of_its_module = f"{self.place}/".startswith("/".join([*above, ""]))
            if last.lstrip("+") == self.name and (of_its_type if self.owner else of_its_module):
                yield folder


def functions_of(definitions, path):
    """The functions and types of a source file."""
    crate, place = re.fullmatch(r"crates/(\w+)/src/(.*)\.rt", path).groups()
    text = text_of(path)
    lines, names, owner, ghosts, ghosts_of, is_ghost = text.splitlines(), Names(definitions, text), "", [], {}, False
    for at, line in enumerate(lines):
        begun = OWNER.match(line)
        if begun or line.startswith("}"):
            owner, ghosts = begun[2] if begun else "", []
            ghosts_of.setdefault(owner, []).append(ghosts)
        if begun and not begun[1].startswith("impl"):
            yield Function(crate, place, "", owner, line.startswith("pub"), "", ghosts_of[owner], names)
        function = FUNCTION.match(line)
        if function:
            head = [line]
            for more in lines[at + 1:] if not line.endswith(("{", "}", ";")) else ():
                if re.match(r"\s*(?:\{.*\}?|\})$", more) or head[-1].endswith(";"):
                    break
                head.append(more)
            yield Function(crate, place, owner, function[2], bool(function[1]), "\n".join(head), [ghosts], names)
        is_ghost = is_ghost or re.match(r" +(?:pub )?ghost (?!use)", line)
        if is_ghost:
            ghosts.append(line)
            is_ghost = not line.endswith(("},", "};"))


def exported(crate):
    """What callers of a crate see at its root: names, and modules."""
    text = text_of(f"crates/{crate}/src/lib.rt")
    names = re.findall(r"^pub use (?:\w+::)+(?:\{([^}]*)\}|(\w+));", text, re.MULTILINE)
    return {it.strip() for several, one in names for it in (several or one).split(",")}, set(re.findall(r"^pub mod (\w+);", text, re.MULTILINE))


class Functions:
    """The functions of all crates."""

    def __init__(self, definitions):
        self.known, self.exports, self.proofs = {}, {}, {}
        for path in found("crates/*/src/**/*.rt"):
            for it in functions_of(definitions, path):
                self.known.setdefault((it.crate, it.owner, it.name), []).append(it)
        for crate in {crate for crate, _, _ in self.known}:
            self.exports[crate] = exported(crate)
            top = f"crates/{crate}/proofs/"
            self.proofs[crate] = [it[len(top):-1] for it in found(f"{top}**/") if it != top]

    def is_seen(self, function):
        """Whether callers of its crate see a function: by its name or that of its type at the root, or in a module that they see."""
        names, modules = self.exports[function.crate]
        return function.is_public and ((function.owner or function.name) in names or function.place.split("/")[0] in modules)

    def named(self, path, is_private):
        """The functions of a path, such as `ca_rle::laws::one_file`, `ca_rule::Table::parse` or the private `ca_rle::unit::next_item`; and what is wrong with it."""
        crate, *modules, name = path.split("::")
        owner = modules.pop() if modules and modules[-1][0].isupper() else ""
        place = "/".join(modules)
        those = [it for it in self.known.get((crate, owner, name), ()) if it.place == place or not (is_private or place)]
        those = [it for it in those if self.is_seen(it) != is_private]
        return those, [] if those else [f"{path} is no {'private' if is_private else 'public'} function"]

    def proofs_of(self, function):
        """The folders of a function's proof."""
        return {f"{function.crate}/proofs/{it}" for it in function.folders(self.proofs[function.crate])}


def headings(page):
    """The headings of a page by their anchors, each after the one that it stands under."""
    known, counts, above = {}, {}, ""
    for level, heading in re.findall(r"^(#+) (.*)$", re.sub(r"^```.*?^```", "", text_of(f"docs/{page}"), flags=re.MULTILINE | re.DOTALL), re.MULTILINE):
        anchor = re.sub(r"[^\w\- ]", "", heading.lower()).replace(" ", "-")
        counts[anchor] = counts.get(anchor, -1) + 1
        above = heading if len(level) < 3 else above
        known[anchor + (f"-{counts[anchor]}" if counts[anchor] else "")] = heading if len(level) < 3 else f"{above}: {heading}"
    return known


class Row:
    """A row of a table: its cells, and what they name."""

    def __init__(self, line, sources):
        self.cells = [it.strip() for it in re.split(r"(?<!\\)\|", line.strip().strip("|"))]
        self.sources, self.complaints = sources, []
        if len(self.cells) != COLUMNS:
            self.complaints.append(f"has {len(self.cells)} cells")
            self.cells = (self.cells + [""] * COLUMNS)[:COLUMNS]
        self.rule = self.cells[0]
        self.wholes, self.names = self.definitions()
        self.functions = self.contracts()

    def complain(self, is_wrong, text):
        """Notes what is wrong."""
        if is_wrong:
            self.complaints.append(text)

    def try_pages(self, pages):
        """Its pages have these headings."""
        links = re.findall(r"\[(\w+), ([^\]]*)\]\((\w+)\.md#([^)]*)\)", self.cells[1])
        self.complain(not links, "names no page")
        for page, heading, file, anchor in links:
            self.complain(page != file or pages[f"{file}.md"].get(anchor) != heading, f"no heading {heading} of {page} at #{anchor}")

    def definitions(self):
        """The files that it names as a whole, and the definitions that it names of others."""
        files, names, module = set(), set(), None
        for it in re.findall("`([^`]*)`", self.cells[2]):
            if "/" in it:
                module = it.removesuffix(".antt").replace("/", ".")
                self.complain(module not in self.sources.definitions.declared, f"no file {it}")
                files.add(module)
            else:
                self.complain(not self.sources.definitions.declared.get(module, {}).get(it, (False,))[0], f"{module} declares no {it}")
                names.add((module, it))
        return files - {module for module, _ in names}, {it for it in names if it in self.sources.definitions.cited}

    def contracts(self):
        """The functions that it names."""
        functions = []
        for is_private, path, clauses in re.findall(r"(private )?`([\w:]+)`(?: \(([\w, ]+)\))?", self.cells[3]):
            those, wrong = self.sources.functions.named(path, bool(is_private))
            self.complaints += wrong
            known = set().union(*(it.clauses for it in those))
            self.complain(set(filter(None, clauses.split(", "))) - known, f"{path} hasn't all of the clauses {clauses}")
            functions += those
        self.complain(not functions, "names no contract")
        return functions

    def try_cited(self):
        """Its contracts cite its definitions, and some of each file that it names as a whole."""
        reached = self.sources.definitions.reached(set().union(*(it.cited for it in self.functions)))
        for module, name in sorted(self.names - reached):
            self.complaints.append(f"none of its contracts cites {module}.{name}")
        for module in sorted(self.wholes - {module for module, _ in reached}):
            self.complaints.append(f"none of its contracts cites anything of {module}")

    def try_proofs(self):
        """Its folders are those of its contracts' proofs; where the check finds all of these by itself, it says so."""
        folders = set().union(*(self.sources.functions.proofs_of(it) for it in self.functions))
        named = set(re.findall("`([^`]*)`", self.cells[4]))
        if self.cells[4] == "automatic":
            self.complain(folders, f"isn't automatic: {sorted(folders)}")
        else:
            self.complain(not named, "names no proof")
            self.complain(named - folders, f"no proofs of its contracts: {sorted(named - folders)}, but {sorted(folders)}")

    def try_tests(self):
        """Its tests are there, and their parts."""
        for path, part in re.findall("`([^`]*)`(?: `(try_[^`]*)`)?", self.cells[5]):
            is_test = path.startswith(("tests/", "examples/", "crates/ca_library_tests/"))
            self.complain(not is_test or not os.path.exists(os.path.join(ROOT, path)), f"no test {path}")
            self.complain(part and not re.search(rf"^def {part}\(", text_of(path), re.MULTILINE), f"{path} has no {part}")
        self.complain(self.cells[5] != "-" and "`" not in self.cells[5], "names no test")

    def try_edits(self):
        """Its wrong bodies are there."""
        for it in re.findall("`([^`]*)`", self.cells[6]):
            crate, _, name = it.partition("/")
            places = (f"attacks/{crate}/{name}.edit", f"crates/{crate}/must-fail/{name}.edit")
            self.complain(not any(os.path.exists(os.path.join(ROOT, place)) for place in places), f"no wrong body {it}")
        self.complain(self.cells[6] != "-" and "`" not in self.cells[6], "names no wrong body")


class Sources:
    """What the rows name."""

    def __init__(self):
        self.definitions = Definitions()
        self.functions = Functions(self.definitions)


def rows_of(page, sources):
    """The rows of the tables, by the headings above them."""
    for section in re.split(r"^## ", page, flags=re.MULTILINE)[1:]:
        heading, _, text = section.partition("\n")
        lines = [line for line in text.splitlines() if line.startswith("|")]
        if lines:
            yield heading, [Row(line, sources) for line in lines[2:]]


def served(page, rows, sources):
    """By file: the definitions that serve what the page's end names of it, and what is wrong there."""
    heads = {}
    for row in rows:
        for it in row.names:
            heads.setdefault(it[1], set()).add(it)
        for it in row.functions:
            heads.setdefault(it.path, set()).update(it.cited)
    reached, complaints = {}, []
    for crate, text in re.findall(r"^- (\w+): (.*)$", page, re.MULTILINE):
        for part in text.rstrip(".").split("; "):
            file, *names = re.findall("`([^`]*)`", part)
            module = f"{crate}.specs.{file}"
            complaints += [f"{module}: {it} is in no row" for it in names if it not in heads]
            reached.setdefault(module, set()).update(sources.definitions.reached(set().union(*(heads.get(it, ()) for it in names))))
            if module not in sources.definitions.declared:
                complaints.append(f"no file {module}")
    return reached, complaints


def worked(page, sources):
    """The files of worked examples, and what their laws cite."""
    reached, complaints = {}, []
    for file, laws in re.findall(r"^\* `([^`]*)`: (.*)$", page, re.MULTILINE):
        cited = set()
        for path in re.findall("`([^`]*)`", laws):
            those, wrong = sources.functions.named(path, False)
            complaints += wrong
            cited |= set().union(*(it.cited for it in those))
        reached[file.removesuffix(".antt").replace("/", ".")] = sources.definitions.reached(cited)
    return reached, complaints


def main():
    tally, page, sources = Tally(), text_of(PAGE), Sources()
    pages = {it: headings(it) for it in ("FORMATS.md", "CLAIMS.md", "COMMANDS.md")}
    rows = []
    for heading, those in rows_of(page, sources):
        complaints = []
        for row in those:
            row.try_pages(pages)
            row.try_cited()
            row.try_proofs()
            row.try_tests()
            row.try_edits()
            complaints += [f"{row.rule}: {it}" for it in row.complaints]
        tally.tell(f"{heading}: {len(those)} rows", complaints)
        rows += those
    wholes = set().union(*(it.wholes for it in rows))
    helpers, wrong = served(page, rows, sources)
    examples, wrong_laws = worked(page, sources)
    tally.tell("helpers and worked examples", wrong + wrong_laws)
    told = set().union(*(it.names for it in rows))
    by_crate = {}
    for module, names in sources.definitions.public().items():
        left = {(module, name) for name in names} - told - helpers.get(module, set()) - examples.get(module, set())
        count, complaints = by_crate.setdefault(module.split(".")[0], ([], []))
        count += names
        complaints += [f"{module}.{name} is in no row, and serves none" for _, name in sorted(left) if module not in wholes]
    for crate, (count, complaints) in sorted(it for it in by_crate.items() if it[1][0]):
        tally.tell(f"{crate}: {len(count)} definitions", complaints)
    tally.finish()


if __name__ == "__main__":
    main()
