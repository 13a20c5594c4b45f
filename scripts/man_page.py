"""The man page of the program, in the macros of man(7), made of its help."""
import re
from itertools import groupby

# Characters that roff would take for its own, or for typographic ones.
SPELLED = str.maketrans({"\\": r"\(rs", "-": r"\-", "'": r"\(aq", '"': r"\(dq", "^": r"\(ha", "~": r"\(ti", "`": r"\(ga"})

# From this column on, a line of a list goes on with what the line before says.
DEEP = 9


def literal(text):
    """A text as it stands."""
    return re.sub(r"^\.", r"\\&.", text.translate(SPELLED), flags=re.MULTILINE)


def prose(text):
    """A text, where what stands between backticks is bold."""
    return re.sub(r"\\\(ga(.+?)\\\(ga", r"\\fB\1\\fR", literal(text), flags=re.DOTALL)


def bold(text):
    """A text in bold letters."""
    return rf"\fB{literal(text)}\fR"


def slanted(text):
    """A text in slanted letters, as what is to be replaced."""
    return rf"\fI{literal(text)}\fR"


def usage_line(usage):
    """How a command is called: its own words bold, and what stands for others slanted."""
    marked = re.sub(r"(?<![\w<[-])[a-z-]+", lambda found: bold(found[0]), usage)
    return re.sub(r"<([A-Z]+)>", r"\\fI\1\\fR", re.sub(r"\[([A-Z]+)\]", r"[\\fI\1\\fR]", marked))


def tagged(tag, said):
    """A tag, and what is said of it."""
    return f".TP\n{tag}\n{said}".rstrip("\n")


def shown(lines):
    """Lines that are shown as they stand."""
    return "\n".join([".RS 4", ".nf", *map(literal, lines), ".fi", ".RE"])


def entry(it):
    """An argument or an option."""
    value = slanted(it.value) + ("..." if it.is_many else "")
    said = it.about + (f" ({', '.join(it.choices)})" if it.choices else "")
    return tagged(" ".join([", ".join(map(bold, it.names)), *[value] * bool(it.value)]).strip(), prose(said))


def listed(lines):
    """The lines of an indented list. Each entry has its term and, after two blanks or deep below, what is said of it; lines below that are examples."""
    if not any("  " in it.strip() for it in lines):
        return shown(it.strip() for it in lines)
    told = []
    for line in lines:
        depth = len(line) - len(line.lstrip())
        term, _, said = line.strip().partition("  ")
        if depth == 2:
            told.append(tagged(bold(term), prose(said.strip())))
        else:
            told.append(prose(line.strip()) if depth >= DEEP else f".br\n{slanted(line.strip())}")
    return "\n".join(told)


def paragraph(text):
    """A paragraph of the help, some of whose lines may be a list."""
    told = []
    for is_list, lines in groupby(text.split("\n"), lambda it: it.startswith("  ")):
        told.append(listed([*lines]) if is_list else ".PP\n" + prose("\n".join(lines)))
    return "\n".join(told)


def command(help_text):
    """The section of a command."""
    told = [f".SS {usage_line(help_text.usage)}", prose(help_text.about) + "."]
    told += map(entry, [*help_text.arguments, *help_text.options])
    told += map(paragraph, help_text.paragraphs)
    return "\n".join([*told, ".PP", "Examples:", shown(help_text.examples)])


def man_page(whole, commands, version, day):
    """The page of a program with this help and these commands, of this version and day."""
    name = whole.usage.split()[0]
    told = [
        rf'.TH {name.upper()} 1 "{day}" "{name} {version}" "User Commands"',
        ".SH NAME", rf"{name} \- {prose(whole.about[0].lower() + whole.about[1:])}",
        ".SH SYNOPSIS", ".nf", *[usage_line(it.usage) for it in [whole, *commands]], ".fi",
        ".SH DESCRIPTION", prose(whole.about) + ".", *map(paragraph, whole.paragraphs), *map(entry, [*whole.commands, *whole.options]),
        ".SH COMMANDS", *map(command, commands),
        ".SH EXIT STATUS", *[tagged(bold(f"{name} {it.name()}"), prose(it.status)) for it in commands],
        ".SH EXAMPLES", shown(whole.examples)]
    return "\n".join(told) + "\n"
