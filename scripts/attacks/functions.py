"""The functions of a source, with the lines of their bodies and the names by which the checker knows them."""
import functools
import re

# The head of a function and of what holds it, and the attribute of those that call one another.
FUNCTION = re.compile(r"( *)(?:pub(?:\([a-z]+\))? )?(?:const )?fn (\w+)")
OWNER = re.compile(r"( *)(?:pub(?:\([a-z]+\))? )?(?:trait (?P<trait>\w+)|impl(?:<(?:[^<>]|<[^<>]*>)*>)? (?P<impl>.*))")
CYCLE = re.compile(r" *#\[cycle\((\w+)\)\]")


class Function:
    """A function of a source, by the lines of its body, counted from 1."""

    def __init__(self, pattern, cycle, head, first, last):
        self.pattern, self.cycle = pattern, cycle
        self.head, self.first, self.last = head, first, last

    def has(self, name):
        """Whether this is a name of the function, of a closure in it, or of the cycle of calls that it is in."""
        return bool(self.pattern.fullmatch(name))


def type_name(text):
    """The name of a type or trait in those of the checker, which names `[u8; 4]` as `ArrayU84` and `(Id, u8)` as `Tuple2IdU8`."""
    array = re.match(r"\[(\w+); (\w+)\]", text)
    if array:
        return f"Array{array[1].capitalize()}{array[2]}"
    members = re.match(r"\((\w+(?:, \w+)+)\)", text)
    if members:
        names = members[1].split(", ")
        return f"Tuple{len(names)}" + "".join(it[0].upper() + it[1:] for it in names)
    return re.match(r"&?(?:\w+::)*(\w+)", text)[1]


def owner_of(match):
    """The name under which the checker knows the functions of a trait or an `impl`."""
    if match["trait"]:
        return match["trait"]
    names = [type_name(part) for part in match["impl"].split(" for ")]
    return names[0] if len(names) == 1 else rf"{names[1]}{names[0]}\w*"


def pattern_of(crate, file, owner, name, cycle):
    """The whole names of a function and of its closures, and of what proves it where it is in a cycle of calls."""
    modules = [it for it in file[:-len(".rt")].split("/")[1:] if it not in ("lib", "main")]
    path = r"(?:\w+::)*" if owner else "".join(f"{it}::" for it in modules)
    holder = f"{owner}::" if owner else ""
    joint = rf"|(?:\w+::)*\+{cycle}" if cycle else ""
    return re.compile(rf"{crate}::(?:{path}{holder}\+?{name}|{path}fn::{holder}{name}::.*{joint})")


def body_of(lines, head, indent):
    """The first and the last line of the body of a function whose head is this line: one line where it has none. Sources are laid out by `rt fmt`."""
    opens = re.compile(rf" {{{indent}}}(?:(?:\S.*)?(?:\{{|\{{\}})|(?: {{4}})?\S.*;)$")
    first = next((at for at in range(head, len(lines)) if opens.match(lines[at])), head)
    if not lines[first].endswith("{"):
        return first, first
    return first, next((at for at in range(first, len(lines)) if lines[at] == " " * indent + "}"), first)


@functools.lru_cache(maxsize=None)
def functions_of(crate, file, text):
    """The functions of a source."""
    lines, owners, functions, cycle = text.split("\n"), [], [], None
    for at, line in enumerate(lines):
        owner, function, joint = OWNER.match(line), FUNCTION.match(line), CYCLE.match(line)
        if joint:
            cycle = joint[1]
        elif owner:
            owners.append((len(owner[1]), owner_of(owner)))
        elif function:
            indent = len(function[1])
            held = owners[-1][1] if owners and owners[-1][0] < indent else None
            first, last = body_of(lines, at, indent)
            pattern = pattern_of(crate, file, held, function[2], cycle)
            functions.append(Function(pattern, cycle, at + 1, first + 1, last + 1))
            cycle = None
    return functions
