#!/usr/bin/env -S python3 -B
"""What the pages show: README.md and docs/SERVICE.md the files and outputs that they quote, each crate's README.md the lines of a test, and examples/README.md
each file of the gallery. And each example that a page names is there, but for those that are missing on purpose."""
import glob
import os
import re
import subprocess

from lib.program import MOST_WAITING, PROGRAM, ROOT, Tally, contents, run
from lib.quoted import QUOTED

# What pages name to show what is printed of a file that isn't there.
LOST = {"examples/lost.rle", "examples/tables/lost.rule"}


def page(*names):
    """The text of a file of the repository."""
    return contents(os.path.join(ROOT, *names)).decode()


def in_shell(command):
    """What a command in brackets prints, such as one under limits."""
    command = command.replace("./cafile", '"$0"')
    return subprocess.run(["bash", "-c", command, PROGRAM], cwd=ROOT, capture_output=True, timeout=MOST_WAITING, check=False).stdout


def try_output(tally, said, block):
    """The first command that the paragraph names prints the block, or begins with it; or the file that it names holds the block."""
    command = re.search(r"`(\([^`]*)?\./cafile ([^`]*)`", said)
    if command:
        printed = in_shell(command[0].strip("`")) if command[1] else run(command[2].split()).printed
        tally.tell(command[0], [] if printed.startswith(block.encode()) else [f"doesn't print {block!r}"])
        return
    file = re.search(r"`(examples/[^`]*)`", said)[1]
    tally.tell(f"a page: {file}", [] if page(file) == block else ["is another text"])


def try_caller(tally, crate):
    """The lines of a crate's page stand side by side in the file that the page names after them."""
    text = page("crates", crate, "README.md")
    lines = re.search(r"^```rust\n(.*?)^```\n\nThis is from `([^`]*)`", text, re.MULTILINE | re.DOTALL)
    if not lines:
        tally.tell(f"{crate}/README.md", ["has no caller"])
        return
    source = re.sub(r"^    ", "", page("crates", crate, lines[2]), flags=re.MULTILINE)
    tally.tell(f"{crate}/README.md", [] if lines[1] in source else [f"isn't in {lines[2]}"])


def try_gallery(tally):
    """The gallery's page names each of its files, and no other."""
    named = [f"examples/{it}" for row in re.findall(r"^\| (`.*?) \|", page("examples", "README.md"), re.MULTILINE) for it in re.findall("`([^`]*)`", row)]
    there = glob.glob("examples/**/*.*", root_dir=ROOT, recursive=True)
    tally.tell("the files of the gallery", sorted({*named} ^ {*there} - {"examples/README.md"}))


def try_named_examples(tally):
    """Each example that a page names is there."""
    pages = glob.glob("*.md", root_dir=ROOT) + glob.glob("docs/*.md", root_dir=ROOT) + glob.glob("crates/*/*.md", root_dir=ROOT)
    named = {it for name in pages for it in re.findall(r"\bexamples/[\w/]+\.\w+", page(name))}
    tally.tell(f"examples that pages name: {len(named)}", sorted(it for it in named - LOST if not os.path.exists(os.path.join(ROOT, it))))


def main():
    tally = Tally()
    try_gallery(tally)
    try_named_examples(tally)
    for name in (["README.md"], ["docs", "SERVICE.md"]):
        for said, kind, block in QUOTED.findall(page(*name)):
            if not kind:
                try_output(tally, said, block)
    for crate in sorted(os.listdir(os.path.join(ROOT, "crates"))):
        if os.path.exists(os.path.join(ROOT, "crates", crate, "README.md")):
            try_caller(tally, crate)
    tally.finish()


if __name__ == "__main__":
    main()
