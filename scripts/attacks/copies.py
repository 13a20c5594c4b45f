"""Copies of the repository, in which edits are made and tried."""
import os
import shutil

from scripts.attacks.edits import read, write


def link_or_copy(source, target):
    """Gives a file of a built library a second name, since `rt` makes such a file anew and never writes into it; or copies it, where it can't be linked."""
    try:
        os.link(source, target)
    except OSError:
        shutil.copy2(source, target)


def copy_of(root, to, kept):
    """Copies the repository's sources, and of each crate's out/ the parts that are kept of it."""
    shutil.copytree(root, to, symlinks=True, ignore=shutil.ignore_patterns("out", ".git"))
    for crate, part in [(crate, part) for crate, parts in kept.items() for part in parts]:
        source, target = (os.path.join(it, "crates", crate, "out", part) for it in (root, to))
        os.makedirs(os.path.dirname(target), exist_ok=True)
        if os.path.isdir(source):
            shutil.copytree(source, target, symlinks=True, copy_function=link_or_copy if part == "rlib" else shutil.copy2)
        elif os.path.exists(source):
            shutil.copy2(source, target)


def files_of(folder):
    """The files below a folder, by their paths in it, with their sizes and times."""
    found = {}
    for at, _, names in os.walk(folder):
        for name in names:
            about = os.stat(os.path.join(at, name))
            found[os.path.relpath(os.path.join(at, name), folder)] = about.st_size, about.st_mtime_ns
    return found


def restore(kept, folder):
    """Makes a folder again what was kept of it: what has another size or time is copied, and what is new is taken away."""
    wanted, there = files_of(kept), files_of(folder)
    for path in there.keys() - wanted.keys():
        os.remove(os.path.join(folder, path))
    for path in (it for it in wanted if there.get(it) != wanted[it]):
        os.makedirs(os.path.dirname(os.path.join(folder, path)), exist_ok=True)
        shutil.copy2(os.path.join(kept, path), os.path.join(folder, path))


def over(folder, texts, call):
    """What the call gives while the files of a crate's folder have these texts."""
    originals = {file: read(os.path.join(folder, file)) for file in texts}
    try:
        for file, text in texts.items():
            write(os.path.join(folder, file), text)
        return call()
    finally:
        for file, text in originals.items():
            write(os.path.join(folder, file), text)
