"""The parts of a script, functions named `try_NAME`: each has a folder of its own, and a script that is started with names of parts tries these alone."""
import functools
import sys
import tempfile

from lib.program import Folder, Tally


def is_asked(part):
    """Whether the words of the script name this part, or none."""
    return not sys.argv[1:] or part.__name__.removeprefix("try_") in sys.argv[1:]


def try_each(tally, parts, *more):
    """Tries these parts, each with the count, what more is given, and its folder."""
    for part in filter(is_asked, parts):
        with tempfile.TemporaryDirectory() as folder:
            part(tally, *more, Folder(folder))


def try_all(*parts):
    """Tries all parts of a script, and prints the sums."""
    tally = Tally()
    try_each(tally, parts)
    tally.finish()


def over(kind):
    """Makes a part of a function over what this kind is for a count and a folder."""
    def made(part):
        @functools.wraps(part)
        def tried(tally, files):
            part(kind(tally, files.folder))
        return tried
    return made


def as_one_test(kind, name):
    """Makes a part of a function over runs of this kind, of which one test tells."""
    def made(part):
        @functools.wraps(part)
        def tried(tally, files):
            runs = kind(files.folder)
            part(runs)
            runs.tell(tally, name)
        return tried
    return made
