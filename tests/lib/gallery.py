"""The pattern files and rule files of examples/, which the pages walk through, and of tests/files/, which tests alone use."""
import glob
import os

from lib.program import ROOT

FOLDERS = ("examples", "tests/files")


def found(*patterns):
    """The paths of the files that fit these patterns, pattern by pattern, and in the order of what follows the folder's name."""
    paths = []
    for pattern in patterns:
        fits = [(path, folder) for folder in FOLDERS for path in glob.glob(pattern, root_dir=os.path.join(ROOT, folder), recursive=True)]
        paths += [f"{folder}/{path}" for path, folder in sorted(fits)]
    return paths
