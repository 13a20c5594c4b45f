"""What git says of the checkout: its commit, what isn't committed, and the files of a folder."""
import os
import re
import subprocess

from scripts.repository import ROOT


def git(*words):
    """What git prints, or None where there is no git, or it fails. It answers of this folder alone, and of no repository round it."""
    known = {name: value for name, value in os.environ.items() if name not in ("GIT_DIR", "GIT_WORK_TREE", "GIT_INDEX_FILE")}
    how = {"env": {**known, "GIT_CEILING_DIRECTORIES": os.path.dirname(ROOT)}, "stdin": subprocess.DEVNULL, "stderr": subprocess.DEVNULL}
    try:
        ran = subprocess.run(["git", "--no-optional-locks", "-c", "core.quotePath=true", *words], cwd=ROOT, stdout=subprocess.PIPE, check=False, **how)
    except OSError:
        return None
    return ran.stdout.decode("utf-8", "replace") if ran.returncode == 0 else None


def find_commit():
    """The commit of the checkout, or None."""
    said = git("rev-parse", "--verify", "HEAD")
    return said.strip() if said else None


def find_changes():
    """The paths, as git quotes them, of what isn't committed, or None."""
    said = git("status", "--porcelain", "--untracked-files=normal", "--ignore-submodules=none")
    return None if said is None else [it[3:] for it in said.splitlines()]


def find_time(commit):
    """When a commit was made, in seconds since 1970."""
    return int(re.search(r"^committer .* ([0-9]+) [+-][0-9]+$", git("cat-file", "commit", commit), re.MULTILINE)[1])


def find_files(folder):
    """The paths of the files of a folder that are committed."""
    return [it for it in git("ls-files", "-z", "--", folder).split("\0") if it]
