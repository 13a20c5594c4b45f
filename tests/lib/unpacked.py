"""What ./dist packs of a small repository, unpacked elsewhere, and what the help of its program lists."""
import os
import re
import shutil
import subprocess

from lib.program import Folder, Outcome, contents
from lib.checked_repository import FASTER, TIME, CheckedRepository

# An option's line in a list of help: its short name, its name, its value, and its possible values.
OPTION = re.compile(r"^ +(?:(-\w), )?(--[a-z-]+)(?: <([A-Z,]+)>)?  .*?(?:\[possible values: (.*)\])?$", re.MULTILINE)


class Unpacked(Folder):
    """What ./dist packs, unpacked where the repository isn't."""

    def __init__(self, tally, room):
        self.tally = tally
        repository = CheckedRepository(room)
        self.commit = repository.git("rev-parse", "HEAD")
        repository.check()
        repository.build(FASTER)
        self.outcome = repository.dist()
        if self.outcome.status != 0:
            raise RuntimeError(f"./dist: {self.outcome}")
        self.archive = contents(repository.path("out/" + "".join(repository.archives())))
        self.again = self.pack_again(repository, room)
        elsewhere = os.path.join(room, "elsewhere")
        os.mkdir(elsewhere)
        subprocess.run(["tar", "xz"], input=self.archive, cwd=elsewhere, check=True)
        shutil.rmtree(repository.folder)
        super().__init__(os.path.join(elsewhere, "".join(os.listdir(elsewhere))))
        self.helps = self.read_helps()

    @staticmethod
    def pack_again(repository, room):
        """The archive of a copy in another folder, of files of another age and mode, for another user in another place."""
        copied = os.path.join(room, "copied", "another folder")
        shutil.copytree(repository.folder, copied)
        for name in repository.git("ls-files").split("\n"):
            os.utime(os.path.join(copied, name), (TIME + 7, TIME + 7))
        made = os.path.join(copied, "out", "".join(repository.archives()))
        os.remove(made)
        known = repository.known(TZ="Asia/Tokyo", USER="someone", LOGNAME="someone", LC_ALL="C")
        subprocess.run(["sh", "-c", 'umask 077; exec "$0"', os.path.join(copied, "dist")], env=known, cwd="/", stdout=subprocess.DEVNULL, check=False)
        return contents(made)

    def run(self, command, **more):
        """The outcome of a command in a shell, here."""
        known = {"PATH": os.environ["PATH"], "HOME": os.path.dirname(self.folder), **more}
        how = {"cwd": self.folder, "env": known, "stdin": subprocess.DEVNULL, "stdout": subprocess.PIPE, "stderr": subprocess.PIPE, "timeout": 600}
        ran = subprocess.run(["bash", "--norc", "-e", "-c", command], check=False, **how)
        return Outcome(ran.stdout, ran.stderr, ran.returncode)

    def read_helps(self):
        """The help of each command by its name, that of the program by none."""
        whole = self.run("./cafile --help").printed.decode()
        names = re.findall(r"^  ([a-z]+) ", whole.partition("\nCommands:\n")[2].partition("\n\n")[0], re.MULTILINE)
        return {"": whole, **{it: self.run(f"./cafile {it} --help").printed.decode() for it in names if it != "help"}}

    def commands(self):
        """The names of the commands."""
        return [*[it for it in self.helps if it], "help"]

    def options(self, name):
        """The options that the help of a command lists: their short name, name, value, and possible values."""
        return OPTION.findall(self.helps[name].partition("\nOptions:\n")[2].partition("\n\n")[0])

    def option_names(self, name):
        """The names of these options."""
        return sorted(it for option in self.options(name) for it in option[:2] if it)

    def value_of(self, name):
        """The name of the value that a command takes beside its options."""
        return re.search(r"^  <([A-Z]+)>", self.helps[name].partition("\nArguments:\n")[2], re.MULTILINE)[1]

    def paths(self, value):
        """What may be completed as a value of this name after `examples/`."""
        found = [f"examples/{it}" for it in os.listdir(self.path("examples"))]
        if value == "DIR":
            return sorted(it for it in found if os.path.isdir(self.path(it)))
        return sorted(found) if value in ("FILE", "CLAIMS", "RULEFILE") else []
