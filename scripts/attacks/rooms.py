"""Copies in which the prover checks crates, over the proofs that are kept of them."""
import os
import threading

from scripts.attacks.copies import copy_of, over, restore
from scripts.attacks.said import Said
from scripts.repository import crates_below, read_lines

INCREMENTAL = os.path.join("out", "incremental")


class Room:
    """A copy in which a crate's edits are tried, each time over the same kept proofs."""

    def __init__(self, commands, copy, crate, kept=None):
        self.commands, self.crate, self.kept = commands, crate, kept
        self.folder = os.path.join(copy, "crates", crate)

    def check(self, texts):
        """What the check says of the crate with these texts."""
        if self.kept:
            restore(self.kept, os.path.join(self.folder, INCREMENTAL))
        jobs = os.environ.get("RT_JOBS")
        return over(self.folder, texts, lambda: self.check_now(["--jobs", jobs] if jobs else []))

    def check_now(self, flags=()):
        """What the check says of the crate as it is."""
        return Said(*self.commands.run(["rt", "check", *flags], self.folder))


class Base:
    """A copy with what is kept of the proofs of some crates, and with what is built of those below, before any edit."""

    def __init__(self, commands, record, root, copy, crates):
        self.commands, self.record, self.copy, self.crates, self.lock = commands, record, copy, crates, threading.Lock()
        lines = read_lines()
        self.below = {crate: crates_below(lines, crate) for crate in crates}
        kept = {it: ["rlib"] for below in self.below.values() for it in below}
        copy_of(root, copy, {**kept, **{crate: kept_of(root, crate) for crate in crates}})

    def room_of(self, crate, copy):
        """Another copy, for the edits of a crate, or nothing where it isn't proved before any edit."""
        with self.lock:
            room = Room(self.commands, self.copy, crate)
            said = room.check_now()
            if not said.is_proved:
                self.record.say(f"{crate}: not proved before any edit: {said.why()}", is_fault=True)
                return None
            copy_of(self.copy, copy, {crate: ["incremental"], **{it: ["rlib"] for it in self.below[crate]}})
            return Room(self.commands, copy, crate, os.path.join(room.folder, INCREMENTAL))


def kept_of(root, crate):
    """What is kept in the folder out/ of a crate, without the unproved program."""
    out = os.path.join(root, "crates", crate, "out")
    return [it for it in os.listdir(out) if it != "unproved"] if os.path.isdir(out) else []
