"""A run over the edits of some crates: the trials by the prover, and those by tests."""
import os
import tempfile
import time

from scripts.attacks.commands import Commands
from scripts.attacks.edits import COMMANDS
from scripts.attacks.prover import RoundToProve, RoundToRefuse, tried_by_the_prover
from scripts.attacks.record import Record
from scripts.attacks.rooms import Base
from scripts.attacks.trials import Trials
from scripts.repository import ROOT


class Attack:
    """A run over the edits of some crates, and what came of them."""

    def __init__(self, edits):
        self.edits, self.commands, self.record = edits, Commands(), Record()

    def parted(self, crate):
        """The edits of a crate that the prover has to refuse, and those that tests have to catch: all of commands, of which nothing is proved."""
        if crate == COMMANDS:
            return [], self.edits[crate]
        return [it for it in self.edits[crate] if not it.test], [it for it in self.edits[crate] if it.test]

    def leave_out(self, is_for_tests):
        """Leaves out the edits that tests have to catch, or all others, and tells how many."""
        for crate in list(self.edits):
            for_prover, for_tests = self.parted(crate)
            self.edits[crate], left = (for_prover, for_tests) if is_for_tests else (for_tests, for_prover)
            if left:
                self.record.say(f"{crate}: {len(left)} left out, which {'tests have to catch' if is_for_tests else 'the prover has to refuse'}")

    def try_by_the_prover(self, jobs):
        """Tries the edits by the prover, so many crates at a time."""
        with tempfile.TemporaryDirectory(prefix="attack-") as folder:
            base = Base(self.commands, self.record, ROOT, os.path.join(folder, "base"), [crate for crate in self.edits if self.edits[crate] and crate != COMMANDS])
            with self.commands.lanes(jobs) as lanes:
                for done in [lanes.submit(self.try_crate, base, crate) for crate in base.crates]:
                    done.result()

    def try_crate(self, base, crate):
        """Tries the edits of a crate by the prover."""
        began = time.time()
        with tempfile.TemporaryDirectory(prefix="attack-") as folder:
            room = base.room_of(crate, os.path.join(folder, "copy"))
            if not room:
                self.record.give_up(self.edits[crate])
                return
            for kind, edits in zip((RoundToRefuse, RoundToProve), self.parted(crate)):
                tried_by_the_prover(kind, room, edits, self.record.tell)
        self.record.say(f"{crate}: {self.record.count_of(self.edits[crate])}, by the prover in {time.time() - began:.0f} seconds")

    def try_by_tests(self, jobs):
        """Tries the edits that tests have to catch, so many at a time."""
        began, edits = time.time(), {crate: self.parted(crate)[1] for crate in self.edits if self.parted(crate)[1]}
        if not edits:
            return
        with tempfile.TemporaryDirectory(prefix="attack-") as folder:
            Trials(self.commands, self.record, folder, jobs).run(ROOT, [it for found in edits.values() for it in found])
        for crate, found in edits.items():
            self.record.say(f"{crate}: {self.record.count_of(found)}")
        self.record.say(f"trials by tests took {time.time() - began:.0f} seconds")
