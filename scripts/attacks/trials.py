"""Trials by tests: each edit in a copy of the sources, over a program that no proof is needed for."""
import os
import queue

from scripts.attacks.copies import copy_of, over
from scripts.attacks.edits import COMMANDS, BadEdit
from scripts.attacks.record import Outcome
from scripts.attacks.tests import NotJudged, Script, test_of


class Trials:
    """Edits that tests have to catch, so many at a time, each in a copy that no other has meanwhile."""

    def __init__(self, commands, record, folder, jobs):
        self.commands, self.record, self.folder, self.jobs = commands, record, folder, jobs
        self.plain, self.spare = os.path.join(folder, "plain"), queue.SimpleQueue()

    def run(self, root, edits):
        """Tries the tests over the plain sources, and then the edits."""
        copy_of(root, self.plain, {})
        for at in range(min(self.jobs, len(edits))):
            self.spare.put(os.path.join(self.folder, str(at)))
            copy_of(self.plain, os.path.join(self.folder, str(at)), {})
        names = sorted({str(it.test) for it in edits}, key=lambda name: name.startswith("tests/"))
        with self.commands.lanes(self.jobs) as lanes:
            # they begin in this order, so that each waits only for what has begun
            program = lanes.submit(self.make_plain) if any(it.startswith("tests/") for it in names) else None
            tests = {name: lanes.submit(self.over_the_plain, name, program) for name in names}
            for done in [lanes.submit(self.try_edit, edit, tests[str(edit.test)], program) for edit in edits]:
                done.result()

    def make_plain(self):
        """The bytes of the program of the plain sources."""
        try:
            return Script(self.commands, "").make(self.plain)
        except NotJudged as error:
            self.record.say(f"the plain sources: {error}", is_fault=True)
            raise

    def over_the_plain(self, name, program):
        """The test of this name, where it passes over the plain sources."""
        test = test_of(self.commands, self.plain, name)
        if isinstance(test, Script):
            program.result()
        try:
            failed = test.failure(self.plain)
            if failed:
                raise NotJudged(f"it fails: {failed}")
        except NotJudged as error:
            self.record.say(f"{name}: over the plain sources {error}", is_fault=True)
            raise NotJudged("it does not pass over the plain sources") from error
        self.record.say(f"{name}: passes over the plain sources")
        return test

    def try_edit(self, edit, test, program):
        """Tries an edit, and tells what came of it."""
        copy = self.spare.get()
        try:
            self.record.tell(edit, *self.outcome_of(edit, test, program, copy))
        finally:
            self.spare.put(copy)

    def outcome_of(self, edit, test, program, copy):
        """What came of an edit in this copy."""
        folder = edit.folder_in(copy)
        try:
            proven = test.result()
            texts, _ = edit.over(folder, {})
            failed = over(folder, texts, lambda: failure(edit, proven, copy, program))
        except BadEdit as error:
            return Outcome.FAILED, f"BAD EDIT: {error}"
        except NotJudged as error:
            return Outcome.FAILED, f"NOT JUDGED by {edit.test}: {error}"
        return (Outcome.CAUGHT, f"caught by {edit.test}: {failed[:160]}") if failed else (Outcome.FAILED, f"NOT CAUGHT: {edit.test} passes with it")


def failure(edit, test, copy, program):
    """The first line that tells that a test fails in an edited copy, or none where it passes. An edit of a command leaves the program as it is."""
    if edit.crate == COMMANDS:
        test.take(copy, program.result())
        return test.failure(copy)
    made = test.make(copy)
    if made and made == program.result():
        raise BadEdit("the program is the same without it")
    return test.failure(copy)
