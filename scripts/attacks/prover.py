"""Trials by the prover: many edits in one check of a crate, no function twice, over the kept proofs."""
from scripts.attacks.edits import BadEdit
from scripts.attacks.record import Outcome
from scripts.attacks.said import is_in


class Round:
    """Edits that are tried in one check: no function is edited twice."""

    def __init__(self, room):
        self.room, self.edits, self.texts = room, {}, {}

    def take(self, edit):
        """Takes the edit in where it goes with those that are there, and says whether it did."""
        try:
            texts, functions = edit.over(self.room.folder, self.texts)
        except BadEdit:
            return False
        if taken(functions) & {it for others in self.edits.values() for it in taken(others)}:
            return False
        self.texts, self.edits[edit] = texts, functions
        return True

    def without(self, edits):
        """The round without these edits."""
        left = type(self)(self.room)
        for edit in self.edits:
            if edit not in edits:
                left.take(edit)
        return left

    def faulty(self, said):
        """The edits by whose functions a check didn't come to the proofs."""
        lines = [(it[1], int(it[2])) for it in said.unread(())]
        return [edit for edit, functions in self.edits.items() if any(is_in(functions, *line) for line in lines)]

    def refusals(self, said):
        """The edits whose functions a check refuses by their own lines, with what tells it."""
        seen = {edit: said.refusal_of(self.room.crate, functions) for edit, functions in self.edits.items()}
        return {edit: refusal for edit, refusal in seen.items() if refusal}

    def tried(self):
        """What came of each edit of which the check tells it."""
        said = self.room.check(self.texts)
        faulty = self.faulty(said)
        return self.tried_in_parts(faulty) if faulty or not said.is_judged else self.told(said)

    def told(self, said):
        """What this check tells of each edit."""
        raise NotImplementedError

    def tried_in_parts(self, faulty):
        """The same without those that can't be read, or by halves where none of them is known."""
        edits, half = list(self.edits), len(self.edits) // 2
        parts = [self.without(it) for it in ([faulty] if faulty else [edits[:half], edits[half:]])]
        return {edit: outcome for part in parts if 0 < len(part.edits) < len(edits) for edit, outcome in part.tried().items()}


class RoundToRefuse(Round):
    """Edits that the prover has to refuse."""

    def told(self, said):
        """The outcome of each edit that is refused by its own lines."""
        return {edit: refused(edit, *refusal) for edit, refusal in self.refusals(said).items()}

    @staticmethod
    def alone(room, edit):
        """What came of an edit that is checked by itself."""
        texts, _ = edit.over(room.folder, {})
        said = room.check(texts)
        if said.is_proved:
            return Outcome.FAILED, "NOT REFUSED: the crate is proved with it"
        expect_judged(said, texts)
        if not said.refusal():
            raise BadEdit(f"no goal of it was judged: {' '.join(it[0] for it in said.verdicts if 'no proof' in it[2]) or said.lines[-1]}"[:300])
        return refused(edit, *said.refusal())


class RoundToProve(Round):
    """Edits that a test has to catch, so that the prover has to let them pass."""

    def told(self, said):
        """All of them are proved where the crate is, and else those that aren't refused by their own lines are tried again without these."""
        if said.is_proved:
            return {edit: PROVED for edit in self.edits}
        seen = {edit: not_proved(line) for edit, (_, line) in self.refusals(said).items()}
        return {**seen, **self.tried_in_parts(list(seen))}

    @staticmethod
    def alone(room, edit):
        """What came of an edit that is checked by itself."""
        texts, _ = edit.over(room.folder, {})
        said = room.check(texts)
        if said.is_proved:
            return PROVED
        expect_judged(said, texts)
        return not_proved(said.why())


PROVED = (Outcome.PROVED, "proved, as it has to be")


def not_proved(line):
    """What came of an edit that a test has to catch, and that the prover refuses by this line."""
    return Outcome.FAILED, f"NOT PROVED, so it is no edit for a test: {line}"


def refused(edit, is_meant, line):
    """What came of an edit that the prover refuses by this line."""
    if is_meant:
        return Outcome.REFUSED, f"refused{', and not for its shape' if edit.is_shape else ''}: {line}"
    return Outcome.SHAPE, f"refused, for its shape{'' if edit.is_shape else ' alone, and its first line does not say so'}: {line}"


def expect_judged(said, texts):
    """Fails where these texts did not reach the prover."""
    unread = said.unread(texts)
    if unread or not said.is_judged:
        raise BadEdit(f"it did not reach the prover: {unread[0][0] if unread else ' '.join(said.lines[-4:])}"[:300])


def taken(functions):
    """What no other edit of a round may change: the functions, and the cycles of calls that they are in."""
    return {it.cycle or place for place, it in functions.items()}


def rounds_of(kind, room, edits):
    """The edits by rounds of this kind, and those that have to be tried alone."""
    rounds, alone = [], []
    for edit in edits:
        try:
            _, functions = edit.over(room.folder, {})
        except BadEdit:
            functions = {}
        if not functions:
            alone.append(edit)
        elif not any(it.take(edit) for it in rounds):
            rounds.append(kind(room))
            rounds[-1].take(edit)
    return [it for it in rounds if len(it.edits) > 1], alone + [edit for it in rounds if len(it.edits) == 1 for edit in it.edits]


def tried_alone(kind, room, edit):
    """What came of an edit that is checked by itself, or why it tries nothing."""
    try:
        return kind.alone(room, edit)
    except BadEdit as error:
        return Outcome.FAILED, f"BAD EDIT: {error}"


def tried_by_the_prover(kind, room, edits, tell):
    """Tries the edits, by rounds of this kind and then alone, and tells what came of each."""
    rounds, alone = rounds_of(kind, room, edits)
    for it in rounds:
        seen = it.tried()
        for edit, outcome in seen.items():
            tell(edit, *outcome)
        alone += [edit for edit in it.edits if edit not in seen]
    for edit in alone:
        tell(edit, *tried_alone(kind, room, edit))
