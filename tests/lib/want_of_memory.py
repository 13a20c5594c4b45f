"""What a run may come to where memory is refused, held against what it comes to with ample memory."""
import re

from lib.program import Outcome, fault

NO_MEMORY = fault("memory")

# The lines after which a note is always given where it is asked for, and those whose note may lack its faulty line.
ALWAYS_NOTED = re.compile(rb"line [0-9]+: (no, cells differ|refused, no file|refused, bad table: )")

MAY_LACK_LINE = re.compile(rb"line [0-9]+: refused, bad pattern: macrocell ")


def changed_line(ample, outcome):
    """The place of the one line that became `refused, memory`, where just that changed; else None."""
    wanted, got = ample.printed.splitlines(), outcome.printed.splitlines()
    changed = [at for at, (one, other) in enumerate(zip(wanted, got)) if one != other]
    if len(wanted) != len(got) or len(changed) != 1 or outcome.complaint or outcome.status != 2:
        return None
    number = wanted[changed[0]].split(b":")[0]
    return changed[0] if got[changed[0]] == number + b": refused, memory" else None


def needs_no_memory(line):
    """Whether a claim's ample answer says that a file is missing, or that a rule file or an RLE doesn't read: macrocell's nodes are kept as they are read."""
    return any(b": refused, " + cause in line for cause in (b"no file", b"bad table", b"bad pattern: rle"))


def is_not_read(line):
    """Whether a claim's ample answer says that a file is missing or doesn't read."""
    return any(b": refused, " + cause in line for cause in (b"no file", b"bad table", b"bad pattern"))


def first_refused(ample, outcome):
    """The place of the first line that isn't as with ample memory, where it became `refused, memory`; else None."""
    for at, (one, other) in enumerate(zip(ample.printed.splitlines(), outcome.printed.splitlines())):
        if one != other:
            return at if other == one.split(b":")[0] + b": refused, memory" else None
    return None


def judged(ample, outcomes, for_good=None):
    """What is wrong with the outcomes of a sweep over a claim text, and what came of them. Where those of one that goes on are given, they tell whether each
    claim can be refused."""
    complaints, refused, ends, ends_between = [], [], 0, 0
    for number, outcome in outcomes.items():
        at = changed_line(ample, outcome)
        if outcome == NO_MEMORY:
            ends += 1
        elif at is not None:
            ends_between, ends = ends_between + (ends if refused else 0), 0
            if refused and at < refused[-1]:
                complaints.append(f"allocation {number}: {outcome.printed!r} comes after a later claim")
            refused.append(at)
        elif outcome != ample:
            complaints.append(f"allocation {number}: {outcome}")
    lines = ample.printed.splitlines()
    kept = next((at for at, line in enumerate(lines) if not is_not_read(line)), len(lines))
    may_be = None if for_good is None else {*refused, *(first_refused(ample, it) for it in for_good.values())}
    for at, line in enumerate(lines):
        if (needs_no_memory(line) or at > kept) and at in refused:
            complaints.append(f"{line!r}: refused for lack of memory")
        if may_be is not None and not needs_no_memory(line) and at not in may_be:
            complaints.append(f"{line!r}: never refused for lack of memory")
    if ends_between:
        complaints.append(f"{ends_between} runs ended whole between two claims")
    whole = sum(outcome == NO_MEMORY for outcome in outcomes.values())
    return complaints, f"{len(outcomes)} allocations refused: {whole} times cafile: memory, {len(refused)} times one line"


def answers_in(printed):
    """The lines of the verdicts in what an explained run of one text prints, each with the lines of its note and of what helps, where it has them."""
    answers = []
    for line in printed.splitlines(keepends=True):
        if line.startswith(b"  "):
            answers[-1] = (answers[-1][0], answers[-1][1] + line)
        else:
            answers.append((line, b""))
    return answers


def lesser(answer):
    """What may be printed in place of an answer where memory is refused: that, and unless the note is promised the line without it, or the note without its
    faulty line, or without its rule, and then without what helps."""
    line, note = answer
    told = {(line.split(b":")[0] + b": refused, memory\n", b"")}
    if not ALWAYS_NOTED.match(line):
        told.add((line, b""))
    if MAY_LACK_LINE.match(line):
        told.add((line, re.sub(rb", line [0-9]+\n", b"\n", note)))
    if b": refused, bad rule: " in line:
        told.add((line, re.sub(rb": rule .*\n(  try: .*\n)?$", b"\n", note)))
    return told


def after_text(before, answer):
    """The lines of an answer and its note, each after this."""
    return b"".join(before + line for part in answer for line in part.splitlines(keepends=True))


def outcome_of(texts, complaint=b""):
    """What a run over these texts prints, given by what stands before their lines and their answers."""
    printed = b"".join(after_text(before, answer) for before, answers in texts for answer in answers)
    status = 2 if complaint or b": refused, " in printed else int(b": no, " in printed)
    return Outcome(printed, complaint, status)


def allowed(texts):
    """All that a run may come to where one allocation is refused: of one text, or of several, each with its path before its lines."""
    outcomes = {outcome_of(texts), NO_MEMORY}
    for at, (before, answers) in enumerate(texts):
        others = (texts[:at], texts[at + 1:])
        if before:
            outcomes.add(outcome_of([*others[0], *others[1]], b"cafile: " + before + b"memory\n"))
        for place, answer in enumerate(answers):
            for instead in lesser(answer):
                outcomes.add(outcome_of([*others[0], (before, [*answers[:place], instead, *answers[place + 1:]]), *others[1]]))
    return outcomes


def consists_of(texts, outcome):
    """Whether each text is reported as out of memory, or each of its answers is its own or what may be printed in its place."""
    lost = [before for before, _ in texts if b"cafile: " + before + b"memory\n" in outcome.complaint]
    rest = outcome.printed
    for before, answers in texts:
        for answer in answers if before not in lost else []:
            may_be = {after_text(before, it) for it in {answer, *lesser(answer)}}
            fits = [it for it in may_be if rest.startswith(it)]
            if not fits:
                return False
            rest = rest[len(max(fits, key=len)):]
    told = b"".join(b"cafile: " + before + b"memory\n" for before in lost)
    status = 2 if told or b": refused, " in outcome.printed else int(b": no, " in outcome.printed)
    return not rest and (outcome.complaint, outcome.status) == (told, status)
