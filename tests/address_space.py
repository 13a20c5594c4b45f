#!/usr/bin/env -S python3 -B
"""A limit of address space, as a service sets it by `ulimit -v`, and files of each kind that need more.

- Where the squares of a claim need more, that claim is refused for lack of memory, and those round it are judged: of a large RLE, of a large
  macrocell and of a long run over a small file.
- Where a file's bytes, a rule file's table or a claim text need more, the text is out of memory, and other texts are judged.
- `show` and `convert` of such files print nothing and are out of memory, on standard input too.
- A large RLE is summed up and written anew in little more than its bytes and those that are written: its cells and its items aren't listed.
- Under an ample limit all is judged, and under each limit between, a line is the ample one or refused for lack of memory, or the text is out of
  memory.
- A long run whose squares need more drops them and goes on, by shorter leaps, to the plane that is known.
- One that is refused memory on its way drops squares, and reaches the plane that is known as well.
- A run that goes on in a store of its own, and needs more there for one generation, is given up, and not tried again.
- Cells that lie far from each other take some 45 squares each. `show` and `convert --to rle` need none of them for an RLE: where there is no room for them they
  sum it up and write it anew, and what needs the squares is refused as out of memory.
- `identify` remembers no more boxes of squares than may be, however many it measures.
- A census for which there is too little space is refused for it, and those round it are taken; of one that has no room for its files, none is there.
"""
import os
import random
import re
import resource
import shutil
import tempfile

from lib import rle, rows
from lib.census_files import Object, Settled, contents_of
from lib.claim_text import ClaimText, outcome, printed
from lib.macrocell import EDGE
from lib.macrocell_texts import header
from lib.planes import GROWING, distinct_leaves, explosion, far_gliders
from lib.program import Folder, Outcome, Tally, ample, fault, figures, run
from lib.table_texts import WIDE_DOT, transitions, wide_table
from lib.want_of_memory import NO_MEMORY, answers_in, consists_of
from lib.work import unit

# The bytes of address space that are too few for what is large, and those that are enough. A small claim takes less than 4 million.
SPACE, AMPLE = 9_000_000, 1_000_000_000

# The limits between, from one under which the program starts.
LEAST, RATIO = 4_000_000, 1.8

# How many gliders far apart need more squares for a generation than a store of its own has at first, and the bytes of address space that are enough for these
# squares, but not for more. How many times the known work such a run may take.
GLIDERS, ROOM, BOUND = 16000, 353_000_000, 2000

# The generations of a plane that grows in all directions, and the bytes of address space in which it is followed. Those of a longer run, and the bytes that
# don't hold as many squares as it may keep: memory is refused at generation 1559, and with a tenth more it isn't.
FOLLOWED, LITTLE = 800, 40_000_000
REFUSED, LESS = 1600, 80_000_000

# The side of a soup whose RLE takes 11.6 million bytes, and the bytes of address space in which it is summed up and written anew: its live cells take
# 139 million as a list.
LISTED_SIDE, UNLISTED = 3400, 60_000_000

# A line of progress that tells the squares that there are.
SQUARES = re.compile(rb"(\d+)\.(\d) million squares")

# The side of a soup whose squares are measured in each generation, how many generations these are, and the bytes of address space that are enough for its
# squares and for as many boxes as are remembered, but not for the boxes of all squares.
MEASURED_SIDE, MEASURED, BOXES = 1000, 32, 95_000_000

# How many blocks are in a row and in a column of a plane whose census is taken, and how much each limit for that is above the one before.
BLOCKS, FINER = 40, 1.1

# Cells that lie far from each other, the side of a soup, the generations of a small one, leaves, transitions and claims.
FAR_CELLS, SIDE, GENERATIONS, LEAVES, TRANSITIONS, CLAIMS = 10000, 2500, 700, 81920, 60000, 120000

# Cells that lie far from each other: how many there are, the bytes of address space in which their RLE is summed up and written anew, and those for which their
# squares are enough.
LISTED_CELLS, LISTED_SPACE, SQUARES_SPACE = 50000, 60_000_000, 2_000_000_000


def within(space, seconds=None):
    """How a run is started that has this much address space, and perhaps this many seconds of a processor."""
    def limit():
        resource.setrlimit(resource.RLIMIT_AS, (space, space))
        if seconds:
            resource.setrlimit(resource.RLIMIT_CPU, (seconds, seconds))

    return {"preexec_fn": limit}


def soup(side, rule):
    """An RLE of a random square, and the number of its live cells."""
    chance = random.Random(side)
    lines = [format(chance.getrandbits(side), f"0{side}b") for _ in range(side)]
    body = "$\n".join(lines).translate({ord("0"): "b", ord("1"): "o"})
    return f"x = {side}, y = {side}, rule = {rule}\n{body}!\n", sum(row.count("1") for row in lines)


def spread_cells():
    """An RLE of cells all over the plane."""
    chance, far = random.Random(0), EDGE
    return rle.tidy({(chance.randrange(-far, far), chance.randrange(-far, far)): 1 for _ in range(FAR_CELLS)}, "B3/S23", 0, 2)


def many_nodes():
    """A macrocell of leaves that are all different, and what `show` prints of it."""
    lines, cells = distinct_leaves(LEAVES, 12)
    return header("mc") + ("\n".join(lines) + "\n").encode(), figures(0, cells, "-2048 -2048 3070 2044")


def claims_round(files, name, claim, verdict):
    """A claim text of claims on small files, round one on a large file: its path, and its answers under too little space and with enough of it."""
    answers = []
    for told in ("refused, memory", verdict):
        text = ClaimText(files)
        for small in ("block", "glider", "empty"):
            text.load_path(small, f"examples/{small}.rle")
        text.load_path("large", files.path(name))
        text.load("none", "x = 0, y = 0, rule = B2/S\n!\n")
        text.claim("still block", "yes")
        text.claim(claim, told)
        text.claim("spaceship glider 4 1 1", "yes")
        text.claim(claim, told)
        text.claim("becomes empty 5 empty", "yes")
        answers.append(text.answers)
    return text.write(f"{name}.claims"), *answers


def between(tally, name, path, answers):
    """Runs under limits that grow until all is judged: nothing else is reported than what is known, but for lack of memory."""
    whole, complaints, space, outcomes = outcome(answers, False), [], LEAST, []
    while space < AMPLE and whole not in outcomes:
        outcomes.append(run(["verify", path], **within(int(space))))
        if outcomes[-1] not in (whole, NO_MEMORY) and not consists_of([(b"", answers_in(whole.printed))], outcomes[-1]):
            complaints.append(f"{int(space)} bytes: {outcomes[-1]}")
        space *= RATIO
    if whole not in outcomes[1:]:
        complaints.append("wanted some limits under which not all is judged, and one under which all is")
    tally.tell(f"{name}, {len(outcomes)} limits", complaints)


def try_claims(tally, files):
    """Claims whose squares need more, between claims on small files."""
    files.path("far.rle", spread_cells())
    files.path("nodes.mc", many_nodes()[0])
    files.path("run.rle", soup(32, "B2/S")[0])
    for name, claim, verdict in (
        ("far.rle", "becomes large 0 large", "yes"), ("nodes.mc", "still large", "no, cells differ after 1"),
        ("run.rle", f"becomes large {GENERATIONS} none", f"no, cells differ after {GENERATIONS}"),
    ):
        path, less, whole = claims_round(files, name, claim, verdict)
        tally.expect(f"a claim on {name}, too little space", run(["verify", path], **within(SPACE)), outcome(less, False))
        tally.expect(f"a claim on {name}, explained, too little space", run(["verify", "--explain", path], **within(SPACE)), outcome(less, True))
        tally.expect(f"a claim on {name}, ample space", run(["verify", path], **within(AMPLE)), outcome(whole, False))
        between(tally, f"a claim on {name}", path, whole)


def large_text(files, name, claims, rule=None):
    """A claim text on a block and a file of this name, perhaps with a rule file, its path and its answers with ample memory."""
    text = ClaimText(files)
    text.load_path("block", "examples/block.rle")
    text.load_path("large", files.path(name))
    if rule:
        text.rule_path(files.path(rule))
    for claim, verdict in (("still block", "yes"), *claims):
        text.claim(claim, verdict)
    return text.write(f"of_{name}.claims"), text.answers


def tell_text(tally, files, path, answers):
    """Runs over a text that is out of memory as a whole, alone and with a small one before or after it."""
    small, name = ClaimText(files), os.path.basename(path)
    small.load_path("block", "examples/block.rle")
    small.claim("still block", "yes")
    small_path = small.write("small.claims")
    lines, told = printed(small.answers, False, f"{small_path}: ".encode()), f"cafile: {path}: memory\n".encode()
    tally.expect(f"{name}, too little space", run(["verify", path], **within(SPACE)), NO_MEMORY)
    for paths in ((path, small_path), (small_path, path)):
        tally.expect(f"{name}, with a small text", run(["verify", *paths], **within(SPACE)), Outcome(lines, told, 2))
    tally.expect(f"{name}, ample space", run(["verify", path], **within(AMPLE)), outcome(answers, False))
    between(tally, name, path, answers)


def try_texts(tally, files):
    """Texts that are out of memory as a whole, since a file's bytes, a table or the text itself are large."""
    files.path("block.rle", "x = 2, y = 2\n2o$2o!\n")
    tell_text(tally, files, *large_text(files, "soup.rle", [("becomes large 0 large", "yes")]))
    tell_text(tally, files, *large_text(files, "dot.rle", [("still large", "no, cells differ after 1")], "wide.rule"))
    tell_text(tally, files, *large_text(files, "block.rle", [("still large", "yes")] * CLAIMS))


def try_shown(tally, files, cells):
    """`show` and `convert` of large files, which are known with ample space."""
    soup_shown = figures(0, cells, f"0 0 {SIDE} {SIDE}", "rle")
    state = figures(0, 1, "0 0 1 1", "rle", "Wide")
    rule = ["--rule", files.path("wide.rule")]
    for name, wanted, more in (("soup.rle", soup_shown, []), ("nodes.mc", many_nodes()[1], []), ("dot.rle", state, rule)):
        path = files.path(name)
        for words in (["show", path], ["convert", path, "--to", "mc"], ["convert", path, "--to", "rle"]):
            tally.expect(f"{words[0]} {name}, too little space", run([*words, *more], **within(SPACE)), NO_MEMORY)
        with open(path, "rb") as file:
            tally.expect(f"show {name} on standard input, too little space", run(["show", "-", *more], stdin=file, **within(SPACE)), NO_MEMORY)
        tally.expect(f"show {name}, ample space", run(["show", path, *more], **within(AMPLE)), wanted)


def try_unlisted_cells(tally, files):
    """`show` and `convert --to rle` of an RLE of some millions of cells, where there is no room for a list of them."""
    text, cells = soup(LISTED_SIDE, "B3/S23")
    path = files.path("unlisted.rle", text)
    tally.expect("show, no room for a list of cells", run(["show", path], **within(UNLISTED)), figures(0, cells, f"0 0 {LISTED_SIDE} {LISTED_SIDE}", "rle"))
    body = rle.folded(rle.items_of("$".join(row.rstrip("b") for row in text[:-2].split("\n", 1)[1].split("$\n")) + "!"))
    wanted = f"#CXRLE Pos=0,0\nx = {LISTED_SIDE}, y = {LISTED_SIDE}, rule = B3/S23\n{body}\n"
    tally.expect("convert, no room for a list of cells", run(["convert", path, "--to", "rle"], **within(UNLISTED)), ample(wanted.encode()))


def try_less_memory(tally, files):
    """A plane that is reached in ample space, in less, and a claim on another one that isn't; and one that is reached though memory is refused on the way."""
    plane = explosion()
    later = plane.after(GROWING, FOLLOWED)
    other, _ = later.with_changed(later.x, later.y)
    text = ClaimText(files)
    for name, it in (("first", plane), ("later", later), ("other", other)):
        text.load(name, rows.text_of(GROWING, it))
    text.claim(f"becomes first {FOLLOWED} later", "yes")
    text.claim(f"becomes first {FOLLOWED} other", f"no, cells differ after {FOLLOWED}")
    path = text.write("less.claims")
    for name, space in (("little space", LITTLE), ("ample space", AMPLE)):
        tally.expect(f"a long run, {name}", run(["verify", path], **within(space)), outcome(text.answers, False))
    text = ClaimText(files)
    for name, it in (("first", plane), ("latest", later.after(GROWING, REFUSED - FOLLOWED))):
        text.load(name, rows.text_of(GROWING, it))
    text.claim(f"becomes first {REFUSED} latest", "yes")
    tally.expect("a longer run, too little space on the way", run(["verify", text.write("longer.claims")], **within(LESS)), outcome(text.answers, False))


def try_a_store_of_its_own(tally, files):
    """A run that goes on in a store of its own has no memory for a generation there: it is given up."""
    text = ClaimText(files)
    text.load_path("block", "examples/block.rle")
    text.load("gliders", far_gliders(GLIDERS)[0])
    text.claim("still block", "yes")
    text.claim("oscillator gliders 8", "refused, memory")
    text.claim("still block", "yes")
    got = run(["verify", "--progress", text.write()], **within(ROOM, int(BOUND * unit()) + 1))
    squares = [10 * int(it[1]) + int(it[2]) for it in SQUARES.finditer(got.complaint)]
    # where some were left behind there were fewer then
    well = (got.printed, got.status) == (printed(text.answers, False), 2) and squares != sorted(squares)
    tally.tell("a store of its own, too little space", [] if well else [f"{got}, squares {squares}"])


def try_boxes(tally, files):
    """A soup whose squares are measured in each of many generations: their boxes are forgotten where they are too many."""
    before = rows.soup(random.Random(MEASURED_SIDE), MEASURED_SIDE, MEASURED_SIDE)
    later = before.after("B3/S23", MEASURED)
    path = files.path("measured.rle", rows.text_of("B3/S23", before))
    told = f"{later.population()} cells, in a box of {later.width()} by {len(later.rows)}, after {MEASURED}"
    wanted = ample(f"claims 2\nload measured {path}\n# measured: none of these within {MEASURED} generations: {told}\n".encode())
    tally.expect("boxes of many squares", run(["identify", "--limit", str(MEASURED), path], **within(BOXES)), wanted)


def try_census(tally, files):
    """A soup for whose squares there is no space, between small files; and many blocks, under limits that grow until all their files are there."""
    block, glider = (b"# %s: settles after 0 generations: 1 object, %d cells\n1 %s\n" % it for it in ((b"block", 4, b"xs4_33"), (b"glider", 5, b"xq4_153")))
    path = files.path("soup.rle")
    wanted = Outcome(block + f"# soup: {path}: memory\n".encode() + glider, b"", 2)
    tally.expect("a census of a soup, too little space", run(["census", "examples/block.rle", path, "examples/glider.rle"], **within(SPACE)), wanted)
    square = {(x, y): 1 for x in (0, 1) for y in (0, 1)}
    objects = [Object(square, "still", "", "xs4_33").moved(9 * x, 9 * y) for x in range(BLOCKS) for y in range(BLOCKS)]
    blocks, into = Settled(files.path("blocks.rle"), "blocks", objects), files.path("into")
    files.path("blocks.rle", blocks.tidy({place: 1 for it in objects for place in it.cells}))
    whole, refused, complaints, space, met = ample(blocks.counts()), Outcome(f"# blocks: {blocks.path}: memory\n".encode(), b"", 2), [], LEAST, set()
    while space < AMPLE and whole not in met:
        shutil.rmtree(into, ignore_errors=True)
        got = run(["census", blocks.path, "--into", into], **within(int(space)))
        met.add(got)
        if got not in (whole, refused, NO_MEMORY) or (contents_of(into) or {}) != (blocks.files(into) if got == whole else {}):
            complaints.append(f"{int(space)} bytes: {got}, with {len(contents_of(into) or {})} files")
        space *= FINER
    tally.tell("a census of many blocks with its files", complaints or ([] if {whole, refused} <= met else [f"no such limits, but {[*map(str, met)]}"]))


def far_cells(seed, states, count=LISTED_CELLS):
    """Cells at random places all over the plane, and at its corners."""
    chance = random.Random(seed)
    cells = {(chance.randrange(-EDGE, EDGE), chance.randrange(-EDGE, EDGE)): chance.randrange(1, states) for _ in range(count)}
    return {**cells, (-EDGE, -EDGE): 1, (EDGE - 1, EDGE - 1): states - 1}


def shown_of(cells, rule):
    """What `show` prints of an RLE of these cells."""
    columns, lines = zip(*cells)
    left, top = min(columns), min(lines)
    return figures(0, len(cells), f"{left} {top} {max(columns) - left + 1} {max(lines) - top + 1}", "rle", rule)


def try_far_cells(tally, files, rule, states):
    """Far cells of a rule: what needs no squares, and what does."""
    cells = far_cells(states, states)
    text = rle.tidy(cells, rule, 0, states)
    path = files.path(f"{states}.rle", text)
    # tidy again, though it has blanks
    loose = files.path(f"{states}.loose.rle", text.replace(b"$", b" $ ").replace(b"\n", b"\n\n"))
    for it in (path, loose):
        tally.expect(f"show, far cells of {rule}", run(["show", it], **within(LISTED_SPACE)), shown_of(cells, rule))
        tally.expect(f"to RLE, far cells of {rule}", run(["convert", it, "--to", "rle"], **within(LISTED_SPACE)), ample(text))
    tally.expect(f"to macrocell, far cells of {rule}", run(["convert", path, "--to", "mc"], **within(LISTED_SPACE)), fault("memory"))
    claims = ClaimText(Folder(tempfile.mkdtemp(dir=files.folder)))
    claims.load_path("far", path)
    claims.claim("becomes far 0 far", "refused, memory")
    tally.expect(f"a claim, far cells of {rule}", run(["verify", claims.write()], **within(LISTED_SPACE)), outcome(claims.answers, False))
    got = run(["convert", path, "--to", "mc"], **within(SQUARES_SPACE))
    written = files.path(f"{states}.mc", got.printed)
    tally.expect("there and back", run(["convert", written, "--to", "rle"], **within(SQUARES_SPACE)), ample(text))
    tally.expect("to macrocell, with ample space", Outcome(got.printed[:4], got.complaint, got.status), ample(b"[M2]"))
    tally.expect("the macrocell, of which squares are kept", run(["show", written], **within(LISTED_SPACE)), fault("memory"))


def try_many_far_cells(tally, files):
    """Nearly 7 million squares, opened and drawn."""
    cells = far_cells(1, 2, 150000)
    path = files.path("many.rle", rle.tidy(cells, "B3/S23", 0, 2))
    words = ["draw", path, "--after", "0", "--at", f"{-EDGE},{-EDGE}", "--size", "3,2", "--scale", "0"]
    tally.expect(f"{len(cells)} far cells after no generation", run(words), ample(b"o..\n...\n"))


def main():
    tally = Tally()
    with tempfile.TemporaryDirectory() as folder:
        files = Folder(folder)
        text, cells = soup(SIDE, "B3/S23")
        for name, content in (("soup.rle", text), ("wide.rule", wide_table(transitions(TRANSITIONS))), ("dot.rle", WIDE_DOT)):
            files.path(name, content)
        try_claims(tally, files)
        try_texts(tally, files)
        try_shown(tally, files, cells)
        try_unlisted_cells(tally, files)
        try_less_memory(tally, files)
        try_a_store_of_its_own(tally, files)
        try_boxes(tally, files)
        try_census(tally, files)
        try_far_cells(tally, files, "B3/S23", 2)
        try_far_cells(tally, files, "345/2/4", 4)
        try_many_far_cells(tally, files)
        missing = os.path.join(folder, "missing")
        tally.expect("a file that isn't there, too little space", run(["show", missing], **within(SPACE)), fault(f"cannot read {missing}"))
    tally.finish()


if __name__ == "__main__":
    main()
