"""Processor seconds of runs, bounded beside those of known work: what a busy or a slow machine does to the one it does to the other."""
import array
import resource
import time

from lib.program import run

# The work: the steps of a walk, over places that a processor's caches hold, and the looks at as many places of a table of this size, of which memory holds
# the most: a machine may be slow at the one alone. Both take about a thirtieth of a second on a machine of today with nothing beside it.
STEPS, PLACES = 400000, 4096
LOOKS, TABLE = 160000, 1 << 23

# How many times the known work is done, of which the fewest seconds count.
TRIES = 3


def walk():
    """A walk that no machine can shorten: each place tells the next."""
    places, at = [(number * 1664525 + 1013904223) % PLACES for number in range(PLACES)], 0
    for step in range(STEPS):
        at = (places[at] + step) % PLACES
    return at


def look(table, places):
    """Looks at places of a table."""
    return sum(map(table.__getitem__, places))


def fewest(work, *what):
    """The processor seconds of a piece of work, the fewest of some tries."""
    tries = []
    for _ in range(TRIES):
        begin = time.process_time()
        work(*what)
        tries.append(time.process_time() - begin)
    return min(tries)


def measured():
    """The processor seconds of the known work now: of the walk, or of the looks where these take longer."""
    table, places = array.array("q", bytes(8 * TABLE)), [number * 2654435761 % TABLE for number in range(LOOKS)]
    return max(fewest(walk), fewest(look, table, places))


class Pace:
    """The processor seconds of the known work: the most that were measured yet, since a machine may become slower meanwhile."""

    seconds = 0.0

    @classmethod
    def measure(cls):
        """Measures once more."""
        cls.seconds = max(cls.seconds, measured())
        return cls.seconds


def unit():
    """The processor seconds of the known work."""
    return Pace.seconds or Pace.measure()


def children():
    """The processor seconds of all runs that have ended."""
    used = resource.getrusage(resource.RUSAGE_CHILDREN)
    return used.ru_utime + used.ru_stime


def timed(words, **how):
    """The outcome of a run, and its processor seconds."""
    before = children()
    outcome = run(words, **how)
    return outcome, children() - before


def excess(seconds, most):
    """What is wrong with a run of these processor seconds that may take `most` times the known work."""
    if seconds <= most * unit() or seconds <= most * Pace.measure():
        return []
    return [f"it took {seconds:.2f} s of a processor, {seconds / unit():.0f} times the known work of {unit():.3f} s, where {most} times are the most"]
