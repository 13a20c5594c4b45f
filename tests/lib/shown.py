"""The lines of progress, where each look at the clock finds it a given number of milliseconds further."""

# Goes back to the line's begin, and erases it.
WIPE = b"\r\x1b[K"


def digits(count):
    """The generations that are reached one after another where a plane is leapt over: a further binary digit of their number each, beginning with none."""
    reached = [0]
    for at in range(count.bit_length()):
        if count >> at & 1:
            reached.append(count % (2 << at))
    return count, reached


def shown_of(heading, runs, milliseconds):
    """What is shown of a claim or a file, after this heading."""
    lines, looks = [], 0
    for generations, reached in runs:
        for it in reached:
            looks += 1
            if looks * milliseconds >= 1000:
                lines.append(heading + b": %d of %d generation%s" % (it, generations, b"s" * (generations != 1)))
    return b"".join(WIPE + it for it in lines) + (WIPE if lines else b"")


# How many generations are looked at one by one, and how many a stride has.
ONE_BY_ONE = 512


def looked_at_before(generations, limit):
    """How many generations were looked at before each look of `identify` at a plane that it looks at for so many: all by one, or later by strides."""
    return [*range(min(generations, ONE_BY_ONE)), *(min(it + ONE_BY_ONE, limit) - 1 for it in range(ONE_BY_ONE, generations, ONE_BY_ONE))]


def identified_shown(path, limit, generations, milliseconds, begun=0):
    """What `identify` shows of a file, which it looks at for `generations`, beginning `begun` after the pattern: each time that the run to there has reached is
    shown after a second, and then, at most twice a second, how many were looked at; the first look is before the first of them."""
    lines, last, time_now = [], None, 0
    for reached in digits(begun)[1][1:]:
        time_now += milliseconds
        if time_now >= 1000:
            lines.append(f"{path}: {reached} of {begun} generation{'s' * (begun != 1)}".encode())
            last = time_now
    for reached in looked_at_before(generations, limit):
        time_now += milliseconds
        if time_now >= (1000 if last is None else last + 500):
            lines.append(f"{path}: {reached} of {limit} generations".encode())
            last = time_now
    return b"".join(WIPE + it for it in lines) + (WIPE if lines else b"")
