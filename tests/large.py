"""Large files, and little memory: what the runs of programs over a file's records share."""
import os
import re
import resource
from pathlib import Path

from golden import end_of
from telling import tells

# The file that is read, in the folder of the run.
FILE = "large"
BIG = 64 << 20
SMALL = 256 << 10
# A path of 20 MB: 300 nodes of the greatest length, and the end node.
LONG = (b"\xa0\xb0\xff\xff" + bytes(65531)) * 300 + b"\x7f\xff\x04\x00"
# The first limit on a run's memory, under which no program starts, and the step to the next.
LEAST_MEMORY = 2 << 20
MORE_MEMORY = 16 << 10
# What Rust's library says, before `main`, if it has no memory for the stack that a handler of signals has; and if it has
# none for the beginning of this message either.
NO_STACK = b"failed to allocate an alternative stack: "
BEFORE_MAIN = NO_STACK, b"memory allocation of %d bytes failed" % len(NO_STACK)


def repeated(one, two, count):
    """The bytes or lines that have an item so many times, where the first two have it once and twice."""
    start = len(os.path.commonprefix([one, two]))
    item = two[start : start + len(two) - len(one)]
    return one[:start] + item * (count - 1) + one[start:]


def counted_on(one, two, count):
    """A text whose numbers grow by as much with each item as they do from the first to the second text."""
    def grown(pair):
        step = int(pair[1]) - int(pair[0])
        return b"%d" % (int(pair[0]) + (count - 1) * step) if step else pair[0]

    numbers = map(grown, zip(re.findall(rb"\d+", one), re.findall(rb"\d+", two)))
    return re.sub(rb"\d+", lambda _: next(numbers), one)


class Large:
    """A file with as many items as a size has room for, and its listing, by the cases that have one and two."""

    def __init__(self, one, two, size=BIG):
        count = 1 + (size - len(one.stdin)) // (len(two.stdin) - len(one.stdin))
        command, _, *args = (counted_on(*it, count) for it in zip(one.args, two.args))
        self.words, self.bytes = [command, FILE, *args], repeated(one.stdin, two.stdin, count)
        status, first, _ = one.end()
        first, second = first.splitlines(True), two.end()[1].splitlines(True)
        # Where no line comes with an item, the last one may have the item's bytes; else it may have a count.
        ended = repeated if len(first) == len(second) else counted_on
        lines = repeated(first[:-1], second[:-1], count) + [ended(first[-1], second[-1], count)]
        self.expected = status, b"".join(lines), b""
        Path(FILE).write_bytes(self.bytes)


def within(limit):
    """How a run has no more memory than this."""
    return {"preexec_fn": lambda: resource.setrlimit(resource.RLIMIT_AS, (limit, limit))}


def ends_by_memory(program, words, failures):
    """What a program ends with under each limit on its memory, from the first under which it starts to the first under
    which it ends without one of these failures."""
    ends = []
    for limit in range(LEAST_MEMORY, BIG, MORE_MEMORY):
        end = end_of(program, words, **within(limit))
        # Under the least limits the loader can't load the C library, and ends with the status 127.
        if not ends and end[0] == 127 or any(it in end[2] for it in BEFORE_MAIN):
            continue
        ends.append(end)
        if end not in failures:
            break
    return ends


def ends_well(name, ends, expected, failure):
    """Whether a run lists under some limit on its memory, and under lower ones ends with a failure, once with this one."""
    return tells(f"{name} under each limit on its memory", (ends[-1:], failure in ends), ([expected], True))
