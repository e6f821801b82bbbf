"""Checks the rows that puffin-look prints of a file that no program writes: its names are of all letters, times are before 0, and
numbers are so great that JSON has them as strings."""

from . import diffs, listings, readings, slow_frames, tops, traces
from .forms import EXACT
from .sources import Source

NAMES = 200
LEAST, GREATEST = -(2**63), 2**63 - 1


def threads_of(names):
    """For each name a thread, some without a start, with a scope of this name and in it one of another name."""
    for at, name in enumerate(names):
        first = (-1) ** at * at * 2**50
        inner = traces.scope((at + 1) % len(names) + 1, first, first + at)
        scopes = traces.scope(at + 1, first, first + at * at, names[-at].encode(), inner)
        yield (first if at % 3 else None), name, scopes, 2 * at, first, first + at * at


def order(thread):
    start, name, *_ = thread
    return (start is not None, start or 0, name.encode())


def source():
    names = list(dict.fromkeys(traces.random_names()))[:NAMES]
    wide, slower = (len(names) + it for it in (1, 2))
    first = traces.scope(wide, 0, EXACT) + traces.scope(slower, 0, 2)
    whole = traces.scope(wide, LEAST, -1, b"", traces.scope(slower, LEAST, LEAST + 2**62))
    packets = [
        traces.packet(0, -EXACT, EXACT, EXACT, sorted(threads_of(names), key=order), [*names, "wide", 'slo\\"wer']),
        traces.packet(EXACT, -EXACT - 1, -1, EXACT + 1, [(7, "main", first, 2**64 - 1, 0, EXACT)], []),
        traces.packet(EXACT + 1, 0, EXACT + 1, 1234, [(7, "main", traces.scope(wide, 0, EXACT + 1), 3, -EXACT - 1, 0)], []),
        traces.packet(2**63, LEAST, -1, 2**64 - 1, [(None, "\x7f", whole, 1000, LEAST, GREATEST)], []),
    ]
    data = b"PUF0" + b"".join(packets)
    return Source(data, readings.in_file(data))


def faults_in_extremes(program, _source):
    """What differs from a reading of the file, and between its first frames and all of them."""
    it = source()
    faults = listings.faults_in_threads(program, it) + listings.faults_in_frames(program, it)
    faults += slow_frames.faults_in_slowest(program, it) + tops.faults_in_top(program, it, None, "total", None, True)
    first = diffs.beginning(it)
    return faults + diffs.faults_in_pair(program, first, it, None) + diffs.faults_in_pair(program, it, first, None)


CHECKS_OF_NAMES = {"rows_of_extremes": faults_in_extremes}
