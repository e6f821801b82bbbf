"""Checks the folded stacks that puffin-look writes against another reading of the same file.

The lines are read as flamegraph.pl reads them. They have to be those that this file makes anew from the reading's scopes, and their numbers have to add up to the durations
of the top-level scopes. Of 10,000 scopes with random names, of all bytes, each has to be in the line of its name.
"""

import re

from . import traces
from .sources import printed

RESERVED = re.compile(r"[\0-\x20;\x7f]")
# the lines of flamegraph.pl, which looks for a second number before the first
LINE = re.compile(r"^(.*)\s+?(\d+(?:\.\d*)?)$")


def folded(program, data, *thread):
    """The lines that the program writes for these bytes of a file: pairs of a path and a number."""
    lines = [LINE.match(it).groups() for it in printed(program, data, "folded", *thread).split("\n")[:-1]]
    twice = [path for path, _ in lines if LINE.match(path)]
    if twice:
        raise ValueError(f"two numbers behind {twice[0]!r}")
    return [(path, int(number)) for path, number in lines]


def shown(name):
    return RESERVED.sub("_", name)


def add(times, path, forest):
    """Adds the own times of a forest's scopes, each under its path."""
    for (name, *_), start, stop, _text, within in forest:
        inner = ";".join([*path, shown(name)])
        times[inner] = times.get(inner, 0) + stop - start - sum(it[2] - it[1] for it in within)
        add(times, [*path, shown(name)], within)


def times_of(frames, wanted):
    """The own time of each path, in the order in which the paths are met, and the durations of the top-level scopes."""
    times, total = {}, 0
    for thread in (it for frame in frames for it in frame.threads):
        if wanted in (None, thread.name):
            add(times, [], thread.scopes)
            total += sum(it[2] - it[1] for it in thread.scopes)
    return list(times.items()), total


def faults_in_paths(program, source):
    """What differs between the folded stacks and the reading, of all threads and of each."""
    threads = sorted({it.name for frame in source.frames for it in frame.threads})
    faults = []
    for wanted in [None, *threads]:
        found = folded(program, source.data, *([wanted] if wanted else []))
        times, total = times_of(source.frames, wanted)
        if found != times:
            faults.append(f"{wanted}: {found} instead of {times}")
        if sum(number for _, number in found) != total:
            faults.append(f"{wanted}: the numbers don't add up to {total}")
    return faults if len(threads) > 1 else ["too few threads"]


def faults_in_names(program, _source):
    """What differs between random names and the paths of their scopes."""
    names = traces.random_names()
    found = [path for path, _ in folded(program, traces.file_of(names, [b""] * len(names)))]
    wanted = list(dict.fromkeys(shown(name) for name in names))
    return [] if found == wanted else [f"{a!r} instead of {b!r}" for a, b in zip(found, wanted) if a != b][:3] or ["too few"]


def faults_at_pieces(program, _source):
    """What is missing where the length of a frame's details lies at the end of the 512 bytes that are read ahead, or on both sides."""
    names, places, faults = ["first", "second"], set(), []
    for count in range(256):
        data = traces.file_of(names, [b"x" * 200, b"x" * count])
        place = data.index(traces.block(b"first")) - len(b"\2\1\1\1") - 4
        if 500 <= place <= 516:
            places.add(place)
            found = [path for path, _ in folded(program, data)]
            faults += [] if found == names else [f"{found} with the length at {place}"]
    return faults if places == set(range(500, 517)) else [f"lengths at {sorted(places)}"]


CHECKS = {"folded": faults_in_paths}
CHECKS_OF_NAMES = {"paths_of_all_bytes": faults_in_names, "paths_at_pieces": faults_at_pieces}
