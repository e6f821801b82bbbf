"""Checks what puffin-look prints of two files' scopes against another reading of both: a file, and its first frames."""

import pathlib
import subprocess
import tempfile

from . import forms, readings, selections, tops
from .sources import Source


def times(what):
    return {f"old_{what}": forms.TIME, f"new_{what}": forms.TIME, f"{what}_change": forms.CHANGE, f"{what}_growth": forms.GROWTH}


COLUMNS = times("own") | times("total") | dict.fromkeys(("old_calls", "new_calls"), forms.HUNDREDTHS) | {"name": forms.TEXT}


def beginning(source):
    """The first frames of a file: half of them."""
    layout = readings.Layout(source.data)
    layout.take(4)
    for _ in range(len(source.frames) // 2):
        layout.frame({})
    data = source.data[: len(source.data) - len(layout.rest)]
    return Source(data, readings.in_file(data))


def run(program, old, new, *words):
    """The status, and what is printed to standard output and error."""
    with tempfile.TemporaryDirectory() as place:
        for name, source in (("old", old), ("new", new)):
            pathlib.Path(place, name).write_bytes(source.data)
        done = subprocess.run([program, "diff", "old", "new", *words], capture_output=True, timeout=120, cwd=place)
    return done.returncode, done.stdout.decode(), done.stderr.decode()


def parts_of(frames):
    """The own time, the total and hundredths of the calls that each name has in a frame."""
    rows, count = tops.rows_of(frames, None, False), len(frames)
    sums = {name: (max(0, sum(times) - sum(nested)), sum(times), 100 * len(times)) for name, (times, nested) in rows.items()}
    return {name: tuple(it // count for it in it) for name, it in sums.items()}


def values_of(old, new):
    """What is printed of a name: of its own time, of the total, and of its calls."""
    for at in (0, 1):
        yield from (None if it is None else it[at] for it in (old, new))
        before, after = (0 if it is None else it[at] for it in (old, new))
        yield from (after - before, (after - before, before))
    yield from (None if it is None else it[2] for it in (old, new))


def change(old, new):
    before, after = (0 if it is None else it[0] for it in (old, new))
    return after - before


def rows_of(old, new, limit):
    before, after = parts_of(old), parts_of(new)
    pairs = [(name, before.get(name), after.get(name)) for name in dict.fromkeys([*before, *after])]
    for name, *pair in sorted(pairs, key=lambda it: -abs(change(*it[1:])))[:limit]:
        yield *values_of(*pair), name


def faults_in_pair(program, old, new, limit, *words):
    def show(*words):
        status, out, error = run(program, old, new, *words)
        if status or error:
            raise OSError(f"status {status}, {error!r}")
        return out

    return forms.faults_in_rows(show, words, COLUMNS, rows_of(old.frames, new.frames, limit))


def faults_at_limit(program, old, new, percent):
    """What differs in the status where times may grow by so many percent."""
    before, after = parts_of(old.frames), parts_of(new.frames)
    grown = any(change(before.get(name), it) * 100 > before.get(name, (0,))[0] * percent for name, it in after.items())
    told = f"puffin-look: new: own time in each frame grew by more than {percent}%\n" if grown else ""
    found = [run(program, old, new, "--fail-above", f"{percent}%", *words) for words in ([], ["--json"])]
    return [f"{percent}%: {status} {error}" for status, _, error in found if (status, error) != (3 if grown else 0, told)]


def faults_in_diffs(program, source):
    """What differs between a file and its first frames, and the other way round."""
    first, faults = beginning(source), []
    for pair in ((first, source), (source, first), (source, source)):
        faults += [it for limit in (None, 1) for it in faults_in_pair(program, *pair, limit, *(["--limit", "1"] if limit else []))]
        faults += [it for percent in (0, 1, 5, 20, 100) for it in faults_at_limit(program, *pair, percent)]
    index = source.frames[0].index
    one = Source(source.data, selections.chosen(source.frames, [index]))
    return faults + faults_in_pair(program, one, one, None, "--frames", f"{index}..{index + 1}")


CHECKS = {"diff": faults_in_diffs}
