"""Checks the scopes by name that puffin-look prints against another reading of the same file.

The rows are made anew from the reading's scopes. A percentile is that of the sorted durations, with all but its eight leading bits
set, which may make it greater by less than a 128th, but not greater than the greatest duration.
"""

from . import forms
from .sources import printed

NUMBERS = dict.fromkeys("total own least median p95 p99 greatest".split(), forms.TIME)
COLUMNS = {"calls": forms.COUNT} | NUMBERS | {"share": forms.SHARE, "name": forms.TEXT}
BY = ("own", "total", "calls", "max")


def add(rows, forest, outer, texts):
    for (name, *_), start, stop, text, within in forest:
        shown = f"{name} ({text})" if texts and text else name
        rows.setdefault(shown, ([], []))[0].append(stop - start)
        if outer is not None:
            rows[outer][1].append(stop - start)
        add(rows, within, shown, texts)


def rows_of(frames, wanted, texts):
    """The durations under each name, and those directly within them, in the order in which the names are met."""
    rows = {}
    for thread in (it for frame in frames for it in frame.threads):
        if wanted in (None, thread.name):
            add(rows, thread.scopes, None, texts)
    return rows


def ranked(times, percent):
    return sorted(times)[-(-len(times) * percent // 100) - 1]


def percentile(times, percent):
    """The greatest duration whose eight leading bits are those of the exact one, but at most the greatest of all."""
    exact = ranked(times, percent)
    behind = max(0, exact.bit_length() - 8)
    return min(((exact >> behind) + 1 << behind) - 1, max(times))


def row_of(name, times, nested, whole):
    """The row of a name."""
    own = max(0, sum(times) - sum(nested))
    middle = [percentile(times, it) for it in (50, 95, 99)]
    return len(times), sum(times), own, min(times), *middle, max(times), (own, whole), name


def is_far(times):
    """Whether a percentile isn't as near to the exact one as it has to be."""
    exact, most = ranked(times, 99), percentile(times, 99)
    return exact > most or (most - exact) * 128 > exact


def weight(row, by):
    times, nested = row
    return {"own": sum(times) - sum(nested), "total": sum(times), "calls": len(times), "max": max(times)}[by]


def faults_in_top(program, source, wanted, by, limit, texts):
    words = [*([wanted] if wanted else []), "--by", by, *(["--limit", str(limit)] if limit is not None else []), *(["--texts"] if texts else [])]
    rows = rows_of(source.frames, wanted, texts)
    names = sorted(rows, key=lambda it: -weight(rows[it], by))[:limit]
    whole = sum(it.stop - it.start for it in source.frames)
    far = [f"{name}: a percentile is far from the exact one" for name in names if is_far(rows[name][0])]
    show = lambda *words: printed(program, source.data, "top", *words)
    return far + forms.faults_in_rows(show, words, COLUMNS, (row_of(name, *rows[name], whole) for name in names))


def faults_in_tops(program, source):
    """What differs from the reading: of all threads and of each, by each number, and with texts."""
    threads = sorted({it.name for frame in source.frames for it in frame.threads})
    faults = [it for wanted in [None, *threads] for texts in (False, True) for it in faults_in_top(program, source, wanted, "own", None, texts)]
    faults += [it for by in BY for limit in (0, 1, 3) for it in faults_in_top(program, source, None, by, limit, False)]
    return faults if len(threads) > 1 else ["too few threads"]


CHECKS = {"top": faults_in_tops}
