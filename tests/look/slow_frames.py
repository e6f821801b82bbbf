"""Checks what puffin-look shows of the slowest frames against another reading of the same file."""

from . import folded, forms, listings, selections
from .sources import printed

FRAME = {"frame": forms.COUNT, "duration": forms.TIME, "scopes": forms.COUNT}
STEP = {"time": forms.TIME, "share": forms.SHARE, "name": forms.TEXT}


def add(times, front, forest):
    """Adds the durations of a forest's scopes, each under its path."""
    for (name, *_), start, stop, _text, within in forest:
        path = (*front, folded.shown(name))
        times[path] = times.get(path, 0) + stop - start
        add(times, path, within)


def steps_of(frame):
    """The names of the path that takes the most time, each with its time and that around it."""
    times = {}
    for thread in frame.threads:
        add(times, (), thread.scopes)
    path, outer = (), frame.stop - frame.start
    while below := {it: time for it, time in times.items() if it[:-1] == path}:
        best = max(below, key=below.get)
        if path and below[best] * 2 < outer:
            return
        yield best[-1], below[best], outer
        path, outer = best, below[best]


def lines_of(frame):
    yield f"frame {frame.index}: {forms.readable(frame.stop - frame.start)}, scopes {frame.count:,}"
    for level, (name, time, outer) in enumerate(steps_of(frame)):
        yield f" {forms.readable(time):>11} {forms.share(time, outer):>7}  {'  ' * level}{name}"


def object_of(frame):
    steps = [forms.object_of(STEP, (time, (time, outer), name)) for name, time, outer in steps_of(frame)]
    return forms.object_of(FRAME, (frame.index, frame.stop - frame.start, frame.count)) | {"path": steps}


def faults_in_paths(program, source, words, frames):
    """What differs of these frames, in both forms."""
    faults = forms.differences(printed(program, source.data, "slowest", *words), [line for it in frames for line in lines_of(it)])
    objects = [object_of(it) for it in frames]
    return faults + forms.differences_in_json(printed(program, source.data, "slowest", *words, "--json"), objects)


def faults_in_slowest(program, source):
    """What differs in so many of the slowest frames, and in those among some."""
    faults = []
    for limit in [None, *range(len(source.frames) + 2)]:
        words = [] if limit is None else [str(limit)]
        faults += faults_in_paths(program, source, words, listings.slowest(source.frames)[: 5 if limit is None else limit])
    for some in selections.ranges_in(source.frames):
        frames = listings.slowest(selections.chosen(source.frames, some))[:2]
        faults += faults_in_paths(program, source, ["2", "--frames", f"{some.start}..{some.stop}"], frames)
    return faults


CHECKS = {"slowest": faults_in_slowest}
