"""Checks the lists and the trees that puffin-look prints of a file against another reading of it, and a tree of 10,000 scopes
with random names and texts, of all bytes."""

from . import forms, traces
from .forms import differences, escaped, readable
from .sources import printed

THREADS = dict.fromkeys(("frames", "scopes", "bytes"), forms.COUNT) | {"start": forms.MOMENT, "duration": forms.TIME, "thread": forms.TEXT}
FRAMES = dict.fromkeys(("frame", "threads", "scopes"), forms.COUNT) | {"start": forms.MOMENT, "duration": forms.TIME}
SCOPES = {"start": forms.OFFSET, "duration": forms.TIME, "share": forms.SHARE, "thread": forms.TEXT}
MOST = 2**64 - 1


# ---- what has to be printed

def order(thread):
    """Where a thread stands among others."""
    start, _, name = thread.partition(":")
    return (start != "-", 0 if start == "-" else int(start), name.encode())


def thread_rows(frames):
    found = {}
    for frame in frames:
        for it in frame.threads:
            found.setdefault(it.name, []).append(it)
    for name in sorted(found, key=order):
        its = found[name]
        scopes, size = min(MOST, sum(it.count for it in its)), sum(it.bytes for it in its)
        start, stop = min(it.start for it in its), max(it.stop for it in its)
        yield len(its), scopes, size, start, stop - start, name


def frame_row(it):
    return it.index, len(it.threads), it.count, it.start, it.stop - it.start


def slowest(frames):
    """The slowest frames first, and of equally slow ones the first one."""
    return sorted(frames, key=lambda it: it.start - it.stop)


def scope_lines(scopes, begin, whole, indent):
    for (name, *_), start, stop, text, within in scopes:
        time, shown = stop - start, f"{indent}{name} ({text})" if text else f"{indent}{name}"
        yield forms.line_of(SCOPES, (start - begin, time, (time, whole), shown))
        yield from scope_lines(within, begin, time, f"{indent}  ")


def tree_head(index, start, stop):
    return f"frame {index} range {start:,} {stop:,} duration {readable(stop - start)}"


def tree_lines(frame, wanted=None):
    """A frame with all its threads, or with the one that is wanted."""
    yield tree_head(frame.index, frame.start, frame.stop)
    for it in frame.threads:
        if wanted in (None, it.name):
            yield f"{forms.heading_of(SCOPES)} {escaped(it.name)}"
            yield from scope_lines(it.scopes, frame.start, frame.stop - frame.start, "")


# ---- the checks

def faults_in_threads(program, source):
    """What differs in the list of threads."""
    show = lambda *words: printed(program, source.data, "threads", *words)
    return forms.faults_in_rows(show, [], THREADS, thread_rows(source.frames))


def faults_in_some_frames(program, source, words, frames):
    """What differs in the list of these frames."""
    show = lambda *words: printed(program, source.data, "frames", *words)
    return forms.faults_in_rows(show, words, FRAMES, map(frame_row, frames))


def faults_in_frames(program, source):
    """What differs in the list of frames, and in those of the slowest."""
    faults = faults_in_some_frames(program, source, [], source.frames)
    for limit in range(len(source.frames) + 2):
        faults += faults_in_some_frames(program, source, [str(limit)], slowest(source.frames)[:limit])
    return faults


def faults_in_trees(program, source):
    """What differs in the trees of all frames, with all threads and with each of them."""
    faults = []
    for frame in source.frames:
        for wanted in [None, *(it.name for it in frame.threads)]:
            words = [str(frame.index), *([wanted] if wanted else [])]
            faults += differences(printed(program, source.data, "frame", *words), tree_lines(frame, wanted))
    return faults


def faults_in_names(program, _source):
    """What differs between random names and texts and the lines of their scopes."""
    names = traces.random_names()
    texts = [name.encode() for name in reversed(names)]
    scopes = [[(name,), at, at, text.decode(), []] for at, (name, text) in enumerate(zip(names, texts))]
    last = len(names) - 1
    wanted = [tree_head(0, 0, last), f"{forms.heading_of(SCOPES)} -:main", *scope_lines(scopes, 0, last, "")]
    return differences(printed(program, traces.file_of(names, texts), "frame", "0"), wanted)


CHECKS_OF_NAMES = {"lines_of_all_bytes": faults_in_names}
CHECKS = {"threads": faults_in_threads, "frames": faults_in_frames, "trees": faults_in_trees}
