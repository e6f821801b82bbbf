"""Checks what puffin-look shows of some frames and threads against another reading of the same file, of which the others are left out."""

from . import folded, forms, listings, tops, traces
from .sources import printed


def named(names, word):
    """The threads that a word names, in the first way in which it names one."""
    ways = [lambda it: it == word, lambda it: it.partition(":")[2] == word]
    ways += [lambda it: word.endswith("*") and it.partition(":")[2].startswith(word[:-1])]
    return next((found for found in ([it for it in names if way(it)] for way in ways) if found), [])


def chosen(frames, indices, word=None):
    """These frames, with the threads that the word names."""
    names = {thread.name for frame in frames for thread in frame.threads}
    found = names if word is None else set(named(names, word))
    kept = [it for it in frames if it.index in indices]
    return [it._replace(threads=[thread for thread in it.threads if thread.name in found]) for it in kept]


def words_in(frames):
    """Words that name threads: their names, and beginnings of these."""
    names = sorted({thread.name.partition(":")[2] for frame in frames for thread in frame.threads})
    return [None, *names, *(f"{it[: len(it) // 2]}*" for it in names), "*"]


def ranges_in(frames):
    first, last = frames[0].index, frames[-1].index
    return [range(first, last + 1), range(first + 1, last + 1), range(first, first + 1), range(last + 1, last + 2)]


def faults_in_choice(program, source, indices, word):
    frames = chosen(source.frames, indices, word)
    words = [*([word] if word else []), "--frames", f"{indices.start}..{indices.stop}"]
    faults = [] if folded.folded(program, source.data, *words) == folded.times_of(frames, None)[0] else [f"folded {words}"]
    rows, whole = tops.rows_of(frames, None, False), sum(it.stop - it.start for it in frames)
    wanted = (tops.row_of(name, *rows[name], whole) for name in sorted(rows, key=lambda it: -len(rows[it][0])))
    show = lambda *words: printed(program, source.data, "top", *words)
    return faults + forms.faults_in_rows(show, [*words, "--by", "calls"], tops.COLUMNS, wanted)


def faults_in_some_frames(program, source, indices):
    frames, words = chosen(source.frames, indices), f"{indices.start}..{indices.stop}"
    faults = listings.faults_in_some_frames(program, source, [words], frames)
    return faults + traces.faults_in_events(frames, traces.trace_of(program, source.data, "--frames", words))


def faults_in_selections(program, source):
    """What differs where some of the frames, and some of the threads, are chosen."""
    ranges, words = ranges_in(source.frames), words_in(source.frames)
    faults = [it for indices in ranges for word in words for it in faults_in_choice(program, source, indices, word)]
    return faults + [it for indices in ranges for it in faults_in_some_frames(program, source, indices)]


CHECKS = {"selection": faults_in_selections}
