"""Runs programs once for each of their allocations, which is refused, and looks at how they end.

    python3 -m tests.memory.run CHECK_TRIALS PUFFIN_TOOL CHECK_RUNS

The first program, asked for `memory`, makes each call again that was refused for memory: it has to end with status 0 and to
print the same whichever allocation it was. The second must do what it does otherwise; or end with status 1 and say that there
was no memory, and nothing but a beginning of its output is written then; or, where it replays a script, tell in one line that
one command was refused or one report kept for memory, and go on: the lines and the file of each such end are known. Each of
these ends has to be seen. Asked for `threads`, the first has to end too, whichever allocation or start of a thread was refused:
with all parts done, and no more lost than one refused allocation can cost, or with an error before the first part. A C
compiler is needed: `cc`, or what CC names.

At last the second program reports a file of many frames in little memory, and refuses a packet whose details are fewer than
their number says, without memory for one of them; and the third begins a million scopes of which nobody takes a frame, in
little memory. The last line is 'N passed, M failed'.
"""

import pathlib
import subprocess
import sys
import tempfile

from .. import common
from . import ends, replies, room
from .refusing import Refusing

STREAM = bytes.fromhex("28 01000000 6400000000000000 04 64617461 0000000000000000 29 2c01000000000000")
ONE_SCOPE = b"begin main 100 1 data\nend main 300\nframe\n"
LONG_SCOPE = b"long main\nbegin main 100 1 " + 200 * b"a" + b"\nend main 300\nframe\n"
SCRIPT = b"""function main load a.rs 7
user own
begin main 100 1 data
begin main 120 1 inner
end main 150
end main 300
frame
snapshot
begin main 400 1
begin other 410 2 of another thread
end other 420
end main 500
frame
frame
"""


def faults(refusing, words, given, ways):
    """How many allocations were refused, and what was wrong: runs that ended neither as usual nor in one of these ways, and ways
    that no run ended in."""
    usual = refusing.run(words, given)
    if usual.status or not usual.allocations:
        return 0, [f"with memory: {usual}, {usual.allocations} allocations"]
    found, seen = [], set()
    for number, ended in refusing.each(words, given, usual).items():
        way = next((name for name, is_so in ways.items() if is_so(ended, usual)), None)
        seen.add(way)
        if way is None and not ended.is_like(usual):
            found.append(f"at {number}: {ended}")
    return usual.allocations, found + [f"whichever allocation was refused, no run {it}" for it in ways if it not in seen]


def thread_faults(refusing, words):
    """The same of three threads: each run has all parts done, or none. None lost a scope, since a beginning that is refused is tried
    once more; some lost a frame in the view."""
    usual = refusing.run(words)
    if not ends.is_all_done(usual):
        return 0, [f"with memory: {usual}"]
    runs = refusing.each(words, b"", usual)
    found = [f"at {number}: {it}" for number, it in runs.items() if not ends.is_all_reported(it) and not ends.is_not_begun(it)]
    found += [f"at {number}: a scope is lost" for number, it in runs.items() if ends.numbers(it).get("refused")]
    if not any(ends.numbers(it).get("missed") for it in runs.values()):
        found.append("whichever allocation was refused, no frame was missed")
    return usual.allocations, found


def start_faults(refusing, words):
    """The same of the start of each thread: nothing begins."""
    usual, runs = refusing.run(words), {number: refusing.run(words, thread=number) for number in (1, 2, 3)}
    found = [] if ends.is_all_done(usual) else [f"with all threads: {usual}"]
    return len(runs), found + [f"thread {number}: {it}" for number, it in runs.items() if not ends.is_not_begun(it)]


def lay_files(tool, folder):
    """Puts the scripts into a folder, and the files that the program makes of them."""
    scripts = {"script": SCRIPT, "one_scope": ONE_SCOPE, "long_scope": LONG_SCOPE, "scopes_script": room.SCOPES}
    files = {"script": "frames", "one_scope": "one_frame", "long_scope": "long_frames", "scopes_script": "scopes"}
    for name, script in scripts.items():
        pathlib.Path(folder, name).write_bytes(script)
        subprocess.run([tool, "replay", name, files[name]], capture_output=True, cwd=folder, check=True)


def cases(trials, tool, folder):
    """What is run with each allocation refused: the words, standard input, and the ways to end but the usual one."""
    told = {"was told": ends.is_told}
    replays = {"script": replies.known(tool, SCRIPT, folder)}
    replays |= {"one_scope": replies.known_of_one_scope(1), "long_scope": replies.known_of_one_scope(2)}
    yield "each call twice", [trials, "memory"], b"", {}
    yield "count", [tool, "count"], STREAM, told
    for script, known in replays.items():
        yield f"replay of {script}", [tool, "replay", script, "out"], b"", {**told, "was replied": ends.is_replied(known)}
    for frames in ("frames", "one_frame", "long_frames"):
        yield f"report of {frames}", [tool, "report", frames, "100:main"], b"", told


def outcomes(trials, tool, runs, folder):
    """Each check by its name, what it tried, and its faults."""
    refusing = Refusing(folder)
    lay_files(tool, folder)
    for name, words, given, ways in cases(trials, tool, folder):
        count, found = faults(refusing, words, given, ways)
        yield name, f"{count} allocations refused in turn", found
    count, found = thread_faults(refusing, [trials, "threads"])
    yield "threads", f"{count} allocations refused in turn", found
    count, found = start_faults(refusing, [trials, "threads"])
    yield "threads not started", f"{count} starts refused in turn", found
    yield "of a report of many frames", f"{room.MANY} frames in {room.ROOM // 1_000_000} MB", room.many_faults(tool, folder)
    yield "of scopes that nobody takes", f"{room.UNTAKEN} scopes in {room.UNTAKEN_ROOM // 1_000_000} MB", room.untaken_faults(runs)
    yield "of details that lie", f"{room.LYING} bytes in {4 * room.LYING // 1_000_000} MB", room.lying_faults(tool, folder)


def main():
    programs = [pathlib.Path(it).resolve() for it in sys.argv[1:]]
    count = common.Count()
    for missing in (it for it in programs if not it.exists()):
        print(f"memory ... there is no program {missing}: it was not proved, or not built")
        count.add(False)
    if count.failed:
        return count.end()
    with tempfile.TemporaryDirectory() as folder:
        for name, tried, found in outcomes(*map(str, programs), folder):
            count.add(not found)
            print(f"memory {name} ... {'; '.join(found) if found else f'{tried}: ok'}")
    return count.end()


if __name__ == "__main__":
    sys.exit(main())
