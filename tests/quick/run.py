"""Runs the tests, the cases of the command line and the house rules over code that isn't proved.

    python3 -m tests.quick.run

`rt try` builds the crates of tests, several as one since most of its time goes into what they stand on, and
tests/cli/unproved.py the program; as many go side by side as there are processors, up to four. The last line says how many passed and failed, and that nothing was proved.
"""

import concurrent.futures
import os
import pathlib
import re
import subprocess
import sys
import tempfile

from .. import common

LANES = min(4, len(os.sched_getaffinity(0)))
# seconds for what is tried at once, and for its run alone, which takes longer with checks than without
LIMIT, RUN_LIMIT = 1200, "300"


def groups():
    """The crates of crates.txt that have tests, in groups that are built at once: those with nothing but tests as two, with the
    profiler and without it, and each other by itself."""
    own = common.crates()
    tested = [it for it in own if any(re.search(r"^\s*#\[test\]", path.read_text(), re.M) for path in sources(own[it]))]
    alone = [it for it in tested if not it.startswith("tests_")]
    above = [it for it in tested if it not in alone and "puffin" in common.below(it)]
    return [above, [it for it in tested if it not in alone + above], *([it] for it in alone)]


def sources(crate):
    return (crate.folder() / "src").rglob("*.rt")


def join(crates, to):
    """Copies crates of tests to a folder that isn't there yet, as one: the first, with the others as its modules."""
    own, first = common.crates(), crates[0]
    common.copy_crates({first}.union(*map(common.below, crates)), to)
    src = to / "crates" / first / "src"
    for name in crates[1:]:
        for path in sources(own[name]):
            inner = path.relative_to(own[name].folder() / "src")
            place = src / (f"{name}.rt" if str(inner) == "lib.rt" else f"{name}/{inner}")
            place.parent.mkdir(exist_ok=True)
            text = re.sub(r"^#!\[.*\n", "", path.read_text(), flags=re.M)
            place.write_text(text.replace("crate::", f"crate::{name}::"))
    root = src / "lib.rt"
    root.write_text(root.read_text() + "".join(f"#[cfg(test)]\nmod {name};\n" for name in crates[1:]))
    used = dict.fromkeys(it for name in crates for it in own[name].used)
    lines = (to / "crates.txt").read_text()
    (to / "crates.txt").write_text(lines.replace(own[first].line(), f"{first}: {' '.join(used)}"))


def ran(words, folder):
    """What a command said, with its status."""
    try:
        how = {"stdin": subprocess.DEVNULL, "stdout": subprocess.PIPE, "stderr": subprocess.STDOUT, "text": True}
        ended = subprocess.run(words, cwd=folder, errors="replace", timeout=LIMIT, **how)
    except (OSError, subprocess.SubprocessError) as error:
        return str(error), 1
    return ended.stdout, ended.returncode


def counts(said, words):
    """The numbers in the last line like 'N passed, M failed', or None."""
    lines = re.findall(rf"^{words}$", said, re.M)
    return [int(it) for it in lines[-1]] if lines else None


def tests_of(crates):
    """How many tests of a group passed, how many failed and what to show."""
    with tempfile.TemporaryDirectory() as folder:
        copy = pathlib.Path(folder) / "tests"
        copy.mkdir()
        join(crates, copy)
        said, status = ran(["rt", "try", "--test", "--seconds", RUN_LIMIT], copy / "crates" / crates[0])
    found = counts(said, r"test result: \w+\. (\d+) passed; (\d+) failed; 0 ignored; 0 filtered out")
    is_well = status == 0 and found and found[0] and not found[1]
    names = ", ".join(crates)
    print(f"tests of {names} ... {f'ok, {found[0]}' if is_well else 'FAILED'}", flush=True)
    passed, failed = found or (0, 0)
    return passed, failed if is_well else max(failed, 1), "" if is_well else f"== {names}\n{said}"


def part(runner, words):
    """The same of a runner, and how many it left out."""
    said, status = ran([sys.executable, "-m", runner], common.ROOT)
    found = counts(said, words) or [0, 1]
    print(f"{runner} ... {'ok' if status == 0 and not found[1] else 'FAILED'}", flush=True)
    failed = found[1] if status == 0 else max(found[1], 1)
    return found[0], failed, "" if not failed else f"== {runner}\n{said}", *found[2:]


def main():
    crates = groups()
    with concurrent.futures.ThreadPoolExecutor(LANES) as lanes:
        cases = lanes.submit(part, "tests.cli.unproved", r"(\d+) passed, (\d+) failed, (\d+) left out")
        rules = lanes.submit(part, "tests.house.run", r"(\d+) passed, (\d+) failed")
        tests = list(lanes.map(tests_of, crates))
    cases, rules = cases.result(), rules.result()
    parts = [*tests, cases, rules]
    for it in parts:
        print(it[2], end="")
    tried, failed = sum(it[0] for it in tests), sum(it[1] for it in parts)
    left_out = cases[3] if len(cases) > 3 else "all"
    passed = f"{tried} tests, {cases[0]} cases and {rules[0]} house rules passed, {failed} failed"
    print(f"{passed}; {left_out} cases were left out, and nothing was proved")
    return 1 if failed or not crates else 0


if __name__ == "__main__":
    sys.exit(main())
