"""Runs puffin-look on the cases of this folder, and on files that programs wrote, and compares what it writes.

    python3 -m tests.look.run PROGRAM [SCRIPT [EXAMPLE]]

A case is a folder in cases/ as those of tests/cli, which lists its files. SCRIPT is the script that builds and runs the
program; it is run as the script of tests/cli is. EXAMPLE is the program of crates/example, which writes a file;
another is of the Rust crate. On both each word of the program is run, and compared with another reading of the file: listings.py
has the checks of lists and trees, traces.py of traces, folded.py of folded stacks, tops.py of scopes by name, slow_frames.py of the
slowest frames, diffs.py of two files, selections.py of some frames and threads, pages.py of pages, in headless Chromium, progress.py
of what stands on a terminal. forms.py makes the tables and JSON that the rows of a reading have, and extremes.py a file with odd
names and numbers. tests/c runs the words on a file of a C program. The last line is 'N passed, M failed'.
"""

import functools
import pathlib
import subprocess
import sys

from .. import common
from ..cli import run, starter
from . import diffs, extremes, folded, listings, pages, progress, selections, slow_frames, sources, tops, traces

CASES = pathlib.Path(__file__).resolve().parent / "cases"


def checks_of_file(name, make):
    """The checks of a file that is made for the first of them: each one's name, and what it compares."""
    source = functools.cache(make)
    modules = (listings, traces, folded, tops, slow_frames, diffs, selections, pages)
    checks = {word: it for module in modules for word, it in module.CHECKS.items()}
    return [(f"{word}_of_{name}", lambda program, _, it=it: it(program, source())) for word, it in checks.items()]


def checks(example):
    """The checks besides the cases."""
    found = checks_of_file("the_rust_crate", sources.original)
    found += checks_of_file("the_example", functools.partial(sources.of_example, example)) if example else []
    found += [("the_readings_of_both", sources.faults_in_python)]
    modules = (traces, folded, listings, extremes, pages)
    found += [it for module in modules for it in module.CHECKS_OF_NAMES.items()]
    return found + list(progress.CHECKS.items())


def main():
    program, *rest = (str(pathlib.Path(word).resolve()) for word in sys.argv[1:4])
    script, example = (*rest, None, None)[:2]
    cases = sorted(it for it in CASES.iterdir() if it.is_dir())
    runs = [(case.name, run.faults, program, case) for case in cases]
    if script:
        runs += [("through_a_link", run.faults_through_a_link, script, CASES / "frames_one_frame")]
        runs += [("build", starter.faults_in_build, script, None), ("output", starter.faults_in_output, script, None)]
        runs += [("words_at_once", run.faults_at_once, script, cases[0])]
    runs += [(name, compare, program, None) for name, compare in checks(example)]
    count = common.Count()
    for name, compare, what, case in runs:
        try:
            found = compare(what, case)
        except (OSError, ValueError, subprocess.SubprocessError) as error:
            found = [str(error)]
        count.add(not found)
        print(f"case {name} ... {'; '.join(found) if found else 'ok'}")
    status = count.end()
    return status if cases else 1


if __name__ == "__main__":
    sys.exit(main())
