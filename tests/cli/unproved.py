"""Runs the cases of this folder over a program that isn't proved, and compares what it writes.

    python3 -m tests.cli.unproved

`rt try` builds the program once. It gives the program files for its standard streams and a folder of its own, so words
that name files are made absolute. Left out are cases whose standard output is a full device or a closed pipe, those with
a standard stream that isn't open and, for root, those with a file that may not be opened. One more case runs the script
puffin-tool where nothing is built and crates.txt names a crate that isn't there; those of starter.py try what the script
takes for built. The last line is 'N passed, M failed, K left out'.
"""

import concurrent.futures
import os
import pathlib
import re
import shutil
import subprocess
import sys
import tempfile

from .. import common
from . import run, starter

# the words that name files, by the first word
FILES = {"replay": (1, 2), "report": (1,)}
# the line that the script adds to standard error
SAYS = (
    "puffin-tool: its sources aren't built, so it answers unproved, in about a minute; "
    "to prove and build them: {} --build\n"
)


def unusual(case):
    return run.read(case / "places").decode().split()


def is_taken(case):
    """Whether `rt try` can run a case."""
    refused = {"full", "closed", *run.STANDARD} | ({"locked"} if os.geteuid() == 0 else set())
    return not refused & set(unusual(case))


def lay(case, place, inputs):
    """Puts a case's files into its place, and among the inputs its standard input and its words."""
    place.mkdir()
    run.furnish(place, case, unusual(case))
    words = run.read(case / "args").decode().splitlines()
    for at in FILES.get(words[0], ()) if words else ():
        if at < len(words):
            words[at] = str(place / words[at])
    (inputs / case.name).write_bytes(run.given(case))
    (inputs / f"{case.name}.args").write_text("".join(f"{it}\n" for it in words))


def tried(cases, folder):
    """What the program wrote, and its status, by the names of the cases that ended; and the end of what rt said."""
    inputs = folder / "inputs"
    inputs.mkdir()
    for case in cases:
        lay(case, folder / case.name, inputs)
    words = ["rt", "try", "--seconds", "300", "--cases", str(inputs)]
    how = {"stdin": subprocess.DEVNULL, "capture_output": True, "timeout": 1200}
    ran = subprocess.run(words, cwd=common.crate("puffin_tool").folder(), **how)
    outputs = dict(re.findall(rb"^== (\w+)\n((?:(?!== ).*\n)*)", ran.stdout, re.M))
    errors = re.findall(rb"((?:(?!case=).*\n)*)case=(\w+) (run=\w+)(?: status=(\d+))?.*\n", ran.stderr)
    ended = [it for it in errors if it[2] == b"run=ended"]
    found = {name.decode(): (outputs.get(name), error, int(status)) for error, name, _, status in ended}
    return found, ran.stderr[-600:].decode(errors="replace")


def faults_unproved(case, found, place):
    if found is None:
        return ["it did not end"]
    return run.differences(case, (*found, run.read(place / "out", None)))


def faults_of_script(folder):
    """What the script, called by a link where nothing is built, does otherwise than the program, but for its line."""
    copy = folder / "copy"
    copy.mkdir()
    common.copy_crates(common.crates(), copy)
    shutil.copy(common.ROOT / "puffin-tool", copy)
    with (copy / "crates.txt").open("a") as lines:
        lines.write(starter.LINE)
    link = folder / "linked"
    link.symlink_to(copy / "puffin-tool")
    case, place = run.HERE / "cases" / "range_too_long", folder / "of_script"
    place.mkdir()
    ran = subprocess.run([str(link), "count"], input=run.given(case), capture_output=True, cwd=place, timeout=600)
    said = SAYS.format(link).encode()
    error = ran.stderr.removeprefix(said) if ran.stderr.startswith(said) else b"without its line: " + ran.stderr
    return run.differences(case, (ran.stdout, error, ran.returncode, None))


def ends_of_cases(cases, folder):
    """What each case did otherwise, by its name."""
    found, said = tried(cases, folder)
    if not found:
        print(said)
    return [(it.name, faults_unproved(it, found.get(it.name), folder / it.name)) for it in cases]


def ends_of_script(folder):
    """The same of the cases of the script."""
    cases = [("script_where_nothing_is_built", faults_of_script, (folder,))]
    script = common.ROOT / "puffin-tool"
    cases += [(name, starter.faults, (script, steps)) for name, steps in starter.CASES.items()]
    cases += [("build", starter.faults_in_build, (script, None)), ("output", starter.faults_in_output, (script, None))]
    cases += [("words_at_once", run.faults_at_once, (script, run.all_cases()[0]))]
    for name, compare, words in cases:
        try:
            yield name, compare(*words)
        except (OSError, subprocess.SubprocessError) as error:
            yield name, [str(error)]


def main():
    cases = run.all_cases()
    taken = [it for it in cases if is_taken(it)]
    with tempfile.TemporaryDirectory() as name, concurrent.futures.ThreadPoolExecutor(1) as beside:
        folder = pathlib.Path(name)
        script = beside.submit(lambda: list(ends_of_script(folder)))
        ended = [*ends_of_cases(taken, folder), *script.result()]
    count = common.Count()
    for name, faults in ended:
        count.add(not faults)
        print(f"case {name} ... {'; '.join(faults) if faults else 'ok'}")
    status = count.end(f", {len(cases) - len(taken)} left out")
    return status if taken else 1


if __name__ == "__main__":
    sys.exit(main())
