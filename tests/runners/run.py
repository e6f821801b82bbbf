"""Breaks what the runners of tests/ check, each thing in a copy of the repository, and looks whether its runner fails.

    python3 -m tests.runners.run [WORD]

README.md says what an edit looks like. With a word it tries only those whose names have it. An edit whose runner needs a
program that isn't built is left out and named. The last line is 'N passed, M failed'.
"""

import concurrent.futures
import functools
import os
import pathlib
import re
import shutil
import subprocess
import sys
import tempfile
import threading

from .. import common

HERE = pathlib.Path(__file__).resolve().parent
LANES = min(4, os.cpu_count() or 1)
LIMIT = 1200


def copy_repository(folder):
    """Copies what is in the repository, without what is built."""
    words = ["git", "ls-files", "-co", "--exclude-standard"]
    listed = subprocess.run(words, cwd=common.ROOT, capture_output=True, text=True, check=True)
    for name in listed.stdout.splitlines():
        if (common.ROOT / name).is_file():
            (folder / name).parent.mkdir(parents=True, exist_ok=True)
            shutil.copy(common.ROOT / name, folder / name)
    subprocess.run(["git", "init", "-q"], cwd=folder, check=True)


def change(edit, folder):
    """Makes an edit's changes, and removes the files that it names."""
    for pattern in edit.head("gone"):
        found = list(folder.glob(pattern))
        if not found:
            raise ValueError(f"there is no {pattern}")
        for path in found:
            path.unlink()
    for file, text in common.edited(edit.changes, lambda file: (folder / file).read_text()).items():
        (folder / file).write_text(text)


def file_of(word):
    """The file that a runner is given by a word with a slash: of this repository, or of the kit where it begins with KIT."""
    return common.kit_folder() / word[4:] if word.startswith("KIT/") else common.ROOT / word


def said_by(runner, folder):
    """The status of a runner in a copy, and its lines."""
    module, *words = runner.split(" ")
    ran = subprocess.run(
        [sys.executable, "-m", module, *(file_of(it) if "/" in it else it for it in words)],
        cwd=folder,
        stdin=subprocess.DEVNULL,
        stdout=subprocess.PIPE,
        stderr=subprocess.STDOUT,
        text=True,
        errors="replace",
        timeout=LIMIT,
    )
    return ran.returncode, ran.stdout.splitlines()


ONE_AT_A_TIME = threading.Lock()


@functools.cache
def faults_of_unbroken(runner):
    """What is wrong with a runner in a copy in which nothing is broken: it has to pass."""
    with tempfile.TemporaryDirectory() as name:
        copy_repository(pathlib.Path(name))
        status, lines = said_by(runner, pathlib.Path(name))
    return "" if status == 0 else f"{runner} fails where nothing is broken: {' '.join(lines[-2:]):.300}"


def faults_unbroken(runner):
    """The same, found once for all edits of the runner."""
    with ONE_AT_A_TIME:
        return faults_of_unbroken(runner)


def why_not(edit):
    """Why a runner lets an edit pass, or an empty text where it fails with the line that the edit names."""
    (runner,), (line,) = edit.head("runner"), edit.head("fails")
    unbroken = faults_unbroken(runner)
    if unbroken:
        return unbroken
    with tempfile.TemporaryDirectory() as name:
        folder = pathlib.Path(name)
        copy_repository(folder)
        change(edit, folder)
        status, lines = said_by(runner, folder)
    if status and any(re.match(line, it) for it in lines):
        return ""
    return f"status {status}, {' '.join(lines[-2:]):.300}"


def tried(path):
    """A line that says how it went, and whether it went well, or None where it was left out."""
    try:
        edit = common.parsed(path, ("runner", "fails", "gone"))
        (runner,) = edit.head("runner")
        missing = [it for it in runner.split(" ") if "/" in it and not file_of(it).is_file()]
        if missing:
            return f"left out: {edit.name}: there is no {missing[0]}", None
        why = why_not(edit)
    except (ValueError, OSError, subprocess.SubprocessError) as fault:
        why = f"{fault}"
    return f"{path.name}: {f'ITS RUNNER PASSES: {why}' if why else 'its runner fails'}", not why


def main():
    word = sys.argv[1] if len(sys.argv) > 1 else ""
    edits = sorted(it for it in HERE.glob("*.edit") if word in it.name)
    count = common.Count()
    with concurrent.futures.ThreadPoolExecutor(LANES) as lanes:
        for line, is_well in lanes.map(tried, edits):
            print(line, flush=True)
            if is_well is not None:
                count.add(is_well)
    return count.end()


if __name__ == "__main__":
    sys.exit(main())
