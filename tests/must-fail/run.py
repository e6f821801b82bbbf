"""Puts each wrong body that no prover refuses into a copy of the repository, and looks whether its test fails.

    python3 -m tests.must-fail.run [WORD]

README.md says what an edit looks like. Each copy is built and run without any proof.
"""

import concurrent.futures
import os
import pathlib
import re
import subprocess
import sys
import tempfile

from .. import common

HERE = pathlib.Path(__file__).resolve().parent
LANES = min(4, os.cpu_count() or 1)


def test_of(edit):
    """The crate and the test that an edit names."""
    tests = [it.split(" ") for it in edit.head("test")]
    if len(tests) != 1 or len(tests[0]) != 2 or not edit.changes:
        raise ValueError("it isn't test, file and pairs of old and new")
    return tests[0]


def why_not(path):
    """Why an edit isn't refused by its test, or None where it is."""
    edit = common.parsed(path, ("test",))
    crate, test = test_of(edit)
    with tempfile.TemporaryDirectory() as name:
        folder = pathlib.Path(name)
        common.copy_crates(common.crates(), folder)
        for file, text in common.edited(edit.changes, lambda file: (folder / file).read_text()).items():
            (folder / file).write_text(text)
        words = ["rt", "try", "--test", "--", test]
        ran = subprocess.run(words, cwd=folder / "crates" / crate, capture_output=True, text=True, timeout=600)
    said = ran.stdout + ran.stderr
    ends = re.findall(r"^test (\S+) \.\.\. (\S+)", said, re.M)
    if ends == [(test, "FAILED")]:
        return None
    return f"{ends}" if ends else said[-600:]


def tried(path):
    """A line that says how it went, and whether it went well."""
    try:
        why = why_not(path)
    except (ValueError, OSError, subprocess.TimeoutExpired) as fault:
        why = str(fault)
    return f"{path.name}: {'REFUSED by its test' if why is None else f'NOT REFUSED: {why}'}", why is None


def main():
    word = sys.argv[1] if len(sys.argv) > 1 else ""
    edits = sorted(it for it in HERE.glob("*.edit") if word in it.name)
    count = common.Count()
    with concurrent.futures.ThreadPoolExecutor(LANES) as lanes:
        for line, is_well in list(lanes.map(tried, edits)):
            print(line)
            count.add(is_well)
    return count.end()


if __name__ == "__main__":
    sys.exit(main())
