"""Runs the program on the cases of this folder and compares what it writes.

    python3 -m tests.cli.run PROGRAM [SCRIPT]

SCRIPT is the script that builds and runs the program; it is run through a symbolic link from another folder, on the cases
of starter.py and, where there is no program, on those of the cases here that it answers by itself.

A case is a folder in cases/ with the files
  args    the program's words, one a line
  script  a file that lies where the program runs
  file.hex  the bytes of a file 'file' that lies there, in hexadecimal digits as below, and other.hex those of 'other'
  stdin   standard input as it is, or stdin.hex in hexadecimal digits with blanks and '#' comments, or
          stdin.make, a line that names a function of streams.py with its arguments
  stdout  what it must write to standard output (no file: nothing)
  stderr  the same of standard error
  status  the exit status that is wanted (no file: 0)
  out.hex what it must write to the file 'out' where it runs (no file: it must not make one)
  places  lines that name what is unusual where it runs: 'folder' for a folder of that name, 'locked' for a file of that
          name that the program may not open, 'full' and 'closed' for a standard output that is a full device or a pipe
          that nobody reads, 'no-stdin', 'no-stdout' and 'no-stderr' for one that isn't open at all
"""

import os
import pathlib
import shutil
import subprocess
import sys
import tempfile

from .. import common
from . import starter, streams

HERE = pathlib.Path(__file__).resolve().parent
STANDARD = {"no-stdin": 0, "no-stdout": 1, "no-stderr": 2}


def read(path, default=b""):
    return path.read_bytes() if path.exists() else default


def digits(path):
    """The bytes that a file in hexadecimal digits spells."""
    return bytes.fromhex("".join(line.partition("#")[0] for line in path.read_text().splitlines()))


def given(case):
    """What the program gets on standard input."""
    if (case / "stdin.hex").exists():
        return digits(case / "stdin.hex")
    if (case / "stdin.make").exists():
        name, *words = (case / "stdin.make").read_text().split()
        return getattr(streams, name)(*map(int, words))
    return read(case / "stdin")


def furnish(place, case, unusual):
    """Puts a case's files where the program runs."""
    if (case / "script").exists():
        shutil.copy(case / "script", place)
    for name in ("file", "other"):
        if (case / f"{name}.hex").exists():
            (place / name).write_bytes(digits(case / f"{name}.hex"))
    if "folder" in unusual:
        (place / "folder").mkdir()
    if "locked" in unusual:
        (place / "locked").touch(mode=0)


def output(unusual):
    """What the program has for standard output, and what is to be closed after its run."""
    if "full" in unusual:
        device = os.open("/dev/full", os.O_WRONLY)
        return device, device
    if "closed" in unusual:
        reader, writer = os.pipe()
        os.close(reader)
        return writer, writer
    return subprocess.PIPE, None


def run(program, words, case, place, unusual):
    """Runs the program. One that may not open a file is run by nobody, where root would run it, and from a copy there."""
    settings = {}
    if "locked" in unusual and os.geteuid() == 0:
        place.chmod(0o755)
        program = shutil.copy(program, place / "program")
        settings = {"user": 65534, "group": 65534, "extra_groups": []}
    closed = [STANDARD[it] for it in unusual if it in STANDARD]
    if closed:
        settings["preexec_fn"] = lambda: [os.close(it) for it in closed]
    stdout, held = output(unusual)
    try:
        return subprocess.run(
            [program, *words], input=given(case), stdout=stdout, stderr=subprocess.PIPE, timeout=120, cwd=place, **settings
        )
    finally:
        if held is not None:
            os.close(held)


def differences(case, got):
    """What a run did otherwise than it should: what it wrote to each stream, its status, and the file or None."""
    wanted = {
        "standard output": read(case / "stdout"),
        "standard error": read(case / "stderr"),
        "the status": int(read(case / "status", b"0")),
        "the file": digits(case / "out.hex") if (case / "out.hex").exists() else None,
    }
    pairs = zip(wanted.items(), got)
    return [f"{what} is {found!r:.200} and not {want!r:.200}" for (what, want), found in pairs if found != want]


def faults(program, case):
    """The same of a case that the program is run on."""
    words = read(case / "args").decode().splitlines()
    unusual = read(case / "places").decode().split()
    with tempfile.TemporaryDirectory() as folder:
        place = pathlib.Path(folder)
        furnish(place, case, unusual)
        ran = run(program, words, case, place, unusual)
        out = read(place / "out", None)
    return differences(case, (ran.stdout or b"", ran.stderr, ran.returncode, out))


def faults_through_a_link(script, case):
    """The same of the script, which a symbolic link in another folder leads to."""
    with tempfile.TemporaryDirectory() as folder:
        link = pathlib.Path(folder) / "linked"
        link.symlink_to(script)
        return faults(str(link), case)


def faults_at_once(script, case):
    """The same of the script where nothing is built, in those cases beside this one that it answers without a program."""
    return starter.faults_at_once(script, faults, case.parent)


def all_cases():
    return sorted(it for it in (HERE / "cases").iterdir() if it.is_dir())


def main():
    program, *script = (str(pathlib.Path(word).resolve()) for word in sys.argv[1:])
    cases = all_cases()
    runs = [(case.name, faults, program, case) for case in cases]
    runs += [("through_a_link", faults_through_a_link, it, HERE / "cases" / "replay_one_frame") for it in script]
    runs += [(name, starter.faults, it, steps) for it in script for name, steps in starter.CASES.items()]
    runs += [("build", starter.faults_in_build, it, None) for it in script]
    runs += [("output", starter.faults_in_output, it, None) for it in script]
    runs += [("words_at_once", faults_at_once, it, cases[0]) for it in script]
    count = common.Count()
    for name, compare, what, case in runs:
        try:
            found = compare(what, case)
        except (OSError, subprocess.SubprocessError) as error:
            found = [str(error)]
        count.add(not found)
        print(f"case {name} ... {'; '.join(found) if found else 'ok'}")
    status = count.end()
    return status if cases else 1


if __name__ == "__main__":
    sys.exit(main())
