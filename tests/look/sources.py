"""Files that programs wrote, each with another reading of it than puffin-look's: the Rust crate's, or Python's."""

import pathlib
import re
import subprocess
import tempfile
from typing import NamedTuple

from ..cli import run
from . import readings

# frames.hex is a file that the Rust crate wrote, and dump what the Rust crate reads in it, each stream in hexadecimal digits
ORIGINAL = pathlib.Path(__file__).resolve().parent / "original"


class Source(NamedTuple):
    """The bytes of a file, and a reading of it."""

    data: bytes
    frames: list


def original():
    """The file of the Rust crate, as the Rust crate reads it."""
    return Source(run.digits(ORIGINAL / "frames.hex"), readings.in_dump((ORIGINAL / "dump").read_text()))


def of_example(example):
    """The file that the program of crates/example writes now, as Python reads it. The numbers that it prints have to agree."""
    with tempfile.TemporaryDirectory() as place:
        path = pathlib.Path(place, "picture.puffin")
        done = subprocess.run([example, path], capture_output=True, check=True, timeout=120)
        source = Source(path.read_bytes(), readings.in_file(path.read_bytes()))
    said = re.search(r"^frames (\d+) threads (\d+) scopes (\d+) ", done.stdout.decode(), re.MULTILINE)
    numbers = len(source.frames), len(source.frames[-1].threads), sum(it.count for it in source.frames)
    if not said or numbers != tuple(map(int, said.groups())):
        raise ValueError(f"{numbers} frames, threads and scopes where it prints {done.stdout!r}")
    return source


def faults_in_python(_program, _case):
    """What Python reads in the Rust crate's file otherwise than the Rust crate."""
    data, frames = original()
    found = readings.in_file(data)
    return [] if found == frames else [f"{found} instead of {frames}"]


def printed(program, data, word, *more):
    """What puffin-look prints for these bytes of a file."""
    with tempfile.TemporaryDirectory() as place:
        path = pathlib.Path(place, "file")
        path.write_bytes(data)
        done = subprocess.run([program, word, path, *more], capture_output=True, timeout=120)
    if done.returncode or done.stderr:
        raise OSError(f"status {done.returncode}, {done.stderr!r}")
    return done.stdout.decode()
