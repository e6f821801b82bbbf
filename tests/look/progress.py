"""What puffin-look shows on a terminal of how much of a file is read."""

import contextlib
import os
import pathlib
import pty
import re
import signal
import subprocess
import tempfile
import time

from ..cli import run

SHORT = pathlib.Path(__file__).resolve().parent / "cases/frames_two_scopes/file.hex"
# so many bytes are read in some tenths of a second
SIZE = 40_000_000
SHOWN = re.compile(rb"(?:puffin-look: \d+ %\r)+ +\r")


@contextlib.contextmanager
def long_file(more=b"", size=SIZE):
    """The path of a file with the frames of a short one, again and again, and these bytes behind them."""
    data = run.digits(SHORT)
    with tempfile.TemporaryDirectory() as place:
        path = pathlib.Path(place, "file").resolve()
        path.write_bytes(data[:4] + data[4:] * (size // len(data)) + more)
        yield path


def next_piece(terminal):
    """What is written to a terminal next: nothing if all that wrote to it have ended."""
    try:
        return os.read(terminal, 65536)
    except OSError:
        return b""


def opened(program):
    """The paths of what a program that runs has open."""
    found = set()
    with contextlib.suppress(OSError):
        for it in pathlib.Path(f"/proc/{program.pid}/fd").iterdir():
            found.add(os.readlink(it))
    return found


def on_terminal(words, **others):
    """What a program writes to a terminal. It is stopped for longer than it shows nothing, once it has opened its file. Its
    outputs are the terminal, but for the others that are given."""
    terminal, end = pty.openpty()
    with subprocess.Popen(words, stdin=subprocess.DEVNULL, **{"stdout": end, "stderr": end} | others) as program:
        os.close(end)
        while program.poll() is None and str(words[-1]) not in opened(program):
            time.sleep(0.001)
        program.send_signal(signal.SIGSTOP)
        time.sleep(0.6)
        program.send_signal(signal.SIGCONT)
        found = b"".join(iter(lambda: next_piece(terminal), b""))
    os.close(terminal)
    return found


def piped(words):
    """What it writes where there is no terminal."""
    return subprocess.run(words, stdin=subprocess.DEVNULL, stdout=subprocess.PIPE, stderr=subprocess.STDOUT, timeout=120).stdout


def screen(written):
    """What stands on a terminal to which this is written."""
    lines = []
    for line in written.decode().split("\n"):
        cells = ""
        for part in line.split("\r"):
            cells = part + cells[len(part) :]
        lines.append(cells.rstrip(" "))
    return "\n".join(lines)


def risen(shown):
    """What is wrong with percentages that have to rise and then to be hidden."""
    numbers = [*map(int, re.findall(rb"\d+", shown))]
    if not SHOWN.fullmatch(shown) or screen(shown) or numbers != sorted(set(numbers)) or numbers[-1] > 100:
        return [f"the terminal has {shown!r:.200}"]
    return []


# ---- the checks

def while_it_reads(program, _case):
    with long_file() as path:
        return risen(on_terminal([program, "threads", path], stdout=subprocess.DEVNULL))


def before_a_table_and_a_fault(program, _case):
    with long_file(b"PFD4") as path:
        words = [program, "threads", path]
        found, wanted = on_terminal(words), piped(words).decode()
    if not SHOWN.match(found) or screen(found) != wanted:
        return [f"the terminal has {found!r:.200}, and shows {screen(found)!r:.200} and not {wanted!r:.200}"]
    return []


def beside_a_file(program, _case):
    with long_file() as path, tempfile.TemporaryFile() as out:
        return risen(on_terminal([program, "frames", path], stdout=out))


def not_beside_a_list(program, _case):
    # (nobody reads the terminal while it is stopped, so it has to wait for that, too)
    with long_file(size=SIZE // 40) as path:
        words = [program, "frames", path]
        found, wanted = on_terminal(words).replace(b"\r\n", b"\n"), piped(words)
    # (it may have been stopped before the first line)
    before = SHOWN.match(found)
    found = found[before.end() if before else 0 :]
    return [] if found == wanted else [f"the terminal has {found!r:.200} and not {wanted!r:.200}"]


def not_without_a_terminal(program, _case):
    with long_file() as path, tempfile.TemporaryFile() as errors:
        on_terminal([program, "threads", path], stderr=errors)
        errors.seek(0)
        shown = errors.read()
    return [f"standard error is {shown!r:.200}"] if shown else []


CHECKS = {
    "progress_while_it_reads": while_it_reads,
    "progress_before_a_table_and_a_fault": before_a_table_and_a_fault,
    "progress_beside_a_file": beside_a_file,
    "progress_not_beside_a_list": not_beside_a_list,
    "progress_not_without_a_terminal": not_without_a_terminal,
}
