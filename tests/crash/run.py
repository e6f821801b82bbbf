"""Ends a program in the middle of its recording, and looks at what its file still gives.

    python3 -m tests.crash.run PUFFIN_RECORDER

The program writes frames of two scopes until it is killed by a signal. Then it reads the file up to the last whole frame, and
counts just the frames whose packets are whole: they are found here by the lengths in the file. The same is shown of each
beginning of a file of three frames, from the first four letters on. A recording into files that replace each other is killed
too: of what it leaves, each file but the last has all its frames, and lists every name. One that ends leaves no file without
frames. The last line is 'N passed, M failed'.
"""

import pathlib
import signal
import struct
import subprocess
import sys
import tempfile
import time

from .. import common

ENOUGH = 200_000
MOST_SECONDS = 60
SCOPES_IN_A_FRAME = 2
NAMES = 2
THREADS = 2
FRAMES_IN_A_FILE = 50
FILES = 4


def packet_end(data, at):
    """Where a packet ends that begins at a place, or None where it is cut."""
    if data[at : at + 4] != b"PFD4":
        return None
    at += 4
    for is_of_streams in (False, True, False):
        if at + 4 > len(data):
            return None
        (length,) = struct.unpack_from("<I", data, at)
        at += 4 + is_of_streams + length
    return at if at <= len(data) else None


def whole_packets(data):
    """How many packets of a file are whole, up to the first that is cut."""
    count, at = 0, packet_end(data, 4)
    while at is not None:
        count, at = count + 1, packet_end(data, at)
    return count


def read_by(program, path):
    """The status and the output of the program that reads a file."""
    ran = subprocess.run([program, "read", path], capture_output=True, timeout=MOST_SECONDS)
    return ran.returncode, ran.stdout


def counted(data, threads=1):
    """What the program must print of a file that this number of threads wrote."""
    frames = whole_packets(data)
    scopes = SCOPES_IN_A_FRAME * threads * frames
    return 0, f"frames {frames} scopes {scopes} names {NAMES if frames else 0}\n".encode()


def is_killed(words, has_enough):
    """Whether a program was still running when it was killed, after it had written enough."""
    running = subprocess.Popen(words, stdout=subprocess.DEVNULL)
    began = time.monotonic()
    while running.poll() is None and time.monotonic() - began < MOST_SECONDS and not has_enough():
        time.sleep(0.005)
    running.kill()
    return running.wait() == -signal.SIGKILL and has_enough()


def recording_that_is_killed(program, path):
    """Whether a recording was still going on when it was killed, with enough of it written."""
    words = [program, "record", path, str(10**12)]
    return is_killed(words, lambda: path.exists() and path.stat().st_size >= ENOUGH)


def numbered(folder):
    """The files of a folder by their numbers, in ascending order."""
    return dict(sorted((int(path.stem), path) for path in folder.iterdir()))


def rotation_that_is_killed(program, folder):
    """What a recording into files that replace each other has to leave when it is killed."""
    words = [program, "rotate", folder, str(10**12), str(FRAMES_IN_A_FILE), str(FILES)]
    yield "the rotation is killed", is_killed(words, lambda: max(numbered(folder), default=0) > 3 * FILES)
    files = numbered(folder)
    *whole, last = files.values()
    first = min(files)
    yield "the last files are there", list(files) == list(range(first, first + len(files)))
    yield "no others are there", FILES <= len(files) <= FILES + 1
    for path in whole:
        data = path.read_bytes()
        is_whole = whole_packets(data) == FRAMES_IN_A_FILE and read_by(program, path) == counted(data, THREADS)
        yield f"{path.name} has all its frames and every name", is_whole
    data = last.read_bytes()
    # killed before the file's first letters were written, it has nothing to read
    is_read = len(data) < 4 or read_by(program, last) == counted(data, THREADS)
    yield "the last file is read up to its last whole frame", is_read and whole_packets(data) <= FRAMES_IN_A_FILE


def rotation_that_ends(program, folder):
    """What a recording into files that replace each other has to leave when it ends: no file without frames."""
    words = [program, "rotate", folder, str(2 * FRAMES_IN_A_FILE), str(FRAMES_IN_A_FILE), str(FILES)]
    subprocess.run(words, check=True, stdout=subprocess.DEVNULL)
    frames = [whole_packets(path.read_bytes()) for path in numbered(folder).values()]
    yield "all files of a rotation that ends are full", frames == 2 * [FRAMES_IN_A_FILE]


def cases(program, folder):
    path = folder / "killed.puffin"
    yield "the recording is killed", recording_that_is_killed(program, path)
    data = path.read_bytes()
    yield "many frames are whole", whole_packets(data) > 1000
    yield "what was killed is read up to its last whole frame", read_by(program, path) == counted(data)

    path = folder / "three.puffin"
    subprocess.run([program, "record", path, "3"], check=True, stdout=subprocess.DEVNULL)
    data = path.read_bytes()
    yield "a recording that ends is whole", whole_packets(data) == 3 and read_by(program, path) == counted(data)
    cut = folder / "cut.puffin"
    for length in range(4, len(data)):
        cut.write_bytes(data[:length])
        if read_by(program, cut) != counted(data[:length]):
            yield f"the first {length} bytes", False
            return
    yield "each beginning is read up to its last whole frame", True

    for name, rotation in (("killed", rotation_that_is_killed), ("ended", rotation_that_ends)):
        rotated = folder / name
        rotated.mkdir()
        yield from rotation(program, rotated)


def main():
    program = pathlib.Path(sys.argv[1]).resolve()
    count = common.Count()
    if not program.exists():
        print(f"there is no program {program}: it was not proved, or not built")
        count.add(False)
        return count.end()
    with tempfile.TemporaryDirectory() as folder:
        for name, is_good in cases(program, pathlib.Path(folder)):
            if not count.add(is_good):
                print(f"{name}: failed")
    return count.end()


if __name__ == "__main__":
    sys.exit(main())
