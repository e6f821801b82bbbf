"""Reports of large files, and scopes that nobody takes, in little memory: one frame's and the report's, and not the file's."""

import pathlib
import resource
import subprocess

# a frame of twenty scopes; the file of sixty thousand such frames has 45 MB
SCOPES = b"".join(b"begin main %d 1 data\nend main %d\n" % (start, start + 5) for start in range(100, 300, 10)) + b"frame\n"
MANY = 60_000
MANY_LINES = b"frames %d\n#1 (data) pieces %d total %d per_frame 100 max 5 start 100\n" % (MANY, 20 * MANY, 100 * MANY)
# the address space in which it is reported
ROOM = 16_000_000
LYING = 50_000_000
# the scopes of which nobody takes a frame, and the address space of their program: two stacks, and less than the scopes take
UNTAKEN = 1_000_000
UNTAKEN_ROOM = 32_000_000
STACK = 8_000_000


def numbered(packet, index):
    """The packet of frame 0 as that of another index."""
    size = int.from_bytes(packet[4:8], "little")
    number = bytes([index]) if index < 251 else b"\xfb" + index.to_bytes(2, "little")
    return packet[:4] + (size - 1 + len(number)).to_bytes(4, "little") + number + packet[9:]


def run_within(room, words, folder):
    """The status and what was written, of a program that may have so many bytes of memory, each stack of a thread included."""
    most = resource.getrlimit(resource.RLIMIT_STACK)[1]
    stack = STACK if most == resource.RLIM_INFINITY else min(STACK, most)

    def limit():
        resource.setrlimit(resource.RLIMIT_STACK, (stack, most))
        resource.setrlimit(resource.RLIMIT_AS, (room, room))

    ran = subprocess.run(words, capture_output=True, cwd=folder, preexec_fn=limit, timeout=120)
    return ran.returncode, ran.stdout, ran.stderr


def lying_faults(tool, folder):
    """What is wrong with the refusal of details that are fewer than their number says: none of them may take memory."""
    frame = pathlib.Path(f"{folder}/one_frame").read_bytes()
    details = b"\xfc" + (2 * LYING).to_bytes(4, "little") + bytes(LYING - 5)
    pathlib.Path(f"{folder}/lying").write_bytes(frame[:-5] + LYING.to_bytes(4, "little") + details)
    ended = run_within(4 * LYING, [tool, "report", "lying", "100:main"], folder)
    return [] if ended == (1, b"", b"puffin-tool: BadScopes\n") else [f"{ended!r:.300}"]


def untaken_faults(runs):
    """What is wrong with the runs of the third program: its scopes that nobody takes fit this memory only within their limits."""
    ended = run_within(UNTAKEN_ROOM, [runs], None)
    wanted = pathlib.Path(runs).parents[1] / "stdout"
    return [] if ended == (0, wanted.read_bytes(), b"") else [f"{ended!r:.300}"]


def many_faults(tool, folder):
    """What is wrong with the report of many frames."""
    with open(f"{folder}/scopes", "rb") as file:
        letters, packet = file.read(4), file.read()
    with open(f"{folder}/many", "wb") as file:
        file.write(letters)
        file.writelines(numbered(packet, index) for index in range(MANY))
    ended = run_within(ROOM, [tool, "report", "many", "100:main"], folder)
    return [] if ended == (0, MANY_LINES, b"") else [f"{ended!r:.300}"]
