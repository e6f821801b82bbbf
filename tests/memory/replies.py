"""What a script writes of which one command is refused for want of memory, or one report kept.

It is what another script writes, of which nothing is refused: one without the command, or in which the report comes later.
"""

import pathlib
import subprocess
from dataclasses import dataclass


@dataclass(frozen=True)
class Reply:
    """The lines and the file where one command is refused, or one report kept. Where the command is a frame, the collection may
    know some of the frame's details already, and then they are listed twice."""

    lines: bytes
    file: bytes
    is_of_frame: bool = False

    def is_of(self, ended):
        packets = without_details(ended.file)
        is_listed_twice = self.is_of_frame and packets is not None and packets == without_details(self.file)
        return ended.lines == self.lines and (ended.file == self.file or is_listed_twice)


def without_details(file):
    """The packets of a file, each without its list of details. None if it isn't a file of whole packets."""
    found, at = [], 4
    while at < len(file):
        start = at
        at += 4
        for kind in (0, 1):
            at += 4 + kind + int.from_bytes(file[at : at + 4], "little")
        found.append(file[start:at])
        at += 4 + int.from_bytes(file[at : at + 4], "little")
    return found if at == len(file) and file[:4] == b"PUF0" and all(it[:3] == b"PFD" for it in found) else None


def without(lines, number):
    """A script without the command in this line: a refused one changes nothing."""
    return [*lines[: number - 1], b"", *lines[number:]]


def put_off(lines, number):
    """A script in which the report at this line is kept: the thread's scopes since its last report come before its next ones, or
    never. None if no report is due there. (No frame may be taken within these next ones.)"""
    words = [it.split() + [b""] * 2 for it in lines]
    own = [at for at, (word, thread, *_) in enumerate(words) if word in (b"begin", b"end") and thread == words[number - 1][1]]
    depth, block = 0, []
    for at in (it for it in own if it < number):
        block = [at] if depth == 0 else [*block, at]
        depth += 1 if words[at][0] == b"begin" else -1
    if depth or words[number - 1][0] != b"end":
        return None
    later = [at for at in own if at >= number]
    moved = [lines[at] for at in block] if later else []
    rest = later[0] if later else len(lines)
    return [b"" if at in block else it for at, it in enumerate(lines[:rest])] + moved + lines[rest:]


def known(tool, script, folder):
    """Each way in which one command of a script may be refused, or one report kept."""

    def replayed(lines):
        pathlib.Path(f"{folder}/changed").write_bytes(b"\n".join(lines) + b"\n")
        ran = subprocess.run([tool, "replay", "changed", "changed_out"], capture_output=True, cwd=folder, check=True)
        return ran.stdout, pathlib.Path(f"{folder}/changed_out").read_bytes()

    lines, found = script.splitlines(), []
    for number in range(1, len(lines) + 1):
        before, _ = replayed(lines[: number - 1])
        for word, changed in ((b"refused", without(lines, number)), (b"kept", put_off(lines, number))):
            if changed:
                after, file = replayed(changed)
                told = b"%s%s %d Memory\n%s" % (before, word, number, after.removeprefix(before))
                found.append(Reply(told, file, lines[number - 1] == b"frame"))
    return found


def known_of_one_scope(first):
    """The same of a script that begins and ends one scope and takes a frame, from this line on: there is no frame, in the lines as
    in the file."""
    return [
        Reply(b"refused %d Memory\nrefused %d MismatchedEnd\nframe none\n" % (first, first + 1), b"PUF0"),
        Reply(b"kept %d Memory\nframe none\n" % (first + 1), b"PUF0"),
        Reply(b"refused %d Memory\n" % (first + 2), b"PUF0"),
    ]
