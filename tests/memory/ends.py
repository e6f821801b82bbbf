"""How a run may end in which one allocation was refused, compared with the usual one, in which none was."""

from dataclasses import dataclass

# what the three threads of check_trials do: each makes a scope within another in each of four rounds
ROUNDS, PARTS, SCOPES = 4, 12, 24
ALL_DONE = b"parts 12 begun 24 reported 24 handed 24 pending 0 frames 4 held 4 missed 0 unreported 0 refused 0\n"
NONE_BEGUN = b"parts 0 begun 0 refused\n"


@dataclass(frozen=True)
class Ended:
    """How a run ended: its status (None: it doesn't end), its lines, what it says on standard error, its file (empty: or there is
    none), and how many allocations it made."""

    status: object
    lines: bytes
    cause: bytes
    file: bytes
    allocations: int

    def is_like(self, other):
        return (self.status, self.lines, self.cause, self.file) == (other.status, other.lines, other.cause, other.file)

    def __str__(self):
        return f"status {self.status}, {self.lines!r:.200}, {self.cause!r:.200}"


def is_told(ended, usual):
    """The program's own words for want of memory. Its file and its lines are the beginning of the usual ones, and the file is whole
    where there are lines."""
    is_begun = usual.lines.startswith(ended.lines) and usual.file.startswith(ended.file)
    is_in_order = not ended.lines or ended.file == usual.file
    return ended.status == 1 and ended.cause == b"puffin-tool: Memory\n" and is_begun and is_in_order


def is_replied(known):
    """One command was refused for want of memory, or one report kept, with the lines and the file that are known for that."""
    return lambda ended, usual: ended.status == 0 and not ended.cause and any(it.is_of(ended) for it in known)


def is_not_begun(ended):
    """No part of a round was done."""
    return (ended.status, ended.lines, ended.cause) == (0, NONE_BEGUN, b"")


def is_all_done(ended):
    """Each part was done, each scope was begun and handed out, and each frame is in the view."""
    return (ended.status, ended.lines, ended.cause) == (0, ALL_DONE, b"")


def numbers(ended):
    """The numbers in the line of the threads, by the words before them; none if it isn't such a line."""
    words, known = ended.lines.decode(errors="replace").split(" "), ALL_DONE.decode().split(" ")
    if ended.status or ended.cause or words[::2] != known[::2] or not all(it.strip().isdigit() for it in words[1::2]):
        return {}
    return dict(zip(words[::2], map(int, words[1::2])))


def is_all_reported(ended):
    """Each part was done, and each of its two scopes was begun or is counted as refused; what was begun was reported, and that was
    handed out or waits, which no more than a round's scopes do; each frame is in the view, or missed. One allocation was
    refused, and no more was lost than one scope, or one frame, or a frame in the view."""
    told = numbers(ended)
    if not told:
        return False
    is_done = told["parts"] == PARTS and told["begun"] + told["refused"] == SCOPES
    is_handed = told["begun"] == told["reported"] == told["handed"] + told["pending"] and not told["unreported"]
    is_held = told["frames"] == told["held"] + told["missed"]
    is_one = 0 <= told["refused"] + told["missed"] + ROUNDS - told["frames"] <= 1
    return is_done and is_handed and is_held and is_one and told["pending"] <= SCOPES // ROUNDS
