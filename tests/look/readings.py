"""What is in a file of frames, as others than puffin-look read it: the Rust crate, in a dump that it made, and Python, by
docs/FORMAT.md.

A reading is the list of the file's frames, whose threads are in the file's order. A thread is named START:NAME. A scope is a list:
its name, file and line, its start, its stop, its text, and the scopes within it.
"""

import re
import struct
from typing import NamedTuple

SIZES = {0xFB: 2, 0xFC: 4, 0xFD: 8}
DETAILS = re.compile(
    r'ScopeId\((\d+)\)\), scope_name: (?:None|Some\("(.*?)"\)), function_name: "(.*?)", file_path: "(.*?)", line_nr: (\d+)'
)


class Thread(NamedTuple):
    """The stream of a thread: its size in bytes, its range, how many scopes it is said to have, and those that it has."""

    name: str
    bytes: int
    start: int
    stop: int
    count: int
    scopes: list


class Frame(NamedTuple):
    """A frame: its index, its range, how many scopes it is said to have, and its threads."""

    index: int
    start: int
    stop: int
    count: int
    threads: list


def scopes_in(stream, names):
    """The scopes of a stream in the short form."""
    scopes, at = [], 0
    while at < len(stream):
        ident, start, length = struct.unpack_from("<xIqB", stream, at)
        text = stream[at + 14 : at + 14 + length]
        begin = at + 22 + length
        (size,) = struct.unpack_from("<Q", stream, begin - 8)
        within = scopes_in(stream[begin : begin + size], names)
        (stop,) = struct.unpack_from("<q", stream, begin + size + 1)
        scopes.append([names.get(ident, (f"#{ident}", None, None)), start, stop, text.decode(), within])
        at = begin + size + 9
    return scopes


# ---- a dump of the Rust crate

def in_dump(dump):
    """The reading of a dump. Under each id the first details count that the file lists, in all of its frames."""
    frames, names = [], {}
    for ident, name, function, file, line in DETAILS.findall(dump):
        names.setdefault(int(ident), (name or function, file, int(line)))
    for lines in re.split(r"^frame ", dump, flags=re.MULTILINE)[1:]:
        head = re.match(r"(\d+) range (\S+) (\S+) bytes \d+ scopes (\d+)", lines)
        found = re.findall(r"^  thread (.*) scopes (\d+) depth \d+ range (\S+) (\S+) stream (\S*)$", lines, re.MULTILINE)
        threads = []
        for thread, count, start, stop, digits in found:
            stream = bytes.fromhex(digits)
            threads.append(Thread(thread, len(stream), int(start), int(stop), int(count), scopes_in(stream, names)))
        frames.append(Frame(*map(int, head.groups()), threads))
    return frames


# ---- a file

class Layout:
    """Bytes from which values are read, one behind the other."""

    def __init__(self, data):
        self.rest = data

    def take(self, size):
        if len(self.rest) < size:
            raise ValueError("the file ends too early")
        taken, self.rest = self.rest[:size], self.rest[size:]
        return taken

    def number(self):
        (first,) = self.take(1)
        return int.from_bytes(self.take(SIZES[first]), "little") if first in SIZES else first

    def signed(self):
        number = self.number()
        return number >> 1 ^ -(number & 1)

    def block(self):
        return self.take(self.number())

    def text(self):
        return self.block().decode()

    def option(self, read):
        return read() if self.number() else None

    def part(self, head=0):
        """A part of a packet, with so many bytes between its length and its values."""
        (size,) = struct.unpack("<I", self.take(4))
        return Layout(self.take(head + size)[head:])

    def stream(self):
        """What a `Thread` is made of, with the stream's bytes."""
        start, name, stream = self.option(self.signed), self.text(), self.block()
        count, _depth, first, last = self.number(), self.number(), self.signed(), self.signed()
        return f"{'-' if start is None else start}:{name}", stream, first, last, count

    def details(self):
        """An id, and the name, file and line under it."""
        ident, name, function = self.option(self.number), self.option(self.text), self.text()
        return ident, (function if name is None else name, self.text(), self.number())

    def frame(self, names):
        """The frame of the next packet, with a stream in place of each list of scopes. Its details are added to the names."""
        if self.take(4) != b"PFD4":
            raise ValueError("a packet of another kind")
        meta, streams, details = self.part(), self.part(1), self.part()
        index, start, stop, _bytes, count = meta.number(), meta.signed(), meta.signed(), meta.number(), meta.number()
        found = [streams.stream() for _ in range(streams.number())]
        for _ in range(details.number()):
            names.setdefault(*details.details())
        threads = [Thread(it[0], len(it[1]), *it[2:], it[1]) for it in found]
        return Frame(index, start, stop, count, threads)


def in_file(data):
    """The reading of a file, whose packets are of the Rust crate's newest kind and not compressed."""
    layout, frames, names = Layout(data), [], {}
    if layout.take(4) != b"PUF0":
        raise ValueError("no file of frames")
    while layout.rest:
        frames.append(layout.frame(names))
    named = lambda it: it._replace(scopes=scopes_in(it.scopes, names))
    return [it._replace(threads=[*map(named, it.threads)]) for it in frames]
