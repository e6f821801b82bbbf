"""Reads the traces that puffin-look writes by other readers: Python's json, and a forest that is made anew from the events.

The forest of each thread and frame, as it is made anew from the trace's events, has to be that of another reading of the file. A
file of 10,000 scopes with random names and texts, of all bytes, has to give JSON with the same names and texts.
"""

import decimal
import json
import random
import struct

from .sources import printed

NAMES = 10_000


# ---- traces

def nanoseconds(micros):
    """A time of a trace, whose digits are exact."""
    return int(micros * 1000)


def frames_of(events):
    """The index of each frame of a trace, and under each thread its scopes, as in a reading."""
    threads, frames, open_scopes, origin = {}, [], {}, None
    for event in events:
        if event["ph"] == "M":
            if event["name"] == "thread_name":
                threads[event["tid"]] = f"{event['args']['start']}:{event['args']['name']}"
        elif event["ph"] == "i":
            origin = int(event["args"]["start"]) - nanoseconds(event["ts"]) if origin is None else origin
            frames.append((int(event["name"].removeprefix("frame ")), {}))
            open_scopes = {}
        else:
            start = origin + nanoseconds(event["ts"])
            stop = start + nanoseconds(event["dur"])
            args = event["args"]
            scope = [(event["name"], args.get("file"), args.get("line")), start, stop, args["text"], []]
            stack = open_scopes.setdefault(event["tid"], [])
            # (a scope that begins when another ends comes after that one)
            while stack and not (stop <= stack[-1][2] and start < stack[-1][2]):
                stack.pop()
            siblings = stack[-1][4] if stack else frames[-1][1].setdefault(threads[event["tid"]], [])
            siblings.append(scope)
            stack.append(scope)
    return frames


def trace_of(program, data, *words):
    """The events that the program writes for these bytes of a file. Their times are no less than 0."""
    trace = json.loads(printed(program, data, "trace", *words), parse_float=decimal.Decimal)
    events = trace.pop("traceEvents")
    if trace != {"displayTimeUnit": "ns"} or any(it.get("ts", 0) < 0 for it in events):
        raise ValueError(f"a trace with {trace}, or with a time below 0")
    return events


def faults_in_forests(program, source):
    """What differs between a trace and another reading."""
    return faults_in_events(source.frames, trace_of(program, source.data))


def faults_in_events(frames, events):
    """What differs between events and these frames."""
    wanted = [(frame.index, {it.name: it.scopes for it in frame.threads}) for frame in frames]
    found = frames_of(events)
    return [] if found == wanted else [f"{found} instead of {wanted}"]


# ---- names of all bytes

def number(n):
    for least, mark, size in ((0, b"", 1), (251, b"\xfb", 2), (65536, b"\xfc", 4), (2**32, b"\xfd", 8)):
        if n >= least:
            layout = mark + n.to_bytes(8, "little")[:size]
    return layout


def block(data):
    return number(len(data)) + data


def part(data, kind=b""):
    return struct.pack("<I", len(data)) + kind + data


def signed(n):
    return number(2 * n if n >= 0 else -2 * n - 1)


def scope(ident, start, stop, text=b"", within=b""):
    begin = struct.pack("<Iq", ident, start) + bytes([len(text)]) + text + struct.pack("<Q", len(within))
    return b"(" + begin + within + b")" + struct.pack("<q", stop)


def stream(start, name, scopes, count, first, last):
    """A thread's scopes, which are said to be so many, from first to last."""
    named = (b"\0" if start is None else b"\1" + signed(start)) + block(name.encode())
    return named + block(scopes) + number(count) + number(1) + signed(first) + signed(last)


def packet(index, start, stop, count, streams, names):
    """A frame, which is said to have so many scopes. The names are of the scopes with the ids from 1 on."""
    meta = number(index) + signed(start) + signed(stop) + number(sum(len(it[2]) for it in streams)) + number(count)
    listed = number(len(streams)) + b"".join(stream(*it) for it in streams)
    details = (b"\1" + number(at + 1) + b"\1" + block(name.encode()) + b"\0\0\0" for at, name in enumerate(names))
    return b"PFD4" + part(meta) + part(listed, b"\0") + part(number(len(names)) + b"".join(details))


def file_of(names, texts):
    """A file of one frame, in which the scope with each id has its name and text."""
    scopes, count, last = b"".join(scope(at + 1, at, at, text) for at, text in enumerate(texts)), len(names), len(names) - 1
    return b"PUF0" + packet(0, 0, last, count, [(None, "main", scopes, count, 0, last)], names)


def prefix(data):
    """The longest prefix that is text."""
    try:
        return data.decode()
    except UnicodeDecodeError as error:
        return data[: error.start].decode()


def random_names():
    """Names of all kinds of letters, with quotes, backslashes and semicolons among them."""
    chance = random.Random(62)
    ranges = [(0, 32), (32, 128), (34, 35), (59, 60), (92, 93), (128, 0xD800), (0xE000, 0x110000)]
    letters = lambda: "".join(chr(chance.randrange(*chance.choice(ranges))) for _ in range(chance.randrange(12)))
    return [letters() for _ in range(NAMES)]


def faults_in_names(program, _source):
    """What differs between random names and texts and what json reads in their trace."""
    names, chance = random_names(), random.Random(63)
    texts = [bytes(chance.randrange(256) for _ in range(chance.randrange(20))) for _ in range(NAMES)]
    events = [it for it in trace_of(program, file_of(names, texts)) if it["ph"] == "X"]
    found = [(it["name"], it["args"]["text"]) for it in events]
    wanted = [(name, prefix(text)) for name, text in zip(names, texts)]
    return [f"{a} instead of {b}" for a, b in zip(found, wanted) if a != b][:3] or ([] if len(found) == NAMES else ["too few"])


CHECKS = {"trace": faults_in_forests}
CHECKS_OF_NAMES = {"names_of_all_bytes": faults_in_names}
