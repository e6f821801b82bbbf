"""Streams that are too large to be kept as files."""

import random
import struct


def _begin(number, start, text, size):
    return struct.pack("<BIqB", 0x28, number, start, len(text)) + text + struct.pack("<Q", size)


def _end(stop):
    return struct.pack("<Bq", 0x29, stop)


def nested(depth):
    """Scopes without text, each in the one before: scope n starts at n, and all stop at the depth."""
    parts = [_begin(1, n, b"", 31 * (depth - 1 - n)) for n in range(depth)]
    return b"".join(parts) + _end(depth) * depth


def side_by_side(count):
    """Scopes with a text of 10 bytes, one after the other: scope n from n to n + 1."""
    text = b"ten bytes."
    return b"".join(_begin(1 + n % 7, n, text, 0) + _end(n + 1) for n in range(count))


def random_bytes(seed, length):
    """Bytes at random."""
    return random.Random(seed).randbytes(length)
