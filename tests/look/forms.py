"""The two forms of what puffin-look prints of rows: a table for a person, and with --json an array of objects.

A row has a value for each column: a number; of a share or a growth a pair, the part and the whole; a text; or None, where a file has
no such value.
"""

import decimal
import json
import re
from typing import Callable, NamedTuple

CONTROLS = re.compile(r"[\0-\x1f\x7f]")
UNITS = {"ns": 1, "us": 10**3, "ms": 10**6, "s": 10**9}
# numbers up to this one, and down to its opposite, are numbers in JSON, and others strings
EXACT = 2**53


# ---- values

def escaped(text):
    return CONTROLS.sub(lambda it: f"\\x{ord(it[0]):02x}", text)


def readable(time):
    """A duration as it is printed: in the greatest unit of which there is one, rounded down."""
    if time < 1000:
        return f"{time} ns"
    unit = max((it for it in UNITS if UNITS[it] <= time), key=UNITS.get)
    hundredths = time * 100 // UNITS[unit]
    return f"{hundredths // 100:,}.{hundredths % 100:02} {unit}"


def percent(part, whole):
    """A part in percent, with a digit behind the point, or None of nothing. Its sign is that of the part."""
    return decimal.Decimal(abs(part) * 1000 // whole).scaleb(-1).copy_sign(part) if whole else None


def share(part, whole):
    return f"{percent(part, whole)}%" if whole else "-"


def signed(number, text):
    return ("-" if number < 0 else "+" if number else "") + text


def growth(part, whole):
    return signed(part, share(abs(part), whole)) if whole else "-"


def exact(number):
    return number if number is None or abs(number) <= EXACT else str(number)


class Kind(NamedTuple):
    """The kind of a column: its width, how a table shows a value, and what JSON has of it."""

    width: int
    shown: Callable
    told: Callable


COUNT = Kind(13, "{:,}".format, exact)
HUNDREDTHS = Kind(13, lambda it: f"{it // 100:,}.{it % 100:02}", lambda it: exact(decimal.Decimal(it).scaleb(-2)))
MOMENT = Kind(26, "{:,}".format, exact)
TIME = Kind(11, readable, exact)
OFFSET = Kind(11, lambda it: "-" * (it < 0) + readable(abs(it)), exact)
CHANGE = Kind(12, lambda it: signed(it, readable(abs(it))), exact)
SHARE = Kind(7, lambda it: share(*it), lambda it: exact(percent(*it)))
GROWTH = Kind(12, lambda it: growth(*it), lambda it: exact(percent(*it)))
# the last column, which has a blank more in front
TEXT = Kind(0, lambda it: f" {escaped(it)}", str)


# ---- rows

def line_of(columns, row):
    """The line of a row, whose columns have these kinds."""
    cells = ["-" if value is None else kind.shown(value) for kind, value in zip(columns.values(), row)]
    return "".join(f" {cell:>{kind.width}}" for kind, cell in zip(columns.values(), cells))


def heading_of(columns):
    return "".join(f" {kind.shown(name) if kind is TEXT else name:>{kind.width}}" for name, kind in columns.items())


def object_of(columns, row):
    """What JSON has of a row."""
    return {name: None if value is None else kind.told(value) for (name, kind), value in zip(columns.items(), row)}


def spelled(value):
    """The JSON of a value, without blanks."""
    if isinstance(value, dict):
        return "{" + ",".join(f"{spelled(name)}:{spelled(it)}" for name, it in value.items()) + "}"
    if isinstance(value, list):
        return "[" + ",".join(map(spelled, value)) + "]"
    return str(value) if isinstance(value, decimal.Decimal) else json.dumps(value, ensure_ascii=False)


# ---- the checks

def differences(printed_lines, wanted):
    """The first lines that differ."""
    found, wanted = printed_lines.split("\n"), [*wanted, ""]
    pairs = [f"{a!r} instead of {b!r}" for a, b in zip(found, wanted) if a != b][:3]
    return pairs or ([] if len(found) == len(wanted) else [f"{len(found)} lines instead of {len(wanted)}"])


def differences_in_json(text, objects):
    """The first lines that differ, of which there is one for each object, and whether json reads other values."""
    lines = ",\n".join(map(spelled, objects))
    is_read = json.loads(text, parse_float=decimal.Decimal) == objects
    return differences(text, f"[{lines}]".split("\n")) + ([] if is_read else ["json reads other values"])


def faults_in_rows(show, words, columns, rows):
    """What differs in both forms: show returns what is printed with these words."""
    rows = [*rows]
    lines = [heading_of(columns), *(line_of(columns, row) for row in rows)]
    faults = differences(show(*words), lines)
    faults += differences_in_json(show(*words, "--json"), [object_of(columns, row) for row in rows])
    return [f"{' '.join(words)} {it}".lstrip() for it in faults]
