"""Measures what the calls take of the stack, and what a program weighs, and compares it with what puffin.h and docs/C.md say."""

import re

from .. import common
from .programs import C_COMPILER, HEADER, HERE, STRICT, is_there, run

PAGE = common.ROOT / "docs" / "C.md"


def said_of_stack():
    """What puffin.h says that each call takes at most of the stack, in bytes."""
    text = (HEADER / "puffin.h").read_text()
    rows = re.findall(r"^ \*     (\d+) KiB: (.*(?:\n \*       .*)*)", text, re.M)
    return {name: 1024 * int(most) for most, names in rows for name in re.findall(r"puffin_\w+", names)}


def calls():
    """The calls that puffin.h declares and the library has."""
    text = (HEADER / "puffin.h").read_text().partition("/* ---- empty texts")[0]
    return set(re.findall(r"^(?:PUFFIN_RESULT_ )?(?:uint32_t|size_t|PuffinVersion) (puffin_\w+)\(", text, re.M))


def stack(programs):
    """Each call on a painted stack."""
    program = programs.place / "stack"
    words = ["-std=gnu11", *STRICT, "-O1", HERE / "stack.c", programs.library, programs.kit, "-lpthread"]
    if not programs.built("stack.c", C_COMPILER, *words, "-o", program):
        return
    told = programs.ran("stack.c", program)
    rows = [row.split() for row in told.decode().splitlines()]
    taken = {name: max(int(row[0]) for row in rows if name in row) for row in rows for name in row[1:]}
    said = said_of_stack()
    programs.check("puffin.h says of each call how much stack it takes", set(said) == set(taken) == calls(), told)
    for name in sorted(set(said) & set(taken)):
        fits = taken[name] <= said[name] and (said[name] == 1024 or said[name] < 8 * taken[name])
        programs.check(f"{name} takes {taken[name]} bytes of stack, of at most {said[name]}", fits)


def weights(programs):
    """The size of a program that records and writes a file, and of one that also reads files, without what nobody calls."""
    said = dict(re.findall(r"^\| `(\w+\.c)` \|.*\| (\d+) KiB \|$", PAGE.read_text(), re.M))
    programs.check("docs/C.md says what programs weigh", set(said) == {"first.c", "viewer.c", "totals.c"})
    if not is_there("size"):
        return
    for source, most in said.items():
        program = programs.place / source.partition(".")[0]
        lean = ["-std=gnu11", "-O2", "-flto", "-ffunction-sections", "-Wl,--gc-sections", "-I", HEADER]
        if programs.built(source, C_COMPILER, *lean, HERE / source, programs.library, programs.kit, "-o", program):
            weighed = sum(map(int, run("size", program).stdout.splitlines()[1].split()[:2]))
            is_fine = weighed <= 1024 * int(most) < 1.25 * weighed
            programs.check(f"{source} weighs {weighed} bytes, of at most {most} KiB", is_fine)


def check(programs):
    stack(programs)
    weights(programs)
