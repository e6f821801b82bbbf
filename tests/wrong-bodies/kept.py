"""What earlier runs on this machine refused, so that the same isn't tried again.

A refusal is kept under a sum of all that it was read from: the edit, the crate, its line of crates.txt, the libraries below, the
kit and these runners. So it never goes stale. It is kept beside what `rt ci` keeps; where there is no such folder, nothing is.
"""

import functools
import hashlib
import os

from .. import common

HERE = common.ROOT / "tests/wrong-bodies"
# What of a crate a check reads.
PARTS = "src", "specs", "proofs"


def sum_of(things):
    return hashlib.sha256(repr(things).encode()).hexdigest()


def texts_in(folder):
    """The files below a folder, by their paths in it."""
    return [(str(it.relative_to(folder)), it.read_bytes()) for it in sorted(folder.rglob("*")) if it.is_file()]


@functools.cache
def sum_of_kit():
    """A sum of the kit: its name, and the size and time of each file of which a check is made. A library's `format` has a sum of
    its other files."""
    kit = common.kit_folder()
    found = [it for pattern in ("bin/*", "logic_built/**/*", "rattle/logic/**/*", "rlibs/*/format") for it in sorted(kit.glob(pattern))]
    sizes = [(str(it), it.stat().st_size, it.stat().st_mtime_ns) for it in found if it.is_file()]
    return sum_of([(kit / "KIT-ID").read_bytes(), sizes])


@functools.cache
def sum_of_runners():
    """A sum of what reads and judges wrong bodies."""
    return sum_of([(common.ROOT / "tests/common.py").read_bytes(), *[it.read_bytes() for it in sorted(HERE.glob("*.py"))]])


def sum_of_crate(folder, line):
    """A sum of a crate's files that a check reads, and of its line of crates.txt."""
    return sum_of([line, *[texts_in(folder / part) for part in PARTS]])


class Kept:
    """The refusals of a crate's wrong bodies over the libraries in `below`."""

    def __init__(self, crate, below):
        own = common.crate(crate)
        # (a library's format has a sum of its other files)
        libraries = [(it, (below / "crates" / it / "out/rlib" / f"{it}.rlib/format").read_bytes()) for it in sorted(common.below(crate))]
        self.sums = sum_of_kit(), sum_of_runners(), sum_of_crate(own.folder(), own.line()), libraries
        self.folder = common.kit_folder().parent / "rattle-kept"
        if not self.folder.is_dir() or self.folder.stat().st_uid != os.geteuid():
            self.folder = None

    def place(self, body):
        return self.folder / "wrong-bodies" / sum_of([*self.sums, body.name, sorted(body.clauses), body.functions, body.changes, body.proved])

    def told(self, body):
        """The verdict on a body that was refused, and what was said of it; or nothing."""
        is_kept = self.folder is not None and self.place(body).is_file()
        return [tuple(self.place(body).read_text().split("\n", 1))] if is_kept else []

    def keep(self, body, told):
        if self.folder is not None:
            self.place(body).parent.mkdir(exist_ok=True)
            self.place(body).write_text("\n".join(told))
