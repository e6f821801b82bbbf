"""Prints the spec files of each crate, or of the crates that are named, each with what it defines.

    python3 -m tests.house.spec_files [CRATE..]

The first line of a spec file is a comment that says what the file defines. Left out are `Lib.antt`, which only lists a
crate's folders, and files that define nothing themselves, as the pages of some folders.
"""

import re
import sys

from .. import common

TOP = common.ROOT
DEFINITION = re.compile(r"^ *(?:abbrev |unfoldable )?pub (?!mod |use )", re.M)


def spec_files(crate):
    """A crate's spec files: first those in folders, by name, and those for private code last."""
    specs = TOP / "crates" / crate / "specs"
    found = [path for path in specs.rglob("*.antt") if path.name != "Lib.antt"]
    return sorted(found, key=lambda path: ("inner" in path.relative_to(specs).parts, path.with_suffix("").parts))


def summary(path):
    """What the file defines, by its first line, or None where that isn't a comment of whole sentences."""
    head = re.match(r"-- (\S.*\.)\n(?!--)", path.read_text())
    return head and head[1]


def without_summary():
    return [path for crate in common.crates() for path in spec_files(crate) if not summary(path)]


def main():
    for crate in sys.argv[1:] or common.crates():
        for path in spec_files(crate):
            if DEFINITION.search(path.read_text()):
                print(f"{path.relative_to(TOP)}: {summary(path)}")


if __name__ == "__main__":
    main()
