"""Builds libpuffin_c.a after `rt ci`, by LLVM and by Rattle's own compiler, and tests both by run.py.

    python3 -m tests.c.gate

`rt ci` proves puffin_c and makes no archive of it, but it leaves each library below in that crate's out/rlib. `rattle build`
makes the archive over these. It builds only what it has proved itself, so it proves puffin_c once more, and nothing below.
In a checkout where earlier runs of rt have kept libraries, `rt ci` puts those back, and `rt lib` makes the archive over them.
The second archive takes the proof of the first. They are libpuffin_c.a and libpuffin_c_second.a in crates/puffin_c/out. The last
line is 'N passed, M failed'.
"""

import os
import subprocess
import sys
import tempfile

from .. import common

CRATES = common.ROOT / "crates"
CRATE = CRATES / "puffin_c"
ARCHIVE = CRATE / "out" / "libpuffin_c.a"
SECOND = CRATE / "out" / "libpuffin_c_second.a"
TOOL = CRATES / "puffin_tool" / "out" / "puffin_tool"
LOOK = CRATES / "puffin_look_tool" / "out" / "puffin_look_tool"


def building(kit, kept, archive, *more):
    """The command that makes an archive over what `rt ci` left. `kept` is a folder for what was proved."""
    made = ["--toolchain", kit / "toolchain", "--jobs", os.environ.get("RT_JOBS", "2"), "--incremental", kept, "-o", archive]
    return [kit / "bin" / "rattle", "build", *common.words_over("puffin_c", kit), *made, *more]


def made(words, archive):
    """Whether these words make an archive; prints what they say if they don't."""
    archive.unlink(missing_ok=True)
    got = subprocess.run(words, cwd=CRATE, capture_output=True, text=True, errors="replace")
    said = (got.stdout + got.stderr).splitlines()
    if got.returncode or not archive.is_file():
        print(*said, f"failed: {archive.name} isn't built", sep="\n")
        return False
    print(*[line for line in said if line.startswith("logic=")], sep="\n", flush=True)
    return True


def both_made(kit):
    """Whether both archives are made. Where earlier runs of rt have kept libraries, `rt lib` makes each as libpuffin_c.a."""
    second = ["--backend", "rattle"]
    if any(CRATES.glob("*/out/rlib/stamp")):
        if not made(["rt", "lib", *second], ARCHIVE):
            return False
        ARCHIVE.replace(SECOND)
        return made(["rt", "lib"], ARCHIVE)
    with tempfile.TemporaryDirectory() as kept:
        return made(building(kit, kept, ARCHIVE), ARCHIVE) and made(building(kit, kept, SECOND, *second), SECOND)


def main():
    kit = common.kit_folder()
    ARCHIVE.parent.mkdir(exist_ok=True)
    if not both_made(kit):
        count = common.Count()
        count.add(False)
        return count.end()
    words = [sys.executable, "-m", "tests.c.run", ARCHIVE, kit / "c" / "liblibc_c.a", TOOL, LOOK, SECOND]
    return subprocess.run(words, cwd=common.ROOT).returncode


if __name__ == "__main__":
    sys.exit(main())
