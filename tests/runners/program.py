"""Runs a program of the repository without any proof, and compares what it prints with its file `stdout`.

    python3 -m tests.runners.program CRATE

The last line is 'N passed, M failed'.
"""

import subprocess
import sys

from .. import common


def main():
    crate = common.crate(sys.argv[1])
    words = ["rt", "try", "--seconds", "300"]
    ran = subprocess.run(words, cwd=crate.folder(), stdin=subprocess.DEVNULL, capture_output=True, timeout=900)
    count = common.Count()
    if not count.add(ran.returncode == 0 and ran.stdout == (crate.folder() / "stdout").read_bytes()):
        print(ran.stderr.decode(errors="replace"), f"program {crate.name}: status {ran.returncode}", sep="\n")
        wanted = (crate.folder() / "stdout").read_text().splitlines()
        for line in ran.stdout.decode(errors="replace").splitlines():
            print("" if line in wanted else f"program {crate.name} prints: {line}")
    return count.end()


if __name__ == "__main__":
    sys.exit(main())
