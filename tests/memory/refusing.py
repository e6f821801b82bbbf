"""Runs programs with one allocation refused, or one thread not started."""

import os
import pathlib
import subprocess

from .ends import Ended

HERE = pathlib.Path(__file__).resolve().parent


class Refusing:
    """Runs programs in a folder, with refuse.c in place of the C library's allocator."""

    def __init__(self, folder):
        self.folder = pathlib.Path(folder)
        self.library = self.folder / "refuse.so"
        compiler = os.environ.get("CC", "cc")
        subprocess.run([compiler, "-O2", "-shared", "-fPIC", "-o", self.library, HERE / "refuse.c", "-ldl"], check=True)

    def run(self, words, given=b"", number=0, thread=0):
        """How a program ends of which the allocation or the thread with this number is refused. 0 is none."""
        told, out = self.folder / "count", self.folder / "out"
        for path in (told, out):
            path.unlink(missing_ok=True)
        settings = {"LD_PRELOAD": self.library, "REFUSED": number, "REFUSED_THREAD": thread, "REFUSED_COUNT": told}
        environment = {**os.environ, **{name: str(it) for name, it in settings.items()}}
        try:
            ran = subprocess.run(words, input=given, capture_output=True, cwd=self.folder, env=environment, timeout=60)
        except subprocess.TimeoutExpired as late:
            return Ended(None, late.stdout or b"", late.stderr or b"", b"", 0)
        count = int(told.read_text()) if told.exists() else 0
        return Ended(ran.returncode, ran.stdout, ran.stderr, out.read_bytes() if out.exists() else b"", count)

    def each(self, words, given, usual):
        """How a program ends with each of its allocations refused, by their numbers."""
        return {number: self.run(words, given, number) for number in range(1, usual.allocations + 1)}
