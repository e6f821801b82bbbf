"""What the runner of this folder builds and runs programs with."""

import os
import pathlib
import shutil
import subprocess

from .. import common

HERE = pathlib.Path(__file__).resolve().parent
HEADER = common.ROOT / "crates" / "puffin_c"
BINDINGS = common.ROOT / "bindings"
C_COMPILER = os.environ.get("CC", "cc")
STRICT = ["-Wall", "-Wextra", "-Werror", "-I", HEADER]
ADDRESSES, THREADS = "address,undefined", "thread"


def run(*words, cwd=None, **variables):
    words = [str(word) for word in words]
    variables = {name: str(value) for name, value in variables.items()}
    return subprocess.run(words, capture_output=True, timeout=300, cwd=cwd, env={**os.environ, **variables})


LEFT_OUT = []


def leave_out(what):
    """Says that something isn't there, and what needs it isn't run."""
    LEFT_OUT.append(what)
    print(f"left out: {what}")


def is_there(program):
    """Whether a program is installed; says so if it isn't."""
    if not shutil.which(program):
        leave_out(program)
    return bool(shutil.which(program))


class Programs:
    """Programs over the C interface, built and run in a folder."""

    def __init__(self, place, library, kit, tool=None, look=None):
        self.count = common.Count()
        self.place = place
        self.library = library
        self.kit = kit
        self.tool = tool
        self.look = look

    def check(self, what, is_fine, told=b""):
        if not self.count.add(is_fine):
            print(f"failed: {what}\n{told.decode(errors='replace')}", flush=True)
        return is_fine

    def built(self, what, *words):
        """Whether these words build a program."""
        got = run(*words)
        return self.check(f"{what} is built", got.returncode == 0, got.stderr)

    def ran(self, what, *words, printed=None, **how):
        """What a program prints that has to end well, and to print this."""
        got = run(*words, **how)
        is_fine = got.returncode == 0 and printed in (None, got.stdout)
        self.check(what, is_fine, got.stdout + got.stderr)
        return got.stdout

    def watched(self, name, compiler, *words, given=(), printed=None, by=(ADDRESSES, THREADS)):
        """Builds a program with these words, and once more with each sanitizer that the compiler has, and runs each."""
        program = self.place / name.partition(".")[0]
        if self.built(name, compiler, *words, "-o", program):
            self.ran(name, program, *given, printed=printed)
        bare = self.place / "bare.c"
        bare.write_text("int main(void) { return 0; }\n")
        for sanitizer in by:
            watched = self.place / f"{program.name}_{sanitizer}"
            if run(C_COMPILER, f"-fsanitize={sanitizer}", bare, "-o", watched).returncode:
                leave_out(f"-fsanitize={sanitizer}")
            elif self.built(f"{name} with -fsanitize={sanitizer}", compiler, f"-fsanitize={sanitizer}", "-g", *words, "-o", watched):
                self.ran(f"{name} with -fsanitize={sanitizer}", watched, *given, printed=printed)
        return program

    def ran_by_valgrind(self, what, *words):
        """Runs a program again where valgrind is there, and looks whether valgrind finds fault with it."""
        if is_there("valgrind"):
            self.ran(f"{what} by valgrind", "valgrind", "--error-exitcode=9", "--leak-check=full", "-q", *words)
