"""Builds programs over the C interface, runs them, and reads the files that they write.

    python3 -m tests.c.run LIBRARY KIT_LIBRARY [TOOL [LOOK [SECOND]]]

LIBRARY is libpuffin_c.a, KIT_LIBRARY the kit's c/liblibc_c.a, TOOL puffin-tool, which reports the files, LOOK puffin-look, which
shows them, and SECOND the library as Rattle's own compiler makes it: the C programs run over both, and what they write
and print has to be the same. The folder looked has what each word of puffin-look has to print. A C compiler is needed: `cc`, or
what CC names. What else isn't there (a C++ compiler, cargo, valgrind, the thread sanitizer, pkg-config, cmake) is left out and
named, and so are puffin-tool and puffin-look. Where the environment has NEEDS_ALL, leaving anything out fails. The last line is 'N passed, M failed'.
"""

import concurrent.futures
import os
import pathlib
import re
import shutil
import sys
import tempfile

from .. import common
from . import headers, installing, measuring
from .programs import ADDRESSES, BINDINGS, C_COMPILER, HEADER, HERE, LEFT_OUT, STRICT, Programs, is_there, leave_out, run

WRAPPED = ["-Wl,--wrap=malloc", "-Wl,--wrap=realloc"]
# frames of the long session
FRAMES = 100_000
# readings of the clock by each of two threads
READINGS = 20_000
# the most instructions that the beginning and the end of a scope may take, with the loop that makes the calls and a report every
# 128 scopes, but without those of the C library
INSTRUCTIONS = {"on": 188, "text": 216, "off": 10, "zone": 225, "zone-off": 10}
# the words of puffin-look
LOOKED = ("threads", "frames", "frame", "trace", "folded")
CALLS_REPORT = (
    b"frames 1\n",
    b"record pieces 2 total 800 per_frame 800 max 400 ",
    b"  part (step) pieces 4 total 200 per_frame 200 max 50 ",
)


def viewed_thread(start, name):
    """What viewer.c prints of a thread of calls.c: two rounds of a scope with two scopes in it."""
    lines = [f"  {start}:{name} scopes 6 depth 2"]
    for begin in (start, start + 400):
        lines += [f"    {begin} 400", f"      {begin + 100} 50 step", f"      {begin + 250} 50 step"]
    return lines


def viewed():
    """What viewer.c prints of the file of calls.c."""
    threads = ["5:gpu frames 1 scopes 1", "1000:main frames 1 scopes 6", "1500:worker frames 1 scopes 6"]
    frame = ["frame 0 scopes 13", "  5:gpu scopes 1 depth 1", "    5 4"]
    lines = threads + frame + viewed_thread(1000, "main") + viewed_thread(1500, "worker")
    return "".join(f"{line}\n" for line in lines).encode()


def is_calls_report(told):
    lines = told.splitlines(keepends=True)
    return len(lines) == len(CALLS_REPORT) and all(map(bytes.startswith, lines, CALLS_REPORT))


def numbers(said):
    """The numbers in the last line that calls.c prints, `allocations N refused M`, or zeros if there is no such line."""
    found = re.search(rb"^allocations (\d+) refused (\d+)\n\Z", said, re.M)
    return (int(found[1]), int(found[2])) if found else (0, 0)


class Calls(Programs):
    """The programs over the calls of puffin.h."""

    def check_report(self, what, thread, is_told):
        """What the program TOOL prints of the file that was written."""
        if self.tool:
            told = run(self.tool, "report", self.place / "file", thread)
            self.check(what, is_told(told.stdout), told.stdout + told.stderr)

    def calls(self):
        """The C program: each call, and each allocation refused in turn."""
        words = ["-std=c11", *STRICT, "-O1", HERE / "calls.c", self.library, self.kit, *WRAPPED, "-lpthread"]
        program = self.watched("calls.c", C_COMPILER, *words, given=[self.place / "file"])
        if program.is_file():
            usual = self.ran("calls.c", program, self.place / "file")
            self.check_report("puffin-tool reports the file of calls.c", "1000:main", is_calls_report)
            self.looked("calls", self.place / "file", 0)
            self.refusals(program, usual)

    def looked(self, source, file, index):
        """What each word of puffin-look prints of the file of a C program; of the word `frame`, the frame with this index."""
        for word in LOOKED if self.look else ():
            told = run(self.look, word, file, *([index] if word == "frame" else []))
            is_fine = told.returncode == 0 and told.stdout == (HERE / "looked" / source / word).read_bytes()
            self.check(f"puffin-look {word} of the file of {source}.c", is_fine, told.stdout + told.stderr)

    def refusals(self, program, usual):
        """Each allocation of the C program refused in turn: it makes some, and as many at least as the one that is refused; and of
        one that is refused no more than one call is. Some call has to be refused."""
        number, none = numbers(run(program, self.place / "file", 0).stdout)
        self.check("calls.c allocates", number > 0 and numbers(usual)[0] > 0 and none == 0, usual)
        calls = 0
        for refused in range(1, number + 1):
            got = run(program, self.place / "file", refused)
            made, told = numbers(got.stdout)
            calls += told
            self.check(f"allocation {refused} refused", got.returncode == 0 and made >= refused and told <= 1, got.stderr + got.stdout)
        self.check("some call is refused for memory", calls > 0)
        for refused in (0, number // 3, number - 2):
            self.ran_by_valgrind(f"calls.c, allocation {refused} refused,", program, self.place / "file", refused)

    def viewer(self):
        """The threads, frames and scopes of the file that calls.c wrote."""
        words = ["-std=c11", *STRICT, HERE / "viewer.c", self.library, self.kit]
        program = self.place / "viewer"
        if self.built("viewer.c", C_COMPILER, *words, "-o", program):
            self.ran("viewer.c", program, self.place / "file", printed=viewed())
            self.ran_by_valgrind("viewer.c", program, self.place / "file")

    def damaged(self):
        """The listings over damaged files of the file that calls.c wrote."""
        # the file twice over is cut at each byte, and each byte is changed in eight ways; one more file has many streams
        size = 2 * (self.place / "file").stat().st_size - 4
        printed = b"files %d\n" % (size + 1 + 8 * size + 1)
        words = ["-std=gnu11", *STRICT, "-O1", HERE / "damaged.c", self.library, self.kit]
        self.watched("damaged.c", C_COMPILER, *words, given=[self.place / "file"], printed=printed, by=[ADDRESSES])

    def totals(self):
        """A thread's merged scopes."""
        words = ["-std=c99", *STRICT, HERE / "totals.c", self.library, self.kit]
        if self.built("totals.c", C_COMPILER, *words, "-o", self.place / "totals"):
            self.ran("totals.c", self.place / "totals", printed=2 * b"1 90 ns per frame\n  1 20 ns per frame\n")

    def clock(self):
        """Two threads read the clock of puffin.h in turn."""
        words = ["-std=gnu11", *STRICT, HERE / "clock.c", "-lpthread"]
        if self.built("clock.c", C_COMPILER, *words, "-o", self.place / "clock"):
            got = run(self.place / "clock", READINGS)
            self.check("clock.c", got.returncode == 0 and got.stdout == b"readings %d\n" % (2 * READINGS), got.stderr)

    def cost(self):
        """The instructions of scopes that are on, without and with a text, of scopes that are off, and of zones."""
        program = self.place / "cost"
        words = ["-std=gnu11", *STRICT, "-O2", HERE / "cost.c", self.library, self.kit]
        if not self.built("cost.c", C_COMPILER, *words, "-o", program) or not is_there("valgrind"):
            return
        for kind, most in INSTRUCTIONS.items():
            reported = "off" not in kind
            few, many = (self.instructions(program, [kind, it], b"%d\n" % (it * reported)) for it in (1280, 12800))
            self.is_cheap(kind, (many - few) / (12800 - 1280), most)

    def is_cheap(self, kind, each, most):
        print(f"instructions of a scope, {kind}: {each:.1f}")
        self.check(f"a scope, {kind}, takes at most {most} instructions", 0 < each < most + 0.5, str(each).encode())

    def instructions(self, program, words, printed):
        """How many instructions of its own a program takes."""
        counted = self.place / "callgrind"
        words = ["--tool=callgrind", f"--callgrind-out-file={counted}", program, *words]
        self.ran(f"{program.name} by callgrind", "valgrind", *words, printed=printed)
        lines = run("callgrind_annotate", "--threshold=100", counted).stdout.decode().splitlines()
        own = [line.split()[0] for line in lines if line.endswith(f"[{program}]")]
        return sum(int(number.replace(",", "")) for number in own)

    def first(self):
        """The program that docs/C.md shows."""
        words = ["-std=gnu11", *STRICT, HERE / "first.c", self.library, self.kit]
        if not self.built("first.c", C_COMPILER, *words, "-o", self.place / "first"):
            return
        file = self.place / "file"
        got = run(self.place / "first", file)
        self.check("first.c", got.returncode == 0 and file.read_bytes().startswith(b"PUF0"), got.stderr)
        begin = b"frames 1\nload (image-12.png) pieces 1 "
        start = got.stdout.decode().strip()
        self.check_report("puffin-tool reports the file of first.c", f"{start}:main", lambda told: told.startswith(begin))

    def sizes(self, compiler, more):
        """The sizes of the header's types, by one compiler."""
        if not is_there(compiler):
            return
        words = [compiler, "-I", HEADER, *more, HERE / "sizes.c", *(["-x", "none"] if more else []), self.library, self.kit]
        if self.built(f"sizes.c by {compiler}", *words, "-o", self.place / "sizes"):
            got = run(self.place / "sizes")
            self.check(f"sizes.c by {compiler}", got.returncode == 0, got.stdout)

    def scopes(self):
        """The program over puffin.hpp, on two threads."""
        if is_there("c++"):
            words = ["-std=c++11", *STRICT, "-pedantic", HERE / "scopes.cc", self.library, self.kit, "-lpthread"]
            self.watched("scopes.cc", "c++", *words, given=[self.place / "file"])

    def long(self):
        """A long session, in files that are read as soon as they are whole, and in little memory."""
        words = ["-std=gnu11", *STRICT, "-O1", HERE / "long.c", self.library, self.kit]
        program = self.place / "long"
        if not self.built("long.c", C_COMPILER, *words, "-o", program):
            return
        for frames in (FRAMES, 3):
            self.ran(f"long.c of {frames} frames", program, frames, self.place, printed=b"frames %d\n" % frames)
        self.looked("long", self.place / "long.puffin", 1)
        self.ran_by_valgrind("long.c", program, 200, self.place)

    def bindings(self):
        """The Rust crate: its tests, and its examples, which profile themselves."""
        if not is_there("cargo"):
            return
        crate = {"cwd": BINDINGS / "rust", "CARGO_TARGET_DIR": self.place / "target"}
        crate |= {"PUFFIN_LIBRARY": self.library, "PUFFIN_KIT_LIBRARY": self.kit}
        self.ran("the tests of bindings/rust", "cargo", "test", "--offline", "--quiet", **crate)
        example = ["cargo", "run", "--offline", "--quiet", "--example"]
        self.ran("turns.rs", *example, "turns", self.place / "file", **crate)
        is_told = lambda told: told.startswith(b"frames 3\n")
        self.check_report("puffin-tool reads the file of turns.rs", "1000:main-loop", is_told)
        wanted = b"frame 0 scopes 18\nframe 1 scopes 18\nframe 2 scopes 18\nrefused 0\n"
        self.ran("rounds.rs", *example, "rounds", self.place / "file", printed=wanted, **crate)
        self.ran("off.rs", "cargo", "build", "--offline", "--quiet", "--release", "--example", "off", **crate)
        off = self.place / "target" / "release" / "examples" / "off"
        if off.is_file() and is_there("valgrind"):
            few, many = (self.instructions(off, [turns], b"turns %d\n" % turns) for turns in (1000, 11000))
            self.is_cheap("off, by Rust", (many - few) / 10000, INSTRUCTIONS["off"])

def calls_of(programs):
    programs.calls()
    programs.viewer()
    programs.damaged()
    programs.totals()
    programs.clock()
    programs.cost()
    programs.first()
    programs.sizes(C_COMPILER, [])
    programs.sizes("c++", ["-x", "c++"])
    programs.scopes()


def second_calls_of(programs):
    """What the archive of the second compiler is tried with."""
    programs.calls()
    programs.viewer()
    programs.first()
    programs.sizes(C_COMPILER, [])
    programs.long()


# what runs beside each other, each in a folder of its own
LANES = (calls_of, Calls.long, Calls.bindings, installing.check, headers.without_warnings, headers.check, measuring.check)


def main():
    library, kit, *rest = (pathlib.Path(word).resolve() for word in sys.argv[1:6])
    tool, look, second = (*rest, None, None, None)[:3]
    count = common.Count()
    if not shutil.which(C_COMPILER) or not all(it.is_file() for it in (tool, look) if it):
        print("failed: this needs a C compiler (cc, or what CC names), and each program that is named")
        count.add(False)
        return count.end()
    for name, it in (("puffin-tool", tool), ("puffin-look", look)):
        if not it:
            leave_out(name)
    lanes = [(lane, library) for lane in LANES] + [(second_calls_of, second)] * bool(second)
    with tempfile.TemporaryDirectory() as folder, concurrent.futures.ThreadPoolExecutor(len(lanes)) as threads:
        all_programs = []
        for number, (lane, archive) in enumerate(lanes):
            place = pathlib.Path(folder, str(number))
            place.mkdir()
            all_programs.append(Calls(place, archive, kit, tool, look))
        for done in [threads.submit(lane, programs) for (lane, _), programs in zip(lanes, all_programs)]:
            done.result()
    for programs in all_programs:
        count.passed += programs.count.passed
        count.failed += programs.count.failed
    if os.environ.get("NEEDS_ALL"):
        count.add(not LEFT_OUT)
    return count.end()


if __name__ == "__main__":
    sys.exit(main())
