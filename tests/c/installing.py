"""Installs the library into folders of its own, and builds and runs programs by what pkg-config, CMake and cargo find there. No path
is set when a program runs."""

import pathlib
import re
import sys

from .programs import BINDINGS, C_COMPILER, HERE, is_there, run

# what find_package is asked for, and whether it finds the version 0.20.0
RANGES = {
    "0.20": True,
    "0.19": False,
    "0.21": False,
    "1": False,
    "0.20.1": False,
    "0.19...0.20": True,
    "0.19...0.20.0": True,
    "0.20...<0.30": True,
    "0.19...<0.20.0": False,
    "0.20.1...0.30": False,
}
PROJECT = """cmake_minimum_required(VERSION 3.19)
project(first C)
find_package(puffin 0.20...<0.21 REQUIRED)
foreach(kind puffin shared)
  add_executable(first_${kind} PROGRAM)
  target_link_libraries(first_${kind} puffin::${kind})
endforeach()
"""


def install(programs, *words, **variables):
    """Whether the library is installed so."""
    given = ["--library", programs.library, "--kit-library", programs.kit]
    got = run(sys.executable, BINDINGS / "c" / "install.py", *words, *given, **variables)
    return programs.check(f"the library is installed by {' '.join(map(str, words))}", got.returncode == 0, got.stderr)


def by_pkg_config(programs, libraries, package, *more):
    """A program by the flags of a package in this folder of libraries."""
    if not is_there("pkg-config"):
        return
    flags = run("pkg-config", "--cflags", "--libs", package, PKG_CONFIG_PATH=libraries / "pkgconfig").stdout.decode().split()
    program = programs.place / "by_pkg_config"
    program.unlink(missing_ok=True)
    what = f"first.c by pkg-config {package} in {libraries.relative_to(programs.place)}"
    if programs.built(what, C_COMPILER, "-std=gnu11", HERE / "first.c", *flags, *more, "-o", program):
        programs.ran(what, program, programs.place / "file", LD_LIBRARY_PATH="")
        needed = b"libpuffin.so.0]" in run("readelf", "-d", program).stdout
        programs.check(f"{what} needs the shared library or doesn't", needed == bool(more))


def by_cmake(programs, prefix):
    """A program by each target, and each range of versions."""
    source = programs.place / "cmake"
    (source / "ranges").mkdir(parents=True)
    (source / "CMakeLists.txt").write_text(PROJECT.replace("PROGRAM", str(HERE / "first.c")))
    where = f"-DCMAKE_PREFIX_PATH={prefix}"
    made = run("cmake", "-S", source, "-B", source / "build", where)
    if programs.check("cmake finds puffin", made.returncode == 0, made.stderr):
        made = run("cmake", "--build", source / "build")
        if programs.check("first.c is built by cmake", made.returncode == 0, made.stdout + made.stderr):
            for kind in ("puffin", "shared"):
                words = [source / "build" / f"first_{kind}", programs.place / "file"]
                programs.ran(f"first.c by puffin::{kind}", *words, LD_LIBRARY_PATH="")
    asked = "".join(f'find_package(puffin {it} QUIET)\nmessage("{it} ${{puffin_FOUND}}")\nunset(puffin_DIR CACHE)\n' for it in RANGES)
    (source / "ranges" / "CMakeLists.txt").write_text(f"cmake_minimum_required(VERSION 3.19)\nproject(ranges NONE)\n{asked}")
    told = run("cmake", "-S", source / "ranges", "-B", source / "ranges" / "build", where).stderr.decode()
    found = {words[0]: words[1] == "1" for words in re.findall(r"^(\S*\d) (\d)$", told, re.M)}
    programs.check("find_package takes versions and ranges", found == RANGES, told.encode())


def shared_library(programs, libraries):
    """The names of the shared library, and what it shows."""
    version = re.search(r"^Version: (.*)$", (libraries / "pkgconfig" / "puffin.pc").read_text(), re.M)[1]
    links = [str(pathlib.Path(libraries / name).readlink()) for name in ("libpuffin.so.0", "libpuffin.so")]
    programs.check("the links of libpuffin.so", links == [f"libpuffin.so.{version}", "libpuffin.so.0"], f"{links}".encode())
    told = run("readelf", "-d", libraries / f"libpuffin.so.{version}").stdout
    programs.check("the SONAME is libpuffin.so.0", b"soname: [libpuffin.so.0]" in told, told)
    names = {line.split()[-1] for line in run("nm", "-D", "--defined-only", libraries / "libpuffin.so").stdout.splitlines()}
    hidden = [name for name in names if not name.startswith(b"puffin_")]
    programs.check("libpuffin.so shows only puffin_*", names and not hidden, b" ".join(hidden))


def check(programs):
    prefix, staged = programs.place / "prefix", programs.place / "staged"
    if not install(programs, "--prefix", prefix):
        return
    libraries = prefix / "lib"
    by_pkg_config(programs, libraries, "puffin")
    if (libraries / "libpuffin.so").exists():
        by_pkg_config(programs, libraries, "puffin-shared", f"-Wl,-rpath,{libraries}")
        shared_library(programs, libraries)
    if is_there("cmake"):
        by_cmake(programs, prefix)
    if is_there("cargo"):
        where = {"PUFFIN_LIBRARY": libraries / "libpuffin.a", "CARGO_TARGET_DIR": programs.place / "target"}
        words = ["cargo", "run", "--offline", "--quiet", "--example", "rounds", programs.place / "file"]
        programs.ran("rounds.rs by the installed archive", *words, cwd=BINDINGS / "rust", **where)
    # under DESTDIR, whose path stands in no file: what is there may be moved
    if install(programs, "--prefix", "/usr", "--libdir", "lib/x86_64-linux-gnu", DESTDIR=staged):
        moved = programs.place / "moved"
        staged.rename(moved)
        texts = [path.read_text() for path in moved.rglob("*") if path.suffix in (".pc", ".cmake")]
        programs.check("DESTDIR stands in no file", len(texts) == 4 and not any(str(staged) in text for text in texts))
        by_pkg_config(programs, moved / "usr" / "lib" / "x86_64-linux-gnu", "puffin")
