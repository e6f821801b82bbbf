"""Installs the C library, its headers, and what pkg-config and CMake read.

    python3 bindings/c/install.py [--prefix FOLDER] [--libdir FOLDER] [--destdir FOLDER] [--library FILE] [--kit-library FILE]

The prefix is /usr/local where none is given. `--libdir` is the folder of the libraries, under the prefix unless it begins with
a slash: lib where none is given. `--destdir`, or DESTDIR in the environment, is put in front of each path that is written, and
stands in no file. LIBRARY is libpuffin_c.a, and the kit's library its c/liblibc_c.a; without them they are taken from where
`rt lib` and the kit have them. `ar` is needed.

The library folder gets libpuffin.a, which has all that a program links: the library, and the object of the kit through which it
allocates. Where the C compiler makes one, there is a shared library too, which shows the calls of puffin.h alone:
libpuffin.so.0.20.0, and the links libpuffin.so.0, its SONAME, and libpuffin.so. pkg-config finds the archive as `puffin` and the
shared library as `puffin-shared`; CMake finds both as puffin::puffin and puffin::shared.
"""

import argparse
import os
import pathlib
import re
import shutil
import subprocess
import sys
import tempfile

HERE = pathlib.Path(__file__).resolve().parent
CRATE = HERE.parents[1] / "crates" / "puffin_c"
HEADERS = tuple(sorted(path.name for path in CRATE.glob("*.h*")))
# the object of the kit's archive that calls malloc, realloc and free
HEAP = "heap.pic.o"
# what pkg-config and CMake read, by the folder for it under the folder of the libraries
TEXTS = {
    "puffin.pc": "pkgconfig",
    "puffin-shared.pc": "pkgconfig",
    "puffin-config.cmake": "cmake/puffin",
    "puffin-config-version.cmake": "cmake/puffin",
}


def kit_library():
    """The kit's archive, beside the page that `rt doc` names."""
    told = subprocess.run(["rt", "doc"], capture_output=True, text=True, check=True)
    return pathlib.Path(told.stdout.strip()).resolve().parent / "c" / "liblibc_c.a"


def version():
    """The version that the header tells."""
    text = (CRATE / "puffin.h").read_text()
    return ".".join(re.search(rf"^#define PUFFIN_VERSION_{part} (\d+)$", text, re.M)[1] for part in ("MAJOR", "MINOR", "PATCH"))


def make_archive(to, library, kit):
    shutil.copyfile(library, to)
    with tempfile.TemporaryDirectory() as folder:
        subprocess.run(["ar", "x", kit, HEAP], cwd=folder, check=True)
        subprocess.run(["ar", "rs", to, pathlib.Path(folder) / HEAP], capture_output=True, check=True)


def make_shared(folder, archive):
    """Makes the shared library with its links, or says why it couldn't."""
    whole, short = f"libpuffin.so.{version()}", f"libpuffin.so.{version().split('.')[0]}"
    with tempfile.TemporaryDirectory() as scratch:
        script = pathlib.Path(scratch) / "symbols"
        script.write_text("{ global: puffin_*; local: *; };\n")
        words = [os.environ.get("CC", "cc"), "-shared", "-o", folder / whole, f"-Wl,-soname,{short}"]
        words += [f"-Wl,--version-script={script}", "-Wl,-z,defs", "-Wl,--whole-archive", archive, "-Wl,--no-whole-archive"]
        made = subprocess.run([str(word) for word in words], capture_output=True, text=True)
    if made.returncode:
        (folder / whole).unlink(missing_ok=True)
        print(f"no shared library: {made.stderr.strip().splitlines()[-1:] or ['the compiler failed']}")
        return
    for link, to in ((short, whole), ("libpuffin.so", short)):
        (folder / link).unlink(missing_ok=True)
        (folder / link).symlink_to(to)


def install(given):
    libraries = pathlib.PurePath(given.prefix, given.libdir)
    put = lambda path: pathlib.Path(f"{given.destdir}{path}")
    for folder in (put(given.prefix) / "include", *(put(libraries) / it for it in TEXTS.values())):
        folder.mkdir(parents=True, exist_ok=True)
    for header in HEADERS:
        shutil.copyfile(CRATE / header, put(given.prefix) / "include" / header)
    make_archive(put(libraries) / "libpuffin.a", given.library, given.kit_library)
    make_shared(put(libraries), put(libraries) / "libpuffin.a")
    for name, folder in TEXTS.items():
        # from the text's own folder, so that an installed tree may be moved, unless the libraries lie elsewhere
        inside = given.prefix in libraries.parents
        up = os.path.relpath(given.prefix, libraries / folder) if inside else None
        words = {"VERSION": version(), "MAJOR": version().split(".")[0]}
        words["LIBDIR"] = str(libraries.relative_to(given.prefix) if inside else libraries)
        words["PC_PREFIX"] = f"${{pcfiledir}}/{up}" if inside else str(given.prefix)
        words["PC_LIBDIR"] = "${prefix}/" + words["LIBDIR"] if inside else words["LIBDIR"]
        words["CMAKE_PREFIX"] = f"${{CMAKE_CURRENT_LIST_DIR}}/{up}" if inside else str(given.prefix)
        text = re.sub(r"@([A-Z_]+)@", lambda word: words[word[1]], (HERE / f"{name}.in").read_text())
        (put(libraries) / folder / name).write_text(text)


def arguments():
    parser = argparse.ArgumentParser(usage=__doc__.splitlines()[2].strip())
    parser.add_argument("--prefix", type=lambda word: pathlib.Path(word).resolve(), default=pathlib.Path("/usr/local"))
    parser.add_argument("--libdir", default="lib")
    parser.add_argument("--destdir", default=os.environ.get("DESTDIR", ""))
    parser.add_argument("--library", type=lambda word: pathlib.Path(word).resolve(), default=CRATE / "out" / "libpuffin_c.a")
    parser.add_argument("--kit-library", type=lambda word: pathlib.Path(word).resolve())
    given = parser.parse_args()
    if not given.library.is_file():
        sys.exit(f"install.py: there is no {given.library}: run `rt lib` in crates/puffin_c first")
    given.kit_library = given.kit_library or kit_library()
    return given


if __name__ == "__main__":
    install(arguments())
