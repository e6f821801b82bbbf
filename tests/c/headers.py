"""What the headers have inline: zones, the file writer and texts, without a warning in each standard, and watched by sanitizers."""

from .programs import ADDRESSES, C_COMPILER, HEADER, HERE, STRICT, is_there, run

WARNINGS = ["-Wall", "-Wextra", "-Wpedantic", "-Wconversion", "-Wshadow", "-Werror", "-I", HEADER]
C_STANDARDS = ("c99", "gnu99", "c11", "c17", "gnu17", "c2x")
CXX_STANDARDS = ("c++11", "c++14", "c++17", "gnu++17", "c++20", "c++2b")
WRAPPED = "-Wl,--wrap=write,--wrap=rename,--wrap=close,--wrap=fsync"


def without_warnings(programs):
    """The headers as the strictest programs compile them."""
    bare = programs.place / "bare.c"
    bare.write_text('#include "puffin.h"\nint main(void) { return (int)puffin_interface() - PUFFIN_INTERFACE; }\n')
    for compiler in filter(is_there, (C_COMPILER, "clang")):
        for standard in C_STANDARDS:
            # the names of POSIX, which puffin_writer.h and puffin_zones.h need, and puffin.h does not
            posix = [] if standard.startswith("gnu") else ["-D_POSIX_C_SOURCE=200809L"]
            words = [compiler, f"-std={standard}", *WARNINGS, "-O2", "-c", "-o", "/dev/null"]
            programs.built(f"game.c as {standard} by {compiler}", *words, *posix, HERE / "game.c")
            if posix:
                programs.built(f"puffin.h as {standard} by {compiler}", *words, bare)
        programs.built(f"game.c with PUFFIN_OFF by {compiler}", *words, "-DPUFFIN_OFF", *posix, HERE / "game.c")
    for compiler in filter(is_there, ("g++", "clang++")):
        for standard in CXX_STANDARDS:
            words = [compiler, f"-std={standard}", *WARNINGS, "-Wold-style-cast", "-fno-exceptions", "-c", "-o", "/dev/null"]
            programs.built(f"game.cc as {standard} by {compiler}", *words, HERE / "game.cc")
        programs.built(f"game.cc with PUFFIN_OFF by {compiler}", *words, "-DPUFFIN_OFF", HERE / "game.cc")
        words = [compiler, "-std=c++17", *STRICT, "-c", "-o", "/dev/null"]
        programs.built(f"scopes.cc as C++17 by {compiler}", *words, HERE / "scopes.cc")
    ignored = programs.place / "ignored.c"
    ignored.write_text('#include "puffin.h"\nint main(void) { PuffinIds ids = {0}; puffin_ids_open(&ids); return 0; }\n')
    got = run(C_COMPILER, *STRICT, "-c", "-o", "/dev/null", ignored)
    programs.check("a result that has to be looked at", got.returncode != 0 and b"unused-result" in got.stderr, got.stderr)


def writer(programs):
    """The files of PuffinWriter."""
    words = ["-std=gnu11", *STRICT, "-O1", HERE / "writer.c", programs.library, programs.kit, WRAPPED]
    programs.watched("writer.c", C_COMPILER, *words, given=[programs.place], printed=b"writer\n", by=[ADDRESSES])


def zones(programs):
    """Zones on many threads; C and C++ files share one session."""
    part = programs.place / "zones_c.o"
    words = ["-std=gnu99", *STRICT, "-c", HERE / "zones_c.c", "-o", part]
    if is_there("c++") and programs.built("zones_c.c", C_COMPILER, *words):
        words = ["-std=c++11", *STRICT, "-O1", HERE / "zones.cc", part, programs.library, programs.kit, "-pthread"]
        program = programs.watched("zones.cc", "c++", *words, given=[programs.place], printed=b"zones\n")
        programs.ran_by_valgrind("zones.cc", program, programs.place)


def games(programs):
    """The whole programs of docs/C.md, and the same where zones aren't compiled in: these need no library."""
    for compiler, source, standard in ((C_COMPILER, "game.c", "gnu99"), ("c++", "game.cc", "c++11")):
        if not is_there(compiler):
            continue
        words = [compiler, f"-std={standard}", *STRICT, HERE / source]
        program, file = programs.place / "game", programs.place / "game.puffin"
        if programs.built(source, *words, programs.library, programs.kit, "-pthread", "-o", program):
            programs.ran(source, program, cwd=programs.place)
            programs.check(f"the file of {source}", file.is_file() and file.read_bytes().startswith(b"PUF0"))
            if programs.look:
                told = run(programs.look, "folded", file).stdout
                programs.check(f"puffin-look shows the zones of {source}", b"turn" in told and b"turn;update " in told, told)
            file.unlink(missing_ok=True)
        if programs.built(f"{source} with PUFFIN_OFF", *words, "-DPUFFIN_OFF", "-o", program):
            programs.ran(f"{source} with PUFFIN_OFF", program, cwd=programs.place)
            programs.check(f"{source} with PUFFIN_OFF writes no file", not file.exists())


def check(programs):
    games(programs)
    writer(programs)
    zones(programs)
