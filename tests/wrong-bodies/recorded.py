"""Looks at the runner of wrong bodies without a prover.

    python3 -m tests.wrong-bodies.recorded

It reads the verdicts from outputs of checks that are kept in `recorded`, and compares them with those that they must give; it
looks whether a refusal is forgotten once a file changes that it was read from, whether the gate tries what it should, and what is
written into an edit.

NAME.edit is a wrong body of the crate `heaps`, of which `recorded` has a source file, a definition and a proof, each with `.txt`
after its name, since `rt ci` wants no source outside of crates; NAME.said is what a check of the body prints, and NAME.again what
it prints without the answers that don't fit. A line `ends` in the edit is the verdict, if it isn't REFUSED BY ITS CLAUSE. The
last line is 'N passed, M failed'.
"""

import pathlib
import shutil
import sys
import tempfile

from .. import common
from .kept import sum_of_crate
from .run import parsed, texts_of, wrong_bodies, write_clauses
from .verdicts import Look, held_to_names, is_judged, judged, looked_at

FOLDER = pathlib.Path(__file__).resolve().parent / "recorded"
CRATE = "heaps"


def copy_sources(to):
    """Copies the crate's files to a folder, under their own names."""
    for path in FOLDER.rglob("*.txt"):
        copy = to / path.relative_to(FOLDER).with_suffix("")
        copy.parent.mkdir(parents=True, exist_ok=True)
        shutil.copy(path, copy)


def not_read_again(crate):
    """The files of a crate that change no sum under which a refusal is kept."""
    known = sum_of_crate(crate, "")
    for path in sorted(it for it in crate.rglob("*") if it.is_file()):
        text = path.read_text()
        path.write_text(f"{text} ")
        if sum_of_crate(crate, "") == known:
            yield str(path.relative_to(crate))
        path.write_text(text)


def not_in_the_gate():
    """The wrong bodies with a line `gate` that the gate leaves out, or that it tries without one."""
    with_line = {it.stem for it in common.ROOT.glob("crates/*/wrong/*.edit") if "\ngate: " in it.read_text()}
    return sorted(with_line ^ {body.name for _, bodies in wrong_bodies(["--gate"]) for body in bodies})


# What a refusal tells, with the lines that it writes into an edit. Of a definition no clause may be told.
WRITTEN = ("top: kept; top: least", ["refused by: top: kept", "refused by: top: least"]), ("", [])


def written_otherwise(folder):
    """What a refusal tells, where other lines are written."""
    path = folder / "top.edit"
    for told, lines in WRITTEN:
        path.write_text("function: top\nfile: src/heap.rt\n")
        write_clauses(path, told)
        if path.read_text().splitlines() != ["function: top", *lines, "file: src/heap.rt"]:
            yield told or "nothing"


def main():
    count = common.Count()
    with tempfile.TemporaryDirectory() as name:
        crate = pathlib.Path(name)
        copy_sources(crate)
        for path in sorted(FOLDER.glob("*.edit")):
            body, look = parsed(path, crate), Look()
            said = path.with_suffix(".said").read_text()
            if looked_at(body, said, texts_of(crate), look) and path.with_suffix(".again").is_file():
                said = path.with_suffix(".again").read_text()
            verdict, clauses = judged(body, CRATE, said, look) if is_judged(said) else ("no end of a check", ())
            verdict, _ = held_to_names(body, verdict, clauses)
            are_whole = all(text.count("(") == text.count(")") for text in look.texts.values())
            is_well = count.add(verdict == body.ends and are_whole)
            print(f"recorded {path.stem} ... {'ok' if is_well else f'{verdict} in place of {body.ends}, or half an answer is left'}")
        others = ("forgets", not_read_again(crate)), ("gate", not_in_the_gate()), ("writes", written_otherwise(crate))
        for what, wrong in ((what, list(wrong)) for what, wrong in others):
            print(f"recorded {what} ... {'ok' if count.add(not wrong) else f'wrong: {chr(32).join(wrong)}'}")
    return count.end()


if __name__ == "__main__":
    sys.exit(main())
