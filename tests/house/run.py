"""Looks at the house rules that no prover sees, and says which files break them.

    python3 -m tests.house.run

Clauses have at most 100 columns; crates cite of those below them no proofs but `lemmas`; each wrong body, and each edit that a
runner has to notice, can be applied, and the gate tries some of each crate; what the rows of docs/PROOFS.md cite is there;
each wrong body is one of a promise's, each promise has one or a reason why not, and its contract leads to the functions that its
wrong bodies change; a row cites a clause that refuses it; each spec file begins with a line that says what it defines; each program has a file with what it prints;
the listings of docs/C.md are parts of the programs of tests/c, and those of other pages stand in sources that they link; links
in the documents lead somewhere. The last line is 'N passed, M failed'.
"""

import re
import subprocess
import sys

from .. import common
from . import drawing, listings, promises, spec_files

TOP = common.ROOT
MOST_OF_THE_KIT, MOST_IN_THE_GATE = 4, 12
CLAUSE = re.compile(r"^\s*(?:requires|ensures)\*?(?: \w+)? \{|^\s*ghost \w+(?: =|:) \{", re.M)


def files(*endings):
    """The repository's files with these endings."""
    listed = subprocess.run(["git", "ls-files", "-co", "--exclude-standard"], cwd=TOP, capture_output=True, text=True, check=True)
    return [TOP / name for name in listed.stdout.split("\n") if name.endswith(endings) and (TOP / name).is_file()]


def source_files(*endings):
    """The files of crates with these endings."""
    return [path for path in files(*endings) if path.is_relative_to(TOP / "crates")]


def short(path):
    return str(path.relative_to(TOP))


def clause_end(text, start):
    """Where the clause ends whose brace is the last character before start."""
    depth = 1
    while depth:
        depth += {"{": 1, "}": -1}.get(text[start], 0)
        start += 1
    return start


def wide_clauses():
    for path in source_files(".rt"):
        text = path.read_text()
        for clause in CLAUSE.finditer(text):
            whole = text[clause.start() : clause_end(text, clause.end())]
            if any(len(line) > 100 for line in whole.split("\n")):
                yield f"{short(path)}: a clause line has over 100 columns: {clause[0].strip()}"


def path_end(text, start):
    """Where a path ends that begins at a place: at a blank or a bracket, but not within braces."""
    depth, at = 0, start
    while at < len(text) and (depth or re.match(r"[^\s();,}]", text[at])):
        depth += {"{": 1, "}": -1}.get(text[at], 0)
        at += 1
    return at


def dotted(path):
    """The paths that one with braces stands for: `a.b` and `a.c.d` for `a.{b, c.d}`."""
    head, brace, rest = path.partition("{")
    if not brace:
        return [path]
    items, depth = [""], 0
    for letter in rest[: clause_end(rest, 0) - 1] if "}" in rest else rest:
        depth += {"{": 1, "}": -1}.get(letter, 0)
        if letter == "," and not depth:
            items.append("")
        else:
            items[-1] += letter
    return [head + it for item in items for it in dotted(item.strip())]


def proofs_cited_from_above():
    crates = common.crates()
    for path in source_files(".antt", ".rt"):
        own = path.relative_to(TOP).parts[1]
        text = re.sub(r"\s*\.\s*(?=[\w{])", ".", path.read_text())
        for start in re.finditer(r"\bRattle\.", text):
            for cited in dotted(text[start.start() : path_end(text, start.start())]):
                _, crate, *rest = re.split(r"[.\s]+", cited)
                if crate in crates and crate != own and rest[:1] == ["proofs"] and rest[1:2] != ["lemmas"]:
                    yield f"{short(path)}: cites proofs of {crate}: {cited}"


def edits():
    return [path for path in promises.edits().values() if path.is_file()]


# The words before an edit's changes, by the name of its folder.
HEADS = {"runners": ("runner", "fails", "gone"), "wrong": promises.HEADS, "must-fail": promises.HEADS}


def edits_that_do_not_apply():
    """Wrong bodies, and edits that the runners have to notice."""
    for path in [*edits(), *sorted(TOP.glob("tests/runners/*.edit"))]:
        of_tests = path.is_relative_to(TOP / "tests")
        words = ("test",) if path.is_relative_to(TOP / "tests/must-fail") else HEADS[path.parent.name]
        folder = TOP if of_tests else path.parents[1]
        try:
            common.edited(common.parsed(path, words).changes, lambda file: (folder / file).read_text())
        except (ValueError, OSError) as fault:
            yield f"{short(path)}: {fault}"


def crates_with_other_edits_in_the_gate():
    """Of a crate `rt ci` tries at most a few wrong bodies, which cost it a proof of the crate, and the gate at most twelve. Only
    the C library has none there."""
    for name, crate in common.crates().items():
        of_kit, others = (list(crate.folder().glob(f"{it}/*.edit")) for it in ("must-fail", "wrong"))
        in_gate = len(of_kit) + sum("\ngate: " in path.read_text() for path in others)
        if len(of_kit) > MOST_OF_THE_KIT or in_gate > MOST_IN_THE_GATE or others and not in_gate and not crate.kinds:
            yield f"crates/{name}: {len(of_kit)} wrong bodies in must-fail, and {in_gate} in the gate"


def spec_files_without_a_summary():
    for path in spec_files.without_summary():
        yield f"{short(path)}: its first line isn't a comment of one line that says what the file defines"


def crates_that_are_not_drawn():
    for name in drawing.without_words():
        yield f"tests/house/drawing.py: its WORDS and crates.txt differ in {name}"
    if not drawing.is_current():
        yield "docs/crates.svg is old; run: python3 -m tests.house.drawing --write"


def programs_without_what_they_print():
    for path in sorted(TOP.glob("crates/*/src/main.rt")):
        if not (path.parent.parent / "stdout").is_file():
            yield f"{short(path)}: its crate has no file stdout, so the gate takes it that the program prints nothing"


def anchors(text):
    """What a document can be linked by: its headings, and what has an `<a id="..">`."""
    heads = re.findall(r"^#+ (.*)$", text, re.M)
    named = re.findall(r'<a id="([^"]+)">', text)
    return {re.sub(r"[^\w\- ]", "", head.lower()).replace(" ", "-") for head in heads} | set(named)


def broken_links():
    for path in files(".md"):
        for target in re.findall(r"\]\(([^)\s]+)\)", promises.with_targets(path.read_text())):
            if target.startswith("http"):
                continue
            name, _, anchor = target.partition("#")
            to = (path.parent / name).resolve() if name else path
            if not to.exists():
                yield f"{short(path)}: no such file: {target}"
            elif anchor and to.suffix == ".md" and anchor not in anchors(to.read_text()):
                yield f"{short(path)}: no such heading: {target}"


RULES = (
    listings.listings_that_are_old,
    listings.listings_that_no_source_has,
    wide_clauses,
    proofs_cited_from_above,
    edits_that_do_not_apply,
    crates_with_other_edits_in_the_gate,
    promises.rows_without_a_contract,
    promises.rows_without_a_name,
    promises.contracts_that_are_not_there,
    promises.clauses_that_are_not_there,
    promises.definitions_that_are_not_there,
    promises.fields_that_are_not_there,
    promises.bodies_that_are_not_there,
    promises.edits_without_a_promise,
    promises.promises_without_a_wrong_body,
    promises.bodies_of_another_promise,
    promises.clauses_of_no_promise,
    spec_files_without_a_summary,
    crates_that_are_not_drawn,
    programs_without_what_they_print,
    broken_links,
)


def main():
    count = common.Count()
    for rule in RULES:
        faults = list(rule())
        for fault in faults:
            print(fault)
        count.add(not faults)
        print(f"house: {rule.__name__}: {'ok' if not faults else 'broken'}")
    return count.end()


if __name__ == "__main__":
    sys.exit(main())
