"""The promises of docs/PROOFS.md and the wrong bodies that show that they are kept: the house rules on both, and lists.

    python3 -m tests.house.promises           prints how many promises, wrong bodies, clauses and tests there are
    python3 -m tests.house.promises --list    prints each promise with its wrong bodies, and each of these with its promises

A row of the page's tables is `promise | contract | definition`, and begins with its name, `<a id="NAME"></a>`. Its contract links
functions, types and traits, as in [`Reader::walk`][reader], and behind a colon stand the labels of their clauses; names without a
link are of the same crates. tests/wrong-bodies/promises.txt names the wrong bodies of each promise, and tests/must-fail/README.md
says what those do that tests refuse.
"""

import functools
import re
import sys
from dataclasses import dataclass

from .. import common
from . import sources

PAGE = common.ROOT / "docs/PROOFS.md"
TIES = common.ROOT / "tests/wrong-bodies/promises.txt"
TESTED = common.ROOT / "tests/must-fail/README.md"
HEAD = "promise | contract | definition"
# The words before the changes of an edit of crates/*/wrong.
HEADS = "function", "refused by", "proved", "gate"
LINK = re.compile(r"\[([^\]]*)\]\(\.\./([^)#\s]+)\)")
NAME = re.compile(r"`([\w:]+)`")
DEFINED = re.compile(r"`([\w:./-]+)`")


@dataclass(frozen=True)
class Row:
    """A row: its place, its name, what it promises, and its contract and definitions with the targets of links."""

    line: int
    name: str
    promise: str
    contract: str
    definitions: str

    def links(self):
        """The files of the repository that the row links, and the names in each link."""
        return [(common.ROOT / file, NAME.findall(text)) for text, file in LINK.findall(f"{self.contract} {self.definitions}")]

    def crates(self):
        return {sources.crate_of(path) for path, _ in self.links() if path.is_relative_to(common.ROOT / "crates")}

    def place(self):
        return f"docs/PROOFS.md:{self.line}"


@dataclass(frozen=True)
class Tie:
    """What shows that a promise is kept: edits, the promises whose edits try it too, or why there is none."""

    edits: tuple
    others: tuple
    why: str


def with_targets(text):
    """The text with each link `[it][name]` written as `[it](target)`, by the line `[name]: target`."""
    targets = dict(re.findall(r"^\[([^\]]+)\]: (\S+)$", text, re.M))
    return re.sub(r"\]\[([^\]]+)\]", lambda link: f"]({targets.get(link[1], '?' + link[1])})", text)


@functools.cache
def rows():
    """The rows of the tables of promises."""
    found, is_within = [], False
    for number, line in enumerate(with_targets(PAGE.read_text()).split("\n"), 1):
        is_within = line == HEAD or is_within and bool(line)
        if is_within and line != HEAD and not line.startswith("---"):
            promise, contract, definitions, *_ = [*line.split(" | "), "", ""]
            anchor = re.match(r'<a id="([\w-]+)"></a>', promise)
            found.append(Row(number, anchor[1] if anchor else "", promise[anchor.end() if anchor else 0 :], contract, definitions))
    return tuple(found)


@functools.cache
def ties():
    """What shows that each promise is kept, by the promises' names."""
    found = {}
    for line in TIES.read_text().split("\n"):
        if line and not line.startswith(("#", " ")):
            found[line] = listed = []
        elif line.strip() and not line.startswith("#"):
            listed.append(line.strip())
    return {name: tie(lines) for name, lines in found.items()}


def tie(lines):
    edits = [it for it in lines if not it.startswith(("as ", "none: "))]
    others = [it.removeprefix("as ") for it in lines if it.startswith("as ")]
    return Tie(tuple(edits), tuple(others), "".join(it for it in lines if it.startswith("none: ")))


@functools.cache
def tested():
    """What each wrong body of tests/must-fail does, by the tables of its README: rows of it and the names of edits."""
    found = {}
    for line in TESTED.read_text().split("\n"):
        cells = line.strip("| ").split(" | ")
        if line.startswith("| ") and len(cells) == 2:
            found |= {name: cells[0] for name in re.findall(r"`([a-z0-9_]+)`", cells[1])}
    return found


@functools.cache
def edits():
    """The wrong bodies of crates and of tests, by their names."""
    found = [*common.ROOT.glob("crates/*/must-fail/*.edit"), *common.ROOT.glob("crates/*/wrong/*.edit")]
    return {it.stem: it for it in [*found, *common.ROOT.glob("tests/must-fail/*.edit")]}


def is_of_crate(path):
    return path.is_relative_to(common.ROOT / "crates")


def all_of(owner, pieces):
    """What a type or a trait is: its declarations and its functions."""
    return [it for it in pieces if owner in it.owners or it.name == owner and not it.is_function]


def named(name, pieces):
    """The pieces that a name means: a function, `Type::function`, a type or a trait with all of its functions, or what has a
    clause or a fact of that name. `laws` is all of a file."""
    owner, _, last = name.rpartition("::")
    functions = [it for it in pieces if it.is_function and it.name == last]
    of_owner = [it for it in functions if owner in it.owners]
    if of_owner or functions and not (owner and all_of(owner, pieces)):
        return of_owner or functions
    if name == "laws":
        return list(pieces)
    return all_of(last, pieces) or [it for it in pieces if it.has_clause(last)]


def plain(text):
    """The names in a text that no link has."""
    return NAME.findall(LINK.sub("", text))


def pieces_of_crates(crates):
    return [piece for crate in sorted(crates) for path in sources.files_of(crate) for piece in sources.pieces(path)]


def cited(row, text):
    """What a text of a row cites, by the names that it has: in linked files, or else in the row's crates."""
    found = {}
    for names, file in LINK.findall(text):
        if file.endswith(".rt") and (common.ROOT / file).is_file():
            for name in NAME.findall(names):
                found[name, file] = named(name, sources.pieces(common.ROOT / file))
    for name in plain(text):
        found[name, ""] = named(name, pieces_of_crates(row.crates()))
    return found


def parts(row):
    """The parts of a row's contract: what each cites, and the text with its labels."""
    for part in row.contract.split("; "):
        heads, _, labels = part.partition(": ")
        yield cited(row, heads), labels


def rows_without_a_contract():
    if not rows():
        yield "docs/PROOFS.md: it has no rows"
    for row in rows():
        if not any(is_of_crate(common.ROOT / file) for _, file in LINK.findall(row.contract)):
            yield f"{row.place()}: the contract has no link"


def rows_without_a_name():
    """Each row has a name, and no two have the same."""
    names = [row.name for row in rows()]
    for row in rows():
        if not row.name or names.count(row.name) > 1:
            yield f"{row.place()}: no name of its own: {row.promise:.60}"


def contracts_that_are_not_there():
    """What a row cites is in the file that it links."""
    for row in rows():
        for heads, _ in parts(row):
            for (name, file), pieces in heads.items():
                if not pieces:
                    yield f"{row.place()}: no {name} in {file or ' or '.join(sorted(row.crates()))}"
        for path, names in row.links():
            text = path.read_text() if path.suffix == ".antt" and path.is_file() else None
            for name in names:
                if text is not None and not is_in(name.split("::")[-1], text):
                    yield f"{row.place()}: no {name} in {path.relative_to(common.ROOT)}"


def is_in(name, text):
    return re.search(rf"(?<![\w-]){re.escape(name)}(?![\w-])", text)


@functools.cache
def text_of_specs(crate):
    """All spec files that a crate's contracts can cite: its own, and those of the crates below."""
    found = [path for name in [crate, *sorted(common.below(crate))] for path in (common.crate(name).folder() / "specs").rglob("*.antt")]
    return "\n".join(path.read_text() for path in found)


def definitions_that_are_not_there():
    """A name in the column of definitions stands in a spec file of the row's crates, or of those below."""
    for row in rows():
        for name in DEFINED.findall(LINK.sub("", row.definitions)):
            if not any(is_in(name.split(".")[-1], text_of_specs(crate)) for crate in row.crates()):
                yield f"{row.place()}: no definition {name} for {' or '.join(sorted(row.crates()))}"


def fields_in(record, text):
    """The fields of a record of a spec file."""
    found = re.search(rf"^( *)pub record {re.escape(record)}\b.*(?:\n(?:\1 .*|))*", text, re.M)
    return re.findall(r"^ *pub ([\w-]+) :", found[0], re.M) if found else []


def is_defined(name, text):
    return re.search(rf"\b(?:(?:abbrev|unfoldable) pub|pub (?:record|data)) {re.escape(name)}(?![\w-])", text)


def fields_that_are_not_there():
    """A name behind a colon in the column of definitions is a field of a record before the colon, or a definition of its own."""
    for row in rows():
        for heads, _, labels in (part.partition(": ") for part in row.definitions.split("; ")):
            records = [(name, (common.ROOT / file).read_text()) for names, file in LINK.findall(heads) for name in NAME.findall(names)]
            fields = {field for name, text in records for field in fields_in(name, text)}
            for label in DEFINED.findall(LINK.sub("", labels)):
                if label not in fields and not any(is_defined(label, text_of_specs(crate)) for crate in row.crates()):
                    yield f"{row.place()}: no field {label} of {', '.join(name for name, _ in records)}"


def has_clause(piece, label, heads):
    """Whether a label is of a piece: a clause of its contract; or the name of a function, where all of a type is cited."""
    is_cited_alone = any(name.split("::")[-1] == piece.name for name, _ in heads)
    return piece.has_clause(label) or piece.is_function and piece.name == label and not is_cited_alone


def clauses_that_are_not_there():
    """Each label behind a colon is one of a function that stands before the colon; `clause` of `function` is one of that."""
    for row in rows():
        for heads, labels in parts(row):
            pieces = [it for found in heads.values() for it in found]
            for label in re.findall(r"`([a-z0-9_]+)`", LINK.sub("", labels)):
                if not any(has_clause(it, label, heads) for it in pieces):
                    yield f"{row.place()}: no clause {label} of {', '.join(name for name, _ in heads)}"
            for label, function in re.findall(r"`([a-z0-9_]+)` of `([a-z0-9_]+)`", labels):
                if not any(it.name == function and it.has_clause(label) for it in pieces):
                    yield f"{row.place()}: no clause {label} of {function}"


def bodies_that_are_not_there():
    """What promises.txt and the README of tests/must-fail name is an edit."""
    if not edits():
        yield "there are no wrong bodies"
    for name in (it for tie in ties().values() for it in tie.edits):
        if name not in edits():
            yield f"tests/wrong-bodies/promises.txt: no wrong body {name}"
    for name in tested():
        if name not in edits() or is_of_crate(edits()[name]):
            yield f"tests/must-fail/README.md: no wrong body {name}"


def edits_without_a_promise():
    """Each wrong body of a crate is one of a promise's, and of each that tests refuse the README says what it does."""
    of_promises = {it for tie in ties().values() for it in tie.edits}
    for name, path in edits().items():
        if is_of_crate(path) and name not in of_promises:
            yield f"{path.relative_to(common.ROOT)}: tests/wrong-bodies/promises.txt has no promise with it"
        if not is_of_crate(path) and name not in tested():
            yield f"{path.relative_to(common.ROOT)}: tests/must-fail/README.md doesn't name it"


def is_of_laws(row):
    """Whether a row's contract is of laws alone, which have no code."""
    found = [piece for heads, _ in parts(row) for pieces in heads.values() for piece in pieces]
    return all(piece.path.name == "laws.rt" for piece in found)


def promises_without_a_wrong_body():
    """Each promise but those of laws alone has an edit, is tried by those of another, or has a reason why not."""
    names = {row.name: row for row in rows()}
    for name in ties():
        if name not in names:
            yield f"tests/wrong-bodies/promises.txt: no promise {name}"
    for name, tie in ties().items():
        for other in tie.others:
            if other not in ties() or not ties()[other].edits:
                yield f"tests/wrong-bodies/promises.txt: {name}: no edits of a promise {other}"
    for name, row in names.items():
        tie = ties().get(name)
        if not is_of_laws(row) and not (tie and (tie.edits or tie.others or tie.why)):
            yield f"{row.place()}: no wrong body of {name}, and no reason why not"


@functools.cache
def changed_by(path):
    """The functions that an edit names, and those in which it changes something; or the constants and types, if it changes
    none. One that changes definitions alone has its function in its name."""
    edit, folder = common.parsed(path, HEADS), path.parents[1]
    own = pieces_of_crates([folder.name])
    found = {it for name in edit.head("function") for it in named(name, own)}
    for file, old, _ in edit.changes:
        text = (folder / file).read_text()
        at = text.find(old)
        if file.endswith(".rt") and at >= 0:
            found.add(sources.piece_at(folder / file, at + len(old) - len(old.lstrip())))
    if not found - {None}:
        found = {it for it in own if it.is_function and path.stem.startswith(f"{it.path.stem}_{it.name}_")}
    functions = {it for it in found if it and it.is_function}
    return functions or found - {None}


@functools.cache
def reached(row):
    """What the functions that a row cites may call."""
    return sources.reached([it for heads, _ in parts(row) for pieces in heads.values() for it in pieces])


def bodies_of_another_promise():
    """A wrong body changes a function that its promise's contract cites, or one that such a function may call, as far as names
    tell."""
    for row in rows():
        for name in ties()[row.name].edits if row.name in ties() else ():
            path = edits().get(name)
            if path and is_of_crate(path) and not changed_by(path) & reached(row):
                changed = ", ".join(sorted({it.name for it in changed_by(path)}))
                yield f"tests/wrong-bodies/promises.txt: {row.name}: {name} changes {changed}, to which its contract doesn't lead"


def refusing(path):
    """The functions and clauses that refuse an edit, as it names them."""
    return [it.rpartition(": ")[::2] for it in common.parsed(path, HEADS).head("refused by")]


@functools.cache
def clauses_cited():
    """What the rows cite: each piece with the labels behind it, of which an empty text stands for all clauses."""
    found = {}
    for row in rows():
        for heads, labels in parts(row):
            for piece in (it for pieces in heads.values() for it in pieces):
                found.setdefault(piece, []).append(LINK.sub("", labels))
    return found


def is_cited(crate, function, clause):
    """Whether a row cites a clause of a function. A function that no row cites is one that such functions call; and a goal within a
    function, as of a loop or of what a call asks, is no clause."""
    pieces = named(function, pieces_of_crates([crate]))
    labels = [it for piece in pieces for it in clauses_cited().get(piece, ())]
    is_clause = any(it.has_clause(clause) for it in pieces)
    return bool(pieces) and (not labels or not is_clause or any(not it or f"`{clause}`" in it for it in labels))


def clauses_of_no_promise():
    """One of the clauses that refuse a wrong body is one that a row cites."""
    for path in edits().values():
        clauses = refusing(path) if is_of_crate(path) else []
        if clauses and not any(is_cited(path.parents[1].name, *it) for it in clauses):
            what = ", ".join(f"{clause} of {function}" for function, clause in clauses)
            yield f"{path.relative_to(common.ROOT)}: no row of docs/PROOFS.md cites {what}"


def text_alone(promise):
    """A promise without the targets of its links."""
    return re.sub(r"\[([^\]]*)\]\([^)]*\)", r"\1", promise)


def print_lists():
    for row in rows():
        tie = ties().get(row.name, Tie((), (), "none: it is a law"))
        print(f"{row.name}: {text_alone(row.promise)}")
        for it in [*tie.edits, *(f"as {other}" for other in tie.others), *([tie.why] if tie.why else [])]:
            print(f"    {it}")
    print()
    for name, path in edits().items():
        promises = [it for it, tie in ties().items() if name in tie.edits]
        print(f"{path.relative_to(common.ROOT)}: {', '.join(promises) or tested().get(name, 'NO PROMISE')}")
        for function, clause in refusing(path) if is_of_crate(path) else ():
            print(f"    refused by {function}: {clause}")


def print_numbers():
    def number(pattern, words):
        texts = [path.read_text() for path in common.ROOT.glob("crates/*/src/**/*.rt")]
        print(f"{sum(len(re.findall(pattern, text, re.M)) for text in texts)} {words}")

    print(f"{len(rows())} promises")
    for folder in ("crates/*/must-fail", "crates/*/wrong", "tests/must-fail"):
        print(f"{len(list(common.ROOT.glob(f'{folder}/*.edit')))} wrong bodies in {folder}")
    number(r"^ *ensures", "clauses")
    number(r"#\[test\]", "tests")
    print(f"{len(list(common.ROOT.glob('tests/cli/cases/*')))} cases of the command line")


if __name__ == "__main__":
    if sys.argv[1:] == ["--list"]:
        print_lists()
    elif sys.argv[1:]:
        sys.exit(__doc__)
    else:
        print_numbers()
