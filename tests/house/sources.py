"""What stands in a source file: its functions, with the types whose they are, and the names that they call."""

import functools
import re
from dataclasses import dataclass

from .. import common

ITEM = re.compile(
    r"^(?P<indent>(?:    )?)(?:pub(?:\([\w ]+\))? )?(?:default |final )?(?:const )?(?:unsafe )?(?:extern \"C\" )?"
    r"(?P<word>fn|struct|enum|union|trait|impl|mod|const|static|type|macro_rules!)\b(?P<rest>[^\n]*)",
    re.M,
)
CALLED = re.compile(r"(?:\b(?P<owner>\w+)(?:::<[^<>]*>)?::|(?P<dot>\.))?(?P<name>\b\w+)(?P<open>(?:::<[^<>]*>)?\()?")


@dataclass(frozen=True)
class Piece:
    """A function, or a declaration: its file, the names whose it is (a type and a trait), its own name, and its text without
    comments."""

    path: object
    owners: tuple
    name: str
    is_function: bool
    start: int
    text: str

    def has_clause(self, label):
        return bool(re.search(rf"(?:ensures\*?|ghost) {label}\b", self.text))


def without_comments(text):
    """The text with each comment blanked out, so that no place changes."""
    return re.sub(r"^(\s*)//.*$|(?<=\s)// .*$", lambda it: " " * len(it[0]), text, flags=re.M)


def owners_of(header):
    """The names in the head of an `impl` block or a trait: of `impl<T> A<T> for B<T>` A and B."""
    head = re.split(r"\bwhere\b|\brequires\b|\{", header)[0]
    while re.search(r"<[^<>]*>", head):
        head = re.sub(r"<[^<>]*>", "", head)
    return tuple(part.split("::")[-1].strip("&' ") for part in re.split(r"\bfor\b", head.partition(":")[0] if "for" not in head else head))


@functools.cache
def pieces(path):
    """The functions and declarations of a file, in their order."""
    text = without_comments(path.read_text())
    found, owners = [], ()
    items = list(ITEM.finditer(text))
    for item, after in zip(items, [*items[1:], None]):
        own = text[item.start() : after.start() if after else len(text)]
        name = re.match(r"\W*(\w+)", item["rest"])
        if not item["indent"]:
            block = item["word"] in ("impl", "trait")
            owners = owners_of(re.sub(r"\s+", " ", own[own.index(item["word"]) + len(item["word"]) :])) if block else ()
        names = owners if item["word"] in ("impl", "trait") else (name[1] if name and item["word"] != "mod" else "",)
        is_function = item["word"] == "fn"
        found.append(Piece(path, owners if item["indent"] else (), names[-1] if names else "", is_function, item.start(), own))
        if item["word"] == "impl" and len(names) > 1:
            found.append(Piece(path, (), names[0], False, item.start(), own))
    return tuple(found)


def piece_at(path, at):
    """The function or declaration in which a place of a file is, or None before the first."""
    return max((it for it in pieces(path) if it.start <= at), key=lambda it: it.start, default=None)


def files_of(crate):
    return sorted((common.crate(crate).folder() / "src").rglob("*.rt"))


def crate_of(path):
    return path.relative_to(common.ROOT / "crates").parts[0]


@functools.cache
def known_to(crate):
    """What a crate's code can name, in the crate and in those below: functions and constants by their names, and functions of
    a trait for a type by the type's."""
    found = {}
    for name in [crate, *sorted(common.below(crate))]:
        for piece in (it for path in files_of(name) for it in pieces(path)):
            if piece.is_function or piece.name.isupper():
                found.setdefault(piece.name, []).append(piece)
            if piece.is_function and len(piece.owners) > 1:
                found.setdefault(piece.owners[-1], []).append(piece)
    return found


def is_call(call, piece, other):
    """Whether a name in a function may stand for another function: `T::f`, `x.f(..)` or `f`."""
    owner, is_method, is_called = call["owner"], call["dot"], call["open"]
    if not other.is_function or call["name"] in other.owners:
        return True
    if owner == "Self":
        return bool(set(piece.owners) & set(other.owners)) or len(piece.owners) > 1
    if owner:
        return not other.owners or owner in other.owners or owner[:1].isupper() and len(owner) == 1
    return bool(other.owners) == bool(is_method) and bool(is_called or not is_method)


@functools.cache
def named_in(piece):
    """The functions and constants that a function or a declaration may name, as far as names tell."""
    known, found = known_to(crate_of(piece.path)), []
    for call in CALLED.finditer(piece.text):
        found += [it for it in known.get(call["name"], ()) if is_call(call, piece, it)]
    return tuple(found)


def reached(starts):
    """These functions and declarations, and all that they may name, also through others."""
    seen, left = set(), list(starts)
    while left:
        piece = left.pop()
        if piece not in seen:
            seen.add(piece)
            left += named_in(piece)
    return seen
