"""The listings of the pages: those of docs/C.md are parts of programs that tests/c compiles and runs, and those of other pages
stand in a source that the page links, but for comments, blanks and blank lines, where something may be left out.

    python3 -m tests.house.listings --write

A part stands in its program between the lines `/* listing: NAME */` and `/* end of listing */`, in Rust with `//`. On the page a
comment names it, `<!-- tests/c/first.c: record -->`, right before the listing. --write puts the parts there as they are.
"""

import re
import sys
import textwrap

from .. import common

PAGE = common.ROOT / "docs" / "C.md"
# The pages whose listings stand in sources that they link.
GUIDES = "README.md", "docs/GUIDE.md", "docs/PROVE_YOUR_PROFILE.md", "docs/THREADS.md"
LISTING = re.compile(r"^(?:<!-- (?P<file>\S+): (?P<name>\S+) -->\n)?```(?P<language>c|cpp|rust)\n(?P<text>.*?)^```$", re.M | re.S)
LINE = r"^ *(?:/\* {} \*/|// {})\n"


def part(file, name):
    """The part with this name in a program, without what all of its lines are indented by, or None if there is none."""
    path = common.ROOT / file
    text = path.read_text() if path.is_file() else ""
    begin, end = (LINE.format(words, words) for words in (f"listing: {re.escape(name)}", "end of listing"))
    found = re.findall(f"{begin}(.*?){end}", text, re.M | re.S)
    return textwrap.dedent(found[0]) if len(found) == 1 else None


def listings_that_are_old():
    """What is wrong with the listings."""
    runner = "".join(path.read_text() for path in sorted((common.ROOT / "tests" / "c").glob("*.py")))
    found = list(LISTING.finditer(PAGE.read_text()))
    if not found:
        yield "docs/C.md has no listing"
    for it in found:
        first = it["text"].partition("\n")[0]
        if not it["file"]:
            yield f"docs/C.md: a listing that names no program: {first}"
        elif part(it["file"], it["name"]) is None:
            yield f"docs/C.md: {it['file']} has no part {it['name']}"
        elif part(it["file"], it["name"]) != it["text"]:
            yield f"docs/C.md: a listing is old: {it['file']}: {it['name']}; run: python3 -m tests.house.listings --write"
        elif it["file"].rsplit("/", 1)[1].partition(".")[0] not in runner:
            yield f"docs/C.md: tests/c doesn't run {it['file']}"


def bare(text):
    """Code without comments, blanks, and commas at the end of a list, by which formatting differs."""
    return re.sub(r",(?=[)}\]>])", "", re.sub(r"\s", "", re.sub(r"(?m)//.*$", "", text)))


def sources_of(page):
    """The sources that a page links."""
    links = re.findall(r"\]\(([^)#\s]+\.rt)\)", page.read_text())
    return [bare(path.read_text()) for path in {(page.parent / link).resolve() for link in links} if path.is_file()]


def listings_that_no_source_has():
    """Each piece of a listing in Rust, up to a blank line, stands in a source that its page links."""
    for name in GUIDES:
        page = common.ROOT / name
        texts = sources_of(page)
        for listing in re.findall(r"^```rust\n(.*?)^```$", page.read_text(), re.M | re.S):
            for piece in listing.split("\n\n"):
                if not any(bare(piece) in text for text in texts):
                    yield f"{name}: no source that it links has: {piece.strip().partition(chr(10))[0]}"


def write():
    def renewed(it):
        text = part(it["file"], it["name"]) if it["file"] else None
        return it[0] if text is None else f"<!-- {it['file']}: {it['name']} -->\n```{it['language']}\n{text}```"

    PAGE.write_text(LISTING.sub(renewed, PAGE.read_text()))


if __name__ == "__main__":
    if sys.argv[1:] == ["--write"]:
        write()
    told = list(listings_that_are_old())
    print(*told, sep="\n")
    sys.exit(bool(told))
