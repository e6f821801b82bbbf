"""What the runners of this folder have in common: the lines of crates.txt, edits, copies of crates, `rattle` commands, and
the last line.

Runners are modules of the package `tests`, and run at the top of the repository, as by `python3 -m tests.house.run`.
"""

import functools
import pathlib
import shutil
import subprocess
from dataclasses import dataclass

ROOT = pathlib.Path(__file__).resolve().parents[1]

# What a copy of a crate leaves out: builds, and the wrong bodies, which no build reads.
NOT_READ = "out", "must-fail", "wrong"


@dataclass(frozen=True)
class Crate:
    """A line of crates.txt: a crate, the words behind its name, and the libraries that it uses."""

    name: str
    kinds: tuple
    used: tuple

    def folder(self, root=ROOT):
        return root / "crates" / self.name

    def line(self):
        return f"{' '.join([self.name, *self.kinds])}: {' '.join(self.used)}"


def crates(root=ROOT):
    """The crates of crates.txt by their names, in its order: each stands after those that it uses."""
    found = {}
    for line in (root / "crates.txt").read_text().splitlines():
        head, colon, used = line.partition("#")[0].partition(":")
        if colon:
            name, *kinds = head.split()
            found[name] = Crate(name, tuple(kinds), tuple(used.split()))
    return found


def crate(name, root=ROOT):
    """The line of one crate. Raises a ValueError if there is none."""
    if name not in crates(root):
        raise ValueError(f"crates.txt has no line for {name}")
    return crates(root)[name]


@functools.cache
def below(name):
    """The names of the repository's own crates that a crate uses, and of those that they use."""
    own = crates()
    used = [it for it in crate(name).used if it in own]
    return set(used).union(*map(below, used))


def copy_crate(name, to, left_out=()):
    """Copies what a build of a crate reads to a folder that isn't there yet, without the folders that are left out."""
    shutil.copytree(crate(name).folder(), to, ignore=shutil.ignore_patterns(*NOT_READ, *left_out))


def copy_crates(names, to, left_out=()):
    """Copies these crates to a folder, with the files in which `rt` looks up what they are."""
    own = crates()
    shutil.copy(ROOT / "HANDLES", to)
    pathlib.Path(to, "crates.txt").write_text("".join(f"{it.line()}\n" for it in own.values() if it.name in names))
    for name in names:
        copy_crate(name, pathlib.Path(to, "crates", name), left_out)


@dataclass(frozen=True)
class Edit:
    """A file `NAME.edit`: the lines before its changes, each a word with what follows it, and the changes: a file, an old text
    and the new one."""

    name: str
    heads: tuple
    changes: tuple

    def head(self, word):
        """What follows a word, in the order of its lines."""
        return tuple(rest for head, rest in self.heads if head == word)


def parsed(path, words=()):
    """The edit that a file spells. Its lines are `file:`, `old:` and `new:`, and before them those with one of these words; behind
    a `#`, where `rt ci` reads the file too. Raises a ValueError for any other."""
    heads, changes, file, old = [], [], None, None
    for line in path.read_text().splitlines():
        word, colon, rest = line.partition(": ") if line != "new:" else ("new", ":", "")
        if colon and word.removeprefix("# ") in words and file is None:
            heads.append((word.removeprefix("# "), rest))
        elif colon and word == "file" and old is None:
            file = rest.strip()
        elif colon and word == "old" and file and old is None:
            old = rest
        elif colon and word == "new" and old is not None:
            changes.append((file, old, rest))
            old = None
        else:
            raise ValueError(f"{path.name}: a line that can't stand there: {line:.80}")
    if old is not None:
        raise ValueError(f"{path.name}: an old text without a new one")
    return Edit(path.stem, tuple(heads), tuple(changes))


def edited(changes, text_of):
    """The files that these changes make: their texts by their names. `text_of` reads a file. Raises a ValueError where an old
    text doesn't stand in its file once."""
    texts = {}
    for file, old, new in changes:
        text = texts[file] if file in texts else text_of(file)
        if text.count(old) != 1:
            raise ValueError(f"an old text stands in {file} {text.count(old)} times: {old.strip():.80}")
        texts[file] = text.replace(old, new)
    return texts


def kit_folder():
    """The kit's folder: `rt doc` prints a path in it."""
    said = subprocess.run(["rt", "doc"], capture_output=True, text=True, check=True)
    return pathlib.Path(said.stdout.strip()).parent


def words_over(name, kit, root=ROOT):
    """How a crate and its libraries are named to `rattle check` and `rattle build`. The libraries are those that `rt ci` left
    under `root` in crates/NAME/out/rlib. A command over these has no need of `rt lib`, which would prove them all once more."""
    own, line = crates(), crate(name)
    top = "src/main.rt" if (line.folder() / "src/main.rt").is_file() else "src/lib.rt"
    words = ["--crate-name", name, top, *(["--crate-type", "staticlib"] if "staticlib" in line.kinds else [])]
    for it in ["std", *line.used]:
        folder = own[it].folder(root) / "out" / "rlib" if it in own else kit / "rlibs"
        words += ["--extern", f"{it}={folder / it}.rlib"]
    for folder in [kit / "rlibs", *sorted(root.glob("crates/*/out/rlib"))]:
        words += ["-L", f"dependency={folder}"]
    return [*words, "--antt-project", kit / "rattle" / "logic" / "antt-project.json", "--logic-built", kit / "logic_built"]


class Count:
    """How many of a runner's checks passed, and how many failed."""

    def __init__(self):
        self.passed = 0
        self.failed = 0

    def add(self, is_fine):
        """Counts a check, and returns whether it passed."""
        self.passed += bool(is_fine)
        self.failed += not is_fine
        return bool(is_fine)

    def end(self, more=""):
        """Prints the last line, 'N passed, M failed', and returns the status: 0 if some passed and none failed."""
        print(f"{self.passed} passed, {self.failed} failed{more}")
        return 0 if self.passed and not self.failed else 1
