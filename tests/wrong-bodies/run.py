"""Tries the wrong bodies of crates/*/wrong: of each, the prover must refuse the function that it changes.

    python3 -m tests.wrong-bodies.run [CRATE[/WORD]..]
    python3 -m tests.wrong-bodies.run --gate [CRATE[/WORD]..]
    python3 -m tests.wrong-bodies.run --write [CRATE[/WORD]..]
    python3 -m tests.wrong-bodies.run --shown

With a word it tries those of the crate whose names have it, with --gate only those with a line `gate`, and with --write only those
that name no clause, into which it writes those that refuse them.

README.md says what a wrong body looks like, how several are tried at once, what is kept of a run, and what --shown tries. Each
verdict is printed, kept and written once it is known, so that a run that is cut off loses none. The last line is 'N passed, M
failed'.
"""

import concurrent.futures
import os
import pathlib
import re
import resource
import subprocess
import sys
import tempfile
import time

from .. import common
from ..house import promises, sources
from .kept import Kept
from .verdicts import BAD, NOT_LOOKED_AT, REFUSED, UNKNOWN, UNNAMED, UNSURE
from .verdicts import Look, WrongBody, changes_a_shape, held_to_names, is_judged, judged, looked_at, wrong_below

HERE = pathlib.Path(__file__).resolve().parent
LANES = min(4, os.cpu_count() or 1)
# How many wrong functions stand in one check, how often answers of one are left out, and how many bodies one lane tries in turn.
TOGETHER, ROUNDS, IN_TURN = 24, 4, 40


def texts_of(folder):
    """Reads the files of a folder."""
    return lambda file: (folder / file).read_text()


def clause(text):
    """The function and the clause of a line `refused by`: `FUNCTION: CLAUSE`."""
    function, _, name = text.rpartition(": ")
    return function, name


def parsed(path, folder):
    """The wrong body that a file spells, of the crate in a folder. Raises a ValueError if it names no function, or if it changes
    code with a definition, and names no function that stays proved."""
    edit = common.parsed(path, ("function", "refused by", "proved", "gate", "ends"))
    functions, proved, ends = map(edit.head, ("function", "proved", "ends"))
    if not functions or not edit.changes:
        raise ValueError(f"{path.name}: it names no function, or changes nothing")
    if {"src", "specs"} <= {file.partition("/")[0] for file, _, _ in edit.changes} and not proved:
        raise ValueError(f"{path.name}: it changes code with a definition, and names no function that stays proved")
    try:
        made = common.edited(edit.changes, texts_of(folder)).items()
    except (ValueError, OSError):
        # (it will be told as a bad edit)
        made = ()
    is_of_shape = any(file.endswith(".rt") and changes_a_shape((folder / file).read_text(), text) for file, text in made)
    clauses = frozenset((function, name) for function, name in map(clause, edit.head("refused by")))
    return WrongBody(edit.name, functions, edit.changes, is_of_shape, *(ends or (REFUSED,)), proved, clauses, bool(edit.head("gate")))


class Copy:
    """A copy of a crate, in which wrong bodies are put and tried over the libraries in `below`."""

    def __init__(self, crate, folder, below):
        self.crate = crate
        self.folder = pathlib.Path(folder, crate)
        kit = common.kit_folder()
        self.command = [kit / "bin" / "rattle", "check", *common.words_over(crate, kit, below)]
        self.command += ["--incremental", "out/incremental", "--jobs", "1"]
        common.copy_crate(crate, self.folder)
        (self.folder / "out").mkdir()

    def text_of(self, file):
        return (common.crate(self.crate).folder() / file).read_text()

    def put(self, bodies):
        """Puts these bodies in. Raises a ValueError where an old text doesn't stand in its file once."""
        texts = common.edited([change for body in bodies for change in body.changes], self.text_of)
        for file, text in texts.items():
            (self.folder / file).write_text(text)
        return texts

    def checked(self, bodies, others):
        """What the prover says of the functions of these bodies, all of them put in, and of `others`, texts of proof files."""
        texts = self.put(bodies)
        try:
            for file, text in others.items():
                texts[file] = text
                (self.folder / file).write_text(text)
            only = [word for body in bodies for it in (*body.functions, *body.proved) for word in ("--only", it)]
            ran = subprocess.run(
                [*self.command, *only],
                cwd=self.folder,
                stdin=subprocess.DEVNULL,
                capture_output=True,
                text=True,
                errors="replace",
            )
            return ran.stdout + ran.stderr
        finally:
            for file in texts:
                (self.folder / file).write_text(self.text_of(file))


def is_alone(body):
    """Whether a body is tried alone: what it changes may be cited by the proofs of the others."""
    return body.is_of_definitions()


def that_call_others(crate, bodies):
    """Pairs of bodies of which one changes what the other calls, as far as names tell: beside that one it couldn't be judged."""
    paths = {it.stem: it for it in wrong_of(crate)}
    changed = {body: promises.changed_by(paths[body.name]) for body in bodies if body.name in paths}
    called = {body: {it for piece in pieces for it in sources.named_in(piece)} for body, pieces in changed.items()}
    return {frozenset((body, it)) for body in called for it in changed if it is not body and called[body] & changed[it]}


class Tries:
    """The tries of one crate's wrong bodies. `tell` is called with each, its verdict and what is said of it, once this is known."""

    def __init__(self, copy, bodies, tell):
        self.copy = copy
        self.waiting = list(bodies)
        self.looks = {body: Look() for body in bodies}
        self.apart = that_call_others(copy.crate, bodies)
        self.tell = tell

    def group(self):
        """The next bodies to try together: no two of one function, and none that a check couldn't tell apart."""
        first, chosen = self.waiting[0], []
        for body in self.waiting:
            taken = {it for other in chosen for it in other.functions}
            is_free = not taken & set(body.functions) and not is_alone(body) and not is_alone(first)
            if is_free and not any({body, it} in self.apart for it in chosen) or not chosen:
                chosen.append(body)
            if len(chosen) == TOGETHER:
                break
        return chosen

    def end(self, body, verdict, clauses, said):
        self.waiting.remove(body)
        verdict, why = held_to_names(body, verdict, clauses)
        errors = re.findall(r"^.*\berror(?:\[[\w-]+\])?: .*$", said, re.M)
        self.tell(body, verdict, why or "".join(errors[:1])[:300])

    def text_of(self, body):
        """What a body makes of a file."""
        return lambda file: common.edited(body.changes, self.copy.text_of).get(file) or self.copy.text_of(file)

    def try_together(self, bodies):
        """Tries bodies in one check; in two halves where they can't be compiled together. Where answers have errors, what an
        edit does to the goals is seen without them, in one more check."""
        try:
            others = {file: text for body in bodies for file, text in self.looks[body].texts.items()}
            said = self.copy.checked(bodies, others)
        except (ValueError, OSError) as fault:
            said = f"error: {fault}"
        if not is_judged(said):
            half = len(bodies) // 2
            if half:
                self.try_together(bodies[:half])
                self.try_together(bodies[half:])
            else:
                self.end(bodies[0], NOT_LOOKED_AT if UNKNOWN.search(said) else BAD, (), said)
            return
        for body in bodies:
            look, below = self.looks[body], wrong_below(body, bodies, self.copy.crate, said)
            self.apart |= {frozenset((body, it)) for it in below}
            if look.rounds < ROUNDS and looked_at(body, said, self.text_of(body), look):
                look.rounds += 1
            elif not below:
                verdict, clauses = judged(body, self.copy.crate, said, look)
                if verdict != UNSURE or len(bodies) == 1:
                    self.end(body, verdict, clauses, said)
                else:
                    self.apart |= {frozenset((body, it)) for it in bodies if it is not body}

    def run(self):
        while self.waiting:
            self.try_together(self.group())


def has_libraries(crates, folder):
    """Copies the libraries below these crates to a folder, and has `rt ci` prove them there or put back what it has kept."""
    below = set().union(*map(common.below, crates))
    if not below:
        return True
    common.copy_crates(below, folder)
    ran = subprocess.run(["rt", "ci"], cwd=folder, capture_output=True, text=True, errors="replace")
    if ran.returncode:
        print(ran.stdout[-2000:] + ran.stderr[-2000:])
    return not ran.returncode


def tried(crate, bodies, below):
    """Tries a crate's wrong bodies. Whether each ended as it must."""
    begun, earlier, are_well = time.monotonic(), Kept(crate, below), []

    def tell(body, verdict, why):
        are_well.append(verdict == body.ends or verdict == UNNAMED and body.ends == REFUSED)
        print(f"{crate}/{body.name}: {verdict}{': ' if why else ''}{why}", flush=True)
        if verdict in (REFUSED, UNNAMED):
            earlier.keep(body, (verdict, why))
        if verdict == UNNAMED and why and "--write" in sys.argv:
            path = next(it for it in wrong_of(crate) if it.stem == body.name)
            write_clauses(path, why)
            earlier.keep(*bodies_of(crate, [path]), (REFUSED, why))

    left = []
    for body in bodies:
        told = earlier.told(body)
        left += [] if told else [body]
        for verdict, why in told:
            tell(body, verdict, why)
    with tempfile.TemporaryDirectory() as folder:
        Tries(Copy(crate, folder, below), left, tell).run()
    took = time.monotonic() - begun
    print(f"{crate}: {len(left)} tried in {took:.0f} seconds, and {len(bodies) - len(left)} earlier", flush=True)
    return are_well


def write_clauses(path, told):
    """Writes the clauses that refuse a body, if any are told, behind the functions of its edit."""
    mark = "# " if path.parent.name == "must-fail" else ""
    lines = path.read_text().splitlines()
    behind = max(number for number, line in enumerate(lines) if line.startswith(f"{mark}function: ")) + 1
    lines[behind:behind] = [f"{mark}refused by: {it}" for it in told.split("; ") if it]
    path.write_text("".join(f"{line}\n" for line in lines))


def wrong_of(crate):
    """The files of a crate's wrong bodies; of those that `rt ci` tries, only the ones that name a function."""
    folder = common.crate(crate).folder()
    of_kit = [it for it in folder.glob("must-fail/*.edit") if "# function: " in it.read_text()]
    return sorted([*of_kit, *folder.glob("wrong/*.edit")])


def bodies_of(crate, paths):
    return [parsed(it, common.crate(crate).folder()) for it in paths]


def wrong_bodies(words):
    """Crates with their wrong bodies, the most first: those that are named, or all; with those that are shown, or, behind --gate,
    only those that the gate tries, or, behind --write, that name no clause."""
    shown = [("puffin_data", bodies_of("puffin_data", sorted(HERE.glob("shown/*.edit"))))]
    if words == ["--shown"]:
        return shown
    of_gate, without = "--gate" in words, "--write" in words
    words = [it for it in words if it not in ("--gate", "--write")]
    found = []
    for word in words or [it for it in common.crates() if any(wrong_of(it))]:
        crate, _, part = word.partition("/")
        bodies = bodies_of(crate, [it for it in wrong_of(crate) if part in it.name])
        bodies = [it for it in bodies if not (it.clauses and without)]
        found.append((crate, [it for it in bodies if it.is_of_gate or not of_gate]))
    named = [it for it in found if it[1] or words]
    return sorted(named, key=lambda it: -len(it[1])) + ([] if words or of_gate else shown)


def commit():
    """The commit of the sources, and whether they have changed since."""
    git = ["git", "-C", common.ROOT]
    name = subprocess.run([*git, "rev-parse", "--short=8", "HEAD"], capture_output=True, text=True).stdout.strip()
    changed = subprocess.run([*git, "status", "--porcelain", "crates"], capture_output=True, text=True).stdout
    return f"{name or 'no commit'}{' with changes' if changed else ''}"


def main():
    tasks = wrong_bodies(sys.argv[1:])
    if not tasks or not all(bodies for _, bodies in tasks):
        print(f"no wrong bodies: {' '.join(crate for crate, bodies in tasks if not bodies)}")
        return 2
    count = common.Count()
    with tempfile.TemporaryDirectory() as folder, concurrent.futures.ThreadPoolExecutor(LANES) as lanes:
        below = pathlib.Path(folder)
        if not has_libraries([crate for crate, _ in tasks], below):
            count.add(False)
            return count.end()
        parts = [(crate, bodies[at : at + IN_TURN]) for crate, bodies in tasks for at in range(0, len(bodies), IN_TURN)]
        begun = [lanes.submit(tried, *part, below) for part in parts]
        for ended in concurrent.futures.as_completed(begun):
            for is_well in ended.result():
                count.add(is_well)
    used = resource.getrusage(resource.RUSAGE_CHILDREN)
    print(f"wrong bodies: {(used.ru_utime + used.ru_stime) / 60:.1f} processor minutes")
    print(f"wrong bodies: {count.passed + count.failed} tried on {commit()}")
    return count.end()


if __name__ == "__main__":
    sys.exit(main())
