"""Cases of the scripts puffin-tool and puffin-look: which program answers after a change of crates.txt or of a source, what
`--build` hands to `rt ci`, and what they answer without a program.

Nothing is compiled or proved: in a copy of the crates, scripts that print their names stand for the built program and for `rt`.
"""

import os
import pathlib
import shutil
import subprocess
import tempfile
import time

from .. import common

PROGRAMS = {"puffin-tool": "puffin_tool", "puffin-look": "puffin_look_tool"}
# of a crate whose folder isn't there yet
LINE = "my_first: anyhow puffin\n"
BUILT = "#!/bin/sh\necho built\n"
# they end as `rt try` and `rt ci` do; `ci` keeps a list of what it was given, and builds BUILT
RT = """#!/bin/sh
case $1 in
    try) echo unproved; echo run=ended status=0 runners=2 proved=no >&2 ;;
    ci) find * -type f >{0}.list; mkdir -p crates/{1}/out; cp {0}.built crates/{1}/out/{1} ;;
    *) exit 1 ;;
esac
"""
# an `rt` that nothing may need
NO_RT = "#!/bin/sh\necho rt is run >&2\nexit 1\n"


class Copy:
    def __init__(self, script, folder, names=None, left_out=("proofs", "specs")):
        self.crate = PROGRAMS[pathlib.Path(script).name]
        self.top, self.tools = folder / "copy", folder / "tools"
        self.script = self.top / pathlib.Path(script).name
        self.top.mkdir()
        common.copy_crates(names or common.crates(), self.top, left_out)
        for name in PROGRAMS:
            shutil.copy(pathlib.Path(script).with_name(name), self.top)
        self.lines, self.program = self.top / "crates.txt", self.top / "crates" / self.crate / "out" / self.crate
        self.list = self.tools / "rt.list"
        write_script(self.tools / "rt.built", BUILT)
        write_script(self.tools / "rt", RT.format(self.tools / "rt", self.crate))

    def build(self):
        """Puts a built program there."""
        write_script(self.program, BUILT)
        self.age()

    def age(self):
        """Makes all older than what the cases change, and the program the newest."""
        for path in self.top.rglob("*"):
            os.utime(path, (1, 1))
        os.utime(self.program, (2, 2))

    def run(self, *words, stdout=subprocess.PIPE):
        tools = {**os.environ, "PATH": f"{self.tools}:{os.environ['PATH']}"}
        how = {"stdin": subprocess.DEVNULL, "stdout": stdout, "stderr": subprocess.PIPE, "timeout": 60, "env": tools}
        return subprocess.run([str(self.script), *words], **how)

    def answer(self):
        """Which program answers."""
        ran = self.run("count")
        return ran.stdout.decode().strip() or f"nothing, but {ran.stderr.decode()!r}"


def write_script(path, text):
    path.parent.mkdir(exist_ok=True)
    path.write_text(text)
    path.chmod(0o755)


def nothing(copy):
    pass


def append_a_line(copy):
    with copy.lines.open("a") as lines:
        lines.write(LINE)


def change_its_line(copy):
    copy.lines.write_text(copy.lines.read_text().replace("\npuffin_view: itertools ", "\npuffin_view: "))


def change_it_back(copy):
    copy.lines.write_text(copy.lines.read_text().replace("\npuffin_view: ", "\npuffin_view: itertools "))


def touch_a_source(copy):
    (copy.top / "crates/puffin_view/src/lib.rt").touch()


def touch_only(*names):
    """The step that changes a source of each of these crates after the program was built."""

    def touch(copy):
        copy.age()
        for name in names:
            next((copy.top / "crates" / name / "src").glob("*.rt")).touch()

    touch.__name__ = f"touch_{'_'.join(names):.40}"
    return touch


def touch_each():
    """The steps that change the program's own crates, one at a time, and all others at once: the script has to tell them apart as
    the lines of crates.txt do."""
    own = {"puffin_tool", *common.below("puffin_tool")}
    others = [it for it in common.crates() if it not in own]
    return [(touch_only(*others), "built"), *((touch_only(it), "unproved") for it in sorted(own))]


def build_again(copy):
    """As `rt ci` does, which keeps no lines beside the program; and then changes crates.txt."""
    later = time.time() + 1
    os.utime(copy.program, (later, later))
    append_a_line(copy)
    os.utime(copy.lines, (later + 1, later + 1))


# by the name of each case: what is done before each answer, and which program has to answer
CASES = {
    "line_of_another_crate": [(nothing, "built"), (append_a_line, "built")],
    "line_of_an_own_crate": [(nothing, "built"), (change_its_line, "unproved"), (change_it_back, "built")],
    "line_before_any_answer": [(append_a_line, "unproved")],
    "source_of_an_own_crate": [(nothing, "built"), (touch_a_source, "unproved")],
    "line_after_another_build": [(nothing, "built"), (build_again, "unproved")],
    "source_of_each_crate": touch_each(),
}


def faults(script, steps):
    """What the script does otherwise than it should."""
    with tempfile.TemporaryDirectory() as folder:
        copy = Copy(script, pathlib.Path(folder))
        copy.build()
        found = []
        for change, wanted in steps:
            change(copy)
            found.append((copy.answer(), wanted, change.__name__))
    return [f"after {what}, {got} answers and not {want}" for got, want, what in found if got != want]


def read_by_builds(copy):
    """All files of the copy's crates that a build reads."""
    files = (it.relative_to(copy.top) for it in (copy.top / "crates").rglob("*") if it.is_file())
    return {str(it) for it in files} | {"HANDLES", "crates.txt"}


def faults_in_build(script, _case):
    """What `--build` doesn't hand to `rt ci` of all that it reads, and what the script doesn't answer then."""
    with tempfile.TemporaryDirectory() as folder:
        crate = PROGRAMS[pathlib.Path(script).name]
        copy = Copy(script, pathlib.Path(folder), [*common.below(crate), crate], ())
        wanted = read_by_builds(copy)
        ran = copy.run("--build")
        given = set(copy.list.read_text().split()) if copy.list.exists() else set()
        answer = copy.answer()
    faults = [f"without {it}" for it in sorted(wanted - given)] + [f"also {it}" for it in sorted(given - wanted)]
    return faults[:5] or ([] if ran.returncode == 0 and answer == "built" else [f"{ran.stderr[-200:]}, {answer} answers"])


# what each script is asked, and what it says and its status where standard output is full, and where nobody reads it
OUTPUTS = {
    "puffin-tool": (["count"], [(["puffin-tool: Io"], 1)] * 2),
    "puffin-look": (["threads", "/"], [(["puffin-look: standard output: No space left on device"], 1), ([], 141)]),
}


def faults_in_output(script, _case):
    """What the script says otherwise where nothing is built and its output fails, behind its two lines on that."""
    words, wanted = OUTPUTS[pathlib.Path(script).name]
    found = []
    with tempfile.TemporaryDirectory() as folder, open("/dev/full", "wb") as full:
        copy = Copy(script, pathlib.Path(folder))
        reader, unread = os.pipe()
        os.close(reader)
        for stdout in (full, unread):
            ran = copy.run(*words, stdout=stdout)
            found.append((ran.stderr.decode().splitlines()[2:], ran.returncode))
        os.close(unread)
    return [] if found == wanted else [f"{found} and not {wanted}"]


# the cases of words that each script answers without a program
AT_ONCE = {
    "puffin-tool": "no_words other_word word_in_capitals too_many_words replay_too_few_words report_too_few_words",
    "puffin-look": "no_words other_word too_many_words frame_no_index help help_in_short version",
}


def faults_at_once(script, compare, folder_of_cases):
    """What the script, where nothing is built and no `rt` may be run, does otherwise than the program in cases of words.
    `compare` returns what a program does otherwise than a case wants."""
    cases = [folder_of_cases / it for it in AT_ONCE[pathlib.Path(script).name].split()]
    with tempfile.TemporaryDirectory() as folder:
        crate = PROGRAMS[pathlib.Path(script).name]
        copy = Copy(script, pathlib.Path(folder), [*common.below(crate), crate])
        write_script(copy.tools / "rt", NO_RT)
        alone = copy.tools / "alone"
        write_script(alone, f'#!/bin/sh\nPATH={copy.tools}:$PATH exec {copy.script} "$@"\n')
        return [f"{case.name}: {it}" for case in cases for it in compare(str(alone), case)]
