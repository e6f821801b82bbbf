"""What a check says of wrong bodies, read from what `rattle check` prints."""

import re
from dataclasses import dataclass, field

REFUSED = "REFUSED BY ITS CLAUSE"
# The same of an edit that names no clause yet.
UNNAMED = "REFUSED BY A CLAUSE"
OTHERWISE = "REFUSED FOR ANOTHER REASON"
TAKEN = "TAKEN"
BAD = "BAD EDIT"
NOT_LOOKED_AT = "NOT LOOKED AT"
# It says nothing of the function by itself.
UNSURE = "NO VERDICT"

# What a proof says that cites what an edit took away, which says nothing of the contract. (Below a type that is shown, a note names
# what is in it and can't be written there: "`M` is not in scope here, so what is shown does not paste back".)
OF_A_NAME = re.compile(r"has no field|is not in scope(?! here, so what is shown)|has no `")

# The same of a proof that takes apart or builds a value of a type that has other fields now.
OF_A_SHAPE = re.compile(r"(?:missing|unknown|duplicate) field|field\(s\)|is given as field|come after all its fields|is not a constructor")

# What it says of items that rest on one that has an error.
ABOVE = re.compile(r"declarations? that depends? on `([^`]+)`, which was (?:rejected|not admitted), w(?:as|ere) not checked: (.*)")

# What stands beside the names of such items.
BESIDE = re.compile(r" \(via [^()]*\)| and \d+ more$")

# Where it names values at which a goal is false.
AT_VALUES = re.compile(r"the goal fails, at|allow values at which this goal is false")

# What the check says of a name that is no function's, or several functions'.
UNKNOWN = re.compile(r"has no function|names? several|fits several")

# How it names a goal that stays open: in the function's line, or in a note above.
OPEN_GOALS = re.compile(r"`search` did not prove (`[^`]+`(?:, `[^`]+`)*)")
OPEN_GOAL = re.compile(r"^note: \S+:\d+:\d+: it is not proved that .*\(`([^`\s]+)`\)(.*)$", re.M)

# What an error or an open goal says, the weakest first: an answer names what isn't there; it is of another type; the goal is false at
# values.
NAMES, OTHER_TYPE, VALUES = range(3)

TYPE = re.compile(r"^\s*(?:pub(?:\(\w+\))? )?(?:struct|enum|union|type) (\w+)", re.M)


@dataclass(frozen=True)
class WrongBody:
    """An edit, the functions of which one has to be refused, its changes (file, old and new text), whether these give a type
    another shape, the result that it must have, the functions that have to stay proved, the clauses that refuse it, each behind
    its function, and whether the gate tries it."""

    name: str
    functions: tuple
    changes: tuple
    is_of_shape: bool = False
    ends: str = REFUSED
    proved: tuple = ()
    clauses: frozenset = frozenset()
    is_of_gate: bool = False

    def is_of_definitions(self):
        return any(file.startswith("specs/") for file, _, _ in self.changes)


@dataclass
class Look:
    """What has been seen of a wrong body: answers that were left out, since they have errors, with the kind of these, by their
    function; and the texts of proof files without them."""

    left_out: dict = field(default_factory=dict)
    texts: dict = field(default_factory=dict)
    rounds: int = 0


def shapes(text):
    """The declarations of a source file's types, by the types' names, without comments and blanks."""
    text = re.sub(r"//.*", "", text)
    found = {}
    for start in TYPE.finditer(text):
        at, depth = start.end(), 0
        while at < len(text) and not (depth == 0 and text[at] == ";"):
            depth += {"{": 1, "(": 1, "}": -1, ")": -1}.get(text[at], 0)
            at += 1
            if depth == 0 and text[at - 1] == "}":
                break
        found[start[1]] = re.sub(r"\s", "", text[start.start() : at])
    return found


def changes_a_shape(before, after):
    """Whether one of a file's types has another declaration after an edit."""
    new = shapes(after)
    return any(new.get(name) != declared for name, declared in shapes(before).items())


def lines_on(crate, said):
    """What the prover says of each function: behind `fn CRATE::NAME: `."""
    return dict(re.findall(rf"^fn {crate}::(\S+): (.*)$", said, re.M))


def open_goals(crate, said):
    """The goals of each function that stay open, and whether values are named at which one is false. Notes on them stand above the
    function's line."""
    found, above = {}, 0
    for line in re.finditer(rf"^fn {crate}::(\S+): (.*)$", said, re.M):
        told = OPEN_GOALS.search(line[2])
        goals = dict.fromkeys(re.findall(r"`([^`]+)`", told[1] if told else ""), False)
        goals |= {goal: bool(AT_VALUES.search(rest)) for goal, rest in OPEN_GOAL.findall(said[above : line.start()])}
        found[line[1]], above = goals, line.end()
    return found


def is_judged(said):
    """Whether the check came to its end, and didn't stop at what can't be compiled."""
    return bool(re.search(r"^(only=\d+ proved=|logic=)", said, re.M))


def is_of_names(error):
    """Whether an error is only about a name that is gone, or about fields that are others now."""
    return bool(OF_A_NAME.search(error) or OF_A_SHAPE.search(error))


def errors_in(said):
    """The errors in proof files: file, line, and what is said, with the lines below that belong to it."""
    found = re.findall(r"^(?:\./)?(proofs/\S+?):(\d+):\d+: error: (.*(?:\n  .*)*)", said, re.M)
    return [(file, int(line), error) for file, line, error in found]


def errors_of(function, said):
    """What is wrong in the proof of a function: file, line and error."""
    folder, _, name = f"proofs/{function}".replace("::", "/").rpartition("/")
    # (of a function that calls itself the proof stands in a folder with a plus)
    places = f"{folder}/{name}", f"{folder}/+{name}"
    return [it for it in errors_in(said) if it[0].rpartition("/")[0] in places]


def items_of(text):
    """The items of a proof file: the name of each, its first line and the one behind its last, numbered from 0."""
    found, lines = [], text.split("\n")
    for number, line in enumerate(lines):
        if not line or line[0].isspace() or line.startswith(("--", ")", "]", "}")):
            continue
        word = re.match(r"(?:(?:abbrev|unfoldable|pub) )*(\S+)", line)[1]
        if found and (word == "unfolding" or word == found[-1][0] and word != "use"):
            continue
        found.append([word, number])
    ends = [start for _, start in found[1:]] + [len(lines)]
    return [(word, start, end) for (word, start), end in zip(found, ends)]


def kind_of(error):
    """What an error says: of names, of another type, or of values at which a goal is false."""
    return NAMES if is_of_names(error) else VALUES if AT_VALUES.search(error) else OTHER_TYPE


def kinds_of(errors, lemmas, kind_of_named):
    """The kinds of the errors of all items, the weakest of each. What rests on another item, or on one of these lemmas, has the kind
    of that; what rests on one that isn't named has the weakest kind of all."""
    weakest = min([*lemmas.values(), *[kind_of(it) for it in errors if not ABOVE.search(it)]], default=NAMES)
    found = {}
    for error in errors:
        above, name = ABOVE.search(error), re.match(r"`([^`]+)`: ", error)
        names = BESIDE.sub("", above[2]).split(", ") if above else [name[1]] if name else []
        kind = found.get(above[1], lemmas.get(above[1], weakest)) if above else kind_of(error)
        for it in names:
            found[it] = min(kind_of_named(it, kind), found.get(it, VALUES))
    return found


def named_kinds(said):
    """The kinds of the errors of all items of proof files."""
    return kinds_of([error for _, _, error in errors_in(said)], {}, lambda _, kind: kind)


def answers_in(text):
    """The goals that a file answers; its other items are lemmas."""
    return re.findall(r"^(?:abbrev )?pub (\S+) : goal\.", text, re.M)


def kinds_in(text, errors, lemmas, is_of_shape):
    """The kinds of the errors of a file's items. Where a type has another shape, a lemma may fail for that alone."""
    answers = answers_in(text)
    return kinds_of(errors, lemmas, lambda it, kind: NAMES if is_of_shape and it not in answers else kind)


def without(text, kinds):
    """A file of answers without the items that have errors, and what these are."""
    lines, gone = text.split("\n"), {}
    for word, start, end in reversed(items_of(text)):
        if word in kinds:
            gone[word] = kinds[word]
            del lines[start:end]
    return without_places("\n".join(lines)) if gone else text, gone


def without_places(text):
    """A file of answers without the names of a function's places that no answer cites: a check knows only those that are needed."""
    cited = set(re.findall(r"[^\s(){},.;]+", re.sub(r"^use .*", "", text, flags=re.M)))

    def left(line):
        names = [it for it in line[2].split(", ") if it in cited]
        return f"{line[1]}{{{', '.join(names)}}}" if names else ""

    return re.sub(r"^(use \S+\.Goals\.)\{(.*)\}$", left, text, flags=re.M)


def clause_of(goal):
    """The clause of which a goal is: its label, `ensures` if it has none, or else what the goal itself asks."""
    returned = re.match(r"returns(?:-.*?)??(?:-clause-(\w+))?$", goal)
    if returned:
        return returned[1] or "ensures"
    # (a call's goals have the name of what it is bound to between the call's and `requires`)
    asked = re.match(r"([^-]+)(?:-.*)?(-requires)(?:-.*?)??(?:-clause-\w+)?$", goal)
    held = asked or re.match(r"(.*?-(?:preserved|init|smaller)|invariant_of-[a-z_]+)()(?:-.*)?$", goal)
    return held[1] + held[2] if held else goal


def refusing(left_out, left_open):
    """The clauses whose goals stay open for what they ask, and the others. An answer that names what isn't there may fit under other
    names, and so those of its clause; and beside such a one, an answer of another type may have been given what other names had."""
    unfit = {clause_of(it) for it, kind in left_out.items() if kind == NAMES}
    real = set()
    for goal, is_false in left_open.items():
        kind = left_out.get(goal)
        is_without = kind is None and clause_of(goal) not in unfit
        if is_false or kind == VALUES or kind == OTHER_TYPE and not unfit or is_without:
            real.add(clause_of(goal))
    return real, {clause_of(it) for it in left_open} - real


def looked_at(body, said, text_of, look):
    """Whether something of a body's answers has to be left out, and the check made again. Notes what that is."""
    is_new = False
    for function in body.functions:
        errors = [it for it in errors_of(function, said) if it[0].endswith("/Answers.antt")]
        for file in {it[0] for it in errors}:
            text = look.texts.get(file) or text_of(file)
            kinds = kinds_in(text, [error for it, _, error in errors if it == file], named_kinds(said), body.is_of_shape)
            look.texts[file], gone = without(text, kinds)
            # (a lemma may fail only since the answer that it was for is gone)
            look.left_out.setdefault(function, {}).update((it, gone[it]) for it in answers_in(text) if it in gone)
            is_new = is_new or bool(gone)
    return is_new


def verdict_on(function, crate, said, look):
    """What a check says of one function by itself: a verdict, and the clauses that refuse it."""
    line = lines_on(crate, said).get(function)
    if line is None:
        return NOT_LOOKED_AT, set()
    if line == "proved":
        return TAKEN, set()
    real, unfit = refusing(look.left_out.get(function, {}), open_goals(crate, said)[function])
    errors = errors_of(function, said)
    if errors and all(file.endswith("/Proof.antt") and not is_of_names(error) for file, _, error in errors):
        return REFUSED, {"proof"}
    if real and not errors:
        return REFUSED, real
    return (OTHERWISE, real | unfit) if real or unfit or errors or look.left_out.get(function) else (UNSURE, set())


def judged(body, crate, said, look):
    """What a check says of a wrong body: the clearest verdict on one of its functions, and the clauses that refuse it, each behind
    its function. Where it changes a definition, the code has to be right by that, so that it is the law that refuses the
    definition."""
    told = lines_on(crate, said)
    if any(told.get(it) != "proved" for it in body.proved):
        return UNSURE, frozenset()
    if body.is_of_definitions() and all(told.get(it, "proved") == "proved" for it in body.functions):
        return verdict_on_all(said), frozenset()
    found = {it: verdict_on(it, crate, said, look) for it in body.functions}
    best = next(it for it in (REFUSED, NOT_LOOKED_AT, UNSURE, OTHERWISE, TAKEN) if any(it == verdict for verdict, _ in found.values()))
    return best, frozenset((it, name) for it, (verdict, names) in found.items() if verdict == best for name in names)


def listed(clauses):
    """Functions with clauses as one text."""
    return "; ".join(f"{function}: {name}" for function, name in sorted(clauses))


def held_to_names(body, verdict, clauses):
    """A verdict and what to say of it, once the clauses that refuse a body are compared with those that its edit names."""
    if verdict == REFUSED and not body.clauses:
        return UNNAMED, listed(clauses)
    if verdict == REFUSED and body.clauses != clauses:
        return OTHERWISE, f"refused by {listed(clauses)}, and it names {listed(body.clauses)}"
    if verdict == OTHERWISE:
        return OTHERWISE, f"answers don't fit, and so not of {listed(clauses) or 'any clause'}"
    return verdict, listed(clauses)


def verdict_on_all(said):
    """What a check comes to as a whole, whichever proof or lemma is refused."""
    if re.search(r"^logic=proved", said, re.M):
        return TAKEN
    is_real = OPEN_GOALS.search(said) or any(not is_of_names(it) and not ABOVE.search(it) for _, _, it in errors_in(said))
    return REFUSED if is_real else UNSURE


def wrong_below(body, bodies, crate, said):
    """The other bodies whose functions this one's call, through functions that aren't proved for that."""
    calls = {it: re.findall(rf"`{crate}::([^`]+)`", line.partition("it calls ")[2]) for it, line in lines_on(crate, said).items()}
    seen, left = set(), list(body.functions)
    while left:
        function = left.pop()
        if function not in seen:
            seen.add(function)
            left += calls.get(function, [])
    return [it for it in bodies if it is not body and seen & set(it.functions)]
