"""Several wrong bodies in one check of a crate. tests/wrong/prove tries them so.

Why one check can tell of each: a function is proved from the contracts of what it calls, never from
their bodies. So what a wrong body breaks shows at its own function alone. It is refused if that
function isn't proved, for a goal of the prover. A function that only calls what isn't proved has no
such goal, and a check says so of it.

A batch decides nothing if a goal fails outside of its functions, which would contradict this, or if
the copy isn't read to its end.
"""
import collections
import re

# A function: its file, the lines of its head and of its body's begin and end, from 0, and how the
# names may end that a check gives it.
Function = collections.namedtuple("Function", "file head begin end names")
# A wrong body: its function, and the lines that it changes there.
Edit = collections.namedtuple("Edit", "function lines")

# Heads, as `rt fmt` lays them out.
FN = re.compile(r'( *)(?:pub(?:\(\w+\))? )?(?:const )?(?:unsafe )?(?:extern "C" )?fn (\w+)')
IMPL = re.compile(r"(?:unsafe )?impl(?:<.*?>)? (?:(\S.*) for )?(\S.*) \{$")
TRAIT = re.compile(r"(?:pub(?:\(\w+\))? )?trait (\w+)")

# What a check says of a function, and of a place in a file.
OF_FUNCTION = re.compile(r"fn (\S+): (.*)")
OF_PLACE = re.compile(r"(?:note: )?(?:\./)?(\S+?):(\d+):\d+: (.*)")
# Of a function: a goal of its own fails. Of a place: such a goal.
UNPROVED = re.compile(r"not proved|no proof: expected ")
GOAL = re.compile(r"it is not proved that |error: `")
# No such goal: a proof file names what isn't there any more, or the prover met a limit.
NO_GOAL = re.compile(
    r"is not in scope|has no field|has no `|was not admitted|ran out of|memory limit|step limit \("
)


def lines_of(path):
    """The pairs of word and text of a wrong body's file."""
    with open(path, encoding="utf-8") as it:
        return [line.rstrip("\n").split(": ", 1) for line in it if ": " in line]


def edited(folder, path):
    """The files of a crate's folder that a wrong body names, as they are and as it makes them."""
    was, made, file, old = {}, {}, "", ""
    for word, text in lines_of(path):
        if word == "file":
            file = text
            with open(f"{folder}/{file}", encoding="utf-8") as it:
                was[file] = made[file] = it.read()
        elif word == "old":
            old = text
        elif word == "new":
            made[file] = made[file].replace(old, text, 1)
    return was, made


def words_of(type_name):
    """The names in a type, without lifetimes and without the modules before them."""
    return re.findall(r"\w+", re.sub(r"'\w+,? ?|\w+::", "", type_name))


def owners(head):
    """How a check may name what an `impl` is for, a type with its arguments or its trait; or a
    trait, by its head."""
    of = IMPL.match(head)
    if not of:
        return TRAIT.findall(head)
    name, *arguments = words_of(of[2])
    if not of[1]:
        return ["+".join([name, *arguments]), name]
    trait = words_of(of[1])
    return [name + "".join(trait), name + trait[0]]


def body_of(lines, head, margin):
    """The lines at which the body of a function with this head begins and ends, if it has one."""
    for at in range(head, len(lines)):
        text = lines[at].lstrip()
        indent = len(lines[at]) - len(text)
        if text.endswith("{") and indent == len(margin):
            return at, lines.index(f"{margin}}}", at)
        goes_on = not text or indent > len(margin) or text.startswith((")", ">", "where"))
        if at > head and not goes_on:
            return None
    return None


def head_of(lines, at):
    """The line at which a function begins with its attributes, whose first a goal may be told at."""
    while at and not re.search(r"^ *(//.*)?$|[{};]$", lines[at - 1]):
        at -= 1
    return at


def functions_of(crate, file, lines):
    """The functions of a file that have a body. One within another is part of it."""
    path = [crate, *re.sub(r"^src/|\.rt$", "", file).split("/")]
    module = "::".join(it for it in path if it not in ("lib", "main"))
    found, item, end = [], "", -1
    for at, line in enumerate(lines):
        if re.match(r"\w", line):
            item = line
        fn = FN.match(line)
        body = body_of(lines, at, fn[1]) if fn and at > end else None
        if body:
            before = [f"::{it}" for it in owners(item)] if fn[1] else [module]
            names = tuple(f"{it}::{fn[2]}" for it in before)
            found.append(Function(file, head_of(lines, at), *body, names))
            end = body[1]
    return found


def edit_of(crate, folder, path):
    """A wrong body of a crate in this folder, if it is within the body of one function."""
    was, made = edited(folder, path)
    if len(was) != 1:
        return None
    [(file, text)] = was.items()
    before, after = text.split("\n"), made[file].split("\n")
    lines = {at: line for at, line in enumerate(after) if line != before[at]}
    for function in functions_of(crate, file, before):
        if lines and all(function.begin < at < function.end for at in lines):
            return Edit(function, lines)
    return None


def packed(edits):
    """Batches of wrong bodies, by their names: no two of a batch are in one function."""
    made = []
    for name, edit in edits.items():
        free = next((batch for batch in made if edit.function not in batch), None)
        if free is None:
            made.append(free := {})
        free[edit.function] = name
    return [list(batch.values()) for batch in made]


def put_into(folder, edits):
    """Puts these wrong bodies into a crate's folder, all of them on its text as it is."""
    for file in {edit.function.file for edit in edits}:
        with open(f"{folder}/{file}", encoding="utf-8") as it:
            lines = it.read().split("\n")
        for edit in edits:
            if edit.function.file == file:
                for at, line in edit.lines.items():
                    lines[at] = line
        with open(f"{folder}/{file}", "w", encoding="utf-8") as it:
            it.write("\n".join(lines))


def heard(said):
    """What a check told of each function, by the lines that it said; the places of the goals that
    fail; and those of what it couldn't read."""
    told, goals, unread = {}, [], []
    for line in said:
        if of := OF_FUNCTION.match(line):
            told[of[1]] = of[2]
        elif of := OF_PLACE.match(line):
            place = of[1], int(of[2]) - 1
            if GOAL.match(of[3]) and not NO_GOAL.search(of[3]):
                goals.append(place)
            elif of[3].startswith("error") and of[1].startswith(("src/", "specs/")):
                unread.append(place)
    return told, goals, unread


def unreadable(edits, said):
    """Which of these wrong bodies a check of them all couldn't read, by the lines that it said."""
    places = heard(said)[2]
    return [name for name, edit in edits.items() if any(is_in(it, edit) for it in places)]


def is_in(place, edit):
    """Whether a place is in the function of a wrong body."""
    (file, at), function = place, edit.function
    return file == function.file and function.head <= at <= function.end


def names_of(function, told):
    """The names that a check gave to a function and to the closures in it, if it is clear which."""
    for ending in function.names:
        found = [it for it in told if it.endswith(ending)]
        if len(found) == 1:
            path = found[0].split("::")
            own = 2 if ending.startswith("::") else 1
            closures = "::".join([*path[:-own], "fn", *path[-own:], ""])
            return [found[0], *(it for it in told if it.startswith(closures))]
    return []


def refused(crate, edits, said):
    """Which of these wrong bodies of a crate one check of them all refuses, by the lines that it
    said; none if it decides nothing."""
    told, goals, unread = heard(said)
    if unread or not told or not any(line.startswith("logic=") for line in said):
        return None
    names = {name: names_of(edit.function, told) for name, edit in edits.items()}
    proofs = {
        name: tuple(f"proofs/{it.split('::', 1)[1].replace('::', '/')}/" for it in given)
        for name, given in names.items()
    }

    def is_of(goal, name):
        # (a folder's name may begin with a `+`)
        is_in_proof = goal[0].replace("/+", "/").startswith(proofs[name])
        return is_in_proof or is_in(goal, edits[name])

    if not all(any(is_of(goal, name) for name in edits) for goal in goals):
        return None
    unproved = [name for name in edits if any(UNPROVED.match(told[it]) for it in names[name])]
    return [name for name in unproved if any(is_of(goal, name) for goal in goals)]
