"""Reads what a check says of the functions that it was asked for."""
import re
from dataclasses import dataclass, field

ACCEPTED = ("proved", "no holes", "depends on a hole")
OPEN = re.compile(r"^note: src/\S+?: it is not proved that .*?\(`([^`]+)`\)(.*)$")
MAY_BE_FALSE = re.compile(r"^note: `([^`]+)` of proofs/(\S+)/Answers\.antt may be false")
MISFIT = re.compile(r"^\./(proofs/(\S+)/(?:Answers|Proof|Invariants)\.antt):\d+:\d+: error: ((?:module `[^`]+` has no )?`([^`]+)`.*)")
# What is not even read, since it stands on an answer that doesn't fit. Three of these are named at most.
REST = re.compile(r"^\./(proofs/(\S+)/(?:Answers|Proof|Invariants)\.antt):\d+:\d+: error: \d+ declarations? that depends? on `([^`]+)`, which was .*? not checked: (.*)$")
# The errors that an answer has where a call or a place that it names is gone, or has another number. They say nothing of what it is to prove.
GONE = re.compile(r"has no |is not in scope|is no name")
DIFFER = re.compile(r"differ only where one has `([^`]*)` \(expected\) and the other has `([^`]*)` \(found\)")
LINE = re.compile(r"^fn (\S+): (.*)$")
UNPROVED = re.compile(r"`search` did not prove (`[^;]*`)")
ERROR = re.compile(r"\berror\[([\w-]+)\]")


# What is kept of a line that names no function, at most; goals are printed at length.
LONGEST = 1000


def joined(output):
    """The lines of what a check printed, an error with the line that goes on with it."""
    lines = output.rstrip("\n").split("\n")
    return [f"{line} {after.strip()}" if line.startswith("./") and after.startswith("  ") else line for line, after in zip(lines, [*lines[1:], ""])]


def told(output):
    """The lines of what a check printed that say something of a function, or that something is wrong, and the last ones."""
    lines = joined(output)
    kept = [line if line.startswith("fn ") else line[:LONGEST] for line in lines if line.startswith(("fn ", "note: ", "./")) or "error" in line]
    return "\n".join([*kept, *(line[:LONGEST] for line in lines[-3:])])


@dataclass
class Verdict:
    """What a check says of a function: the rest of its line, its open goals, which of them were found false, and the answers that don't fit.

    Each of these answers stands with its file, and those in `strays` name what is gone, so that nothing is said of their goals.
    """

    line: str
    opens: list = field(default_factory=list)
    false: list = field(default_factory=list)
    misfits: dict = field(default_factory=dict)
    strays: set = field(default_factory=set)

    @property
    def is_accepted(self):
        return self.line.startswith(ACCEPTED)


def clause(goal, only):
    """The clause that a goal asks for, in a word: the name of an `ensures`, or the goal without numbers of its place.

    So `push-requires-room` is clause `room` of what a call of `push` requires. Of a function that has one `ensures` the goals don't name
    it, so its name is given.
    """
    if re.match(r"returns\b", goal):
        named = re.search(r"-clause-(\w+)$", goal)
        return named[1] if named else only
    return re.sub(r"-\d+(?=-|$)", "", goal.replace("-clause-", "-"))


def add(goals, goal):
    if goal not in goals:
        goals.append(goal)


def is_stray(error):
    """Whether an answer is refused for the names alone that it has."""
    pair = DIFFER.search(error)
    return bool(GONE.search(re.sub(r"`[^`]*`", "", error))) or bool(pair) and re.sub(r"-\d+", "", pair[1]) == re.sub(r"-\d+", "", pair[2])


def misfits_in(lines):
    """The answers that antt refuses, or doesn't read since they stand on one that it refuses, by function: each with its file, and the strays."""
    found, strays = {}, {}
    for at in filter(None, map(MISFIT.match, lines)):
        function = at[2].replace("/", "::")
        found.setdefault(function, {})[at[4]] = at[1]
        if is_stray(at[3]):
            strays.setdefault(function, set()).add(at[4])
    for at in filter(None, map(REST.match, lines)):
        function = at[2].replace("/", "::")
        for name in re.sub(r" and \d+ more$", "", at[4]).split(", "):
            is_refused = name in found.setdefault(function, {})
            found[function].setdefault(name, at[1])
            if not is_refused and at[3] in strays.get(function, ()):
                strays[function].add(name)
    return found, strays


def verdicts(output):
    """The verdict on each function, by the name that the check prints without the crate's."""
    lines, found, opens, false = joined(output), {}, [], []
    misfits, strays = misfits_in(lines)
    for line in lines:
        goal, told, late = OPEN.match(line), LINE.match(line), MAY_BE_FALSE.match(line)
        if goal:
            add(opens, goal[1])
            false += [goal[1]] if "this goal is false" in goal[2] else []
        elif told:
            name = told[1].partition("::")[2]
            for it in re.findall(r"`([^`]+)`", (UNPROVED.search(told[2]) or [None, ""])[1]):
                add(opens, it)
            found[name] = Verdict(told[2], opens, false, misfits.get(name, {}), strays.get(name, set()))
            opens, false = [], []
        elif late and late[2].replace("/", "::") in found:
            add(found[late[2].replace("/", "::")].false, late[1])
    return found


def compile_error(output):
    """The error by which the compiler refused the crate before any proof, or ""."""
    at = ERROR.search(output)
    return at[1] if at and not LINE.search(output) else ""
