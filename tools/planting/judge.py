"""Says of a mutant whether the prover refuses it where its lines say."""
from dataclasses import dataclass, field

import said

FALSE, OPEN, LIMIT = "found false", "left open", "met a limit of the prover"
# How an answer that a person wrote is refused: as no proof of the goal that it is now for, or for the names in it, which says nothing.
WRONG, STRAY = "not proved by its written answer any more", "has a written answer that names what is gone"


@dataclass
class Found:
    """What a check came to for a mutant: why it wasn't judged, the compiler's error, and of each function that it changes what stands open.

    `functions` has by name a list of [clause, how], or None where the function is accepted. `tried_without` are written answers that no
    longer fitted, and were deleted for a second try, of which `second` says how it ended.
    """

    fault: str = ""
    error: str = ""
    functions: dict = field(default_factory=dict)
    tried_without: list = field(default_factory=list)
    second: str = ""


def opens_of(verdict, only):
    """What stands open of a function that is not proved, in pairs of the clause and how it stands. `only` is its one clause, if it has one."""
    if verdict.is_accepted:
        return None
    found = {}
    for goal in verdict.opens:
        clause, how = said.clause(goal, only), FALSE if goal in verdict.false else OPEN
        found[clause] = FALSE if FALSE in (how, found.get(clause)) else OPEN
    for goal in sorted(verdict.misfits, key=lambda it: it in verdict.strays):
        found.setdefault(said.clause(goal, only), STRAY if goal in verdict.strays else WRONG)
    if verdict.line.startswith("could not tell"):
        found.setdefault("limit", LIMIT)
    return [[clause, how] for clause, how in found.items()]


def open_ones(opens):
    """The clauses of which there is no proof: left open, found false, or one that their written answers prove no more."""
    return [clause for clause, how in opens or () if how in (FALSE, OPEN, WRONG)]


def named_clauses(edit, name):
    """The clauses of a function that the edit's lines name, if it has any."""
    return next((clauses for function, *clauses in edit.refuses if function == name), [])


def is_refused(edit, name, opens):
    """Whether a function is refused at a clause that the edit names, or at any where it names none."""
    named, found = named_clauses(edit, name), open_ones(opens)
    return bool(set(named) & set(found) if named else found)


def resting_on_answers(edit, name, opens):
    """The clauses that stand open only since written answers don't fit, where the edit names no other one: those that it names, or else all."""
    named = named_clauses(edit, name)
    hows = dict(opens or ())
    if {FALSE, OPEN} & {how for clause, how in hows.items() if clause in named or not named}:
        return []
    resting = [clause for clause, how in hows.items() if how in (WRONG, STRAY)]
    return [clause for clause in resting if clause in named] or resting


def with_second(first, second, tried):
    """What stands open of a function by two checks, of which the second was made without the answers for these clauses.

    A clause of these that the second one doesn't name is proved. It is None if either accepts the function.
    """
    if first is None or second is None:
        return None
    later, both = dict(second), []
    for clause, how in first:
        again = later.pop(clause, how if clause not in tried else None)
        if again:
            both.append([clause, again if again == FALSE or how == STRAY else how])
    return both + [[clause, how] for clause, how in later.items() if how in (FALSE, OPEN)]


def lines_for(found):
    """The lines `refuses:` or `no program:` that say what was found, or none."""
    if found.error:
        return [f"no program: {found.error}"]
    return [" ".join(["refuses:", name, *open_ones(opens)]) for name, opens in found.functions.items() if open_ones(opens)]


def in_words(opens):
    return "accepted" if opens is None else ", ".join(f"{clause} {how}" for clause, how in opens)


def shown(found):
    """What was found, in words."""
    if found.error:
        return f"no program: {found.error}"
    parts = [f"{name}: {in_words(opens)}" for name, opens in found.functions.items()]
    without = f" (without the answers {', '.join(found.tried_without)}: {found.second})" if found.tried_without else ""
    return "; ".join(parts) + without


def faults_of_line(name, clauses, found):
    """Why a line `refuses:` isn't met."""
    if name not in found.functions:
        yield f"it names {name}, which it doesn't change"
    elif found.functions[name] is None:
        yield f"{name} is still proved"
    elif not set(clauses) & set(open_ones(found.functions[name])):
        yield f"none of the named clauses of {name} is open ({' '.join(open_ones(found.functions[name])) or 'no clause'} is)"


def faults(edit, found):
    """Why the mutant isn't refused as its lines say, each in a sentence."""
    if edit.fault or found.fault:
        yield edit.fault or found.fault
    elif any(opens and all(how == STRAY for _, how in opens) for opens in found.functions.values()):
        yield "nothing is known but that written answers name what is gone"
    elif edit.error or found.error:
        if edit.error != found.error:
            yield f"the compiler's error is {found.error or 'none'}, and not {edit.error or 'none'}"
    else:
        named = {line[0] for line in edit.refuses}
        yield from (f"{name} is still proved" for name, opens in found.functions.items() if opens is None and name not in named)
        yield from (f"no line 'refuses:' names {name}" for name, opens in found.functions.items() if opens is not None and name not in named)
        for name, *clauses in edit.refuses:
            yield from faults_of_line(name, clauses, found)
