"""Finds the clauses of a function, by the layout that `rt fmt` gives them."""
import re

from layout import body_of


def contract_of(text, function):
    """The lines of a function's clauses."""
    lines = text.split("\n")
    head = lines[function.first:(body_of(lines, function) or function.last) + 1]
    clauses = (at for at, line in enumerate(head) if re.match(r"\s+(requires|ensures|ghost)\b", line))
    return head[next(clauses, len(head)):]


def only_clause(text, function):
    """The name of the clause that a goal without a name asks for, where it has one: the one `ensures*`, or else the one `ensures`. If not, the word itself."""
    clauses = [it.groups() for it in (re.match(r"\s+ensures(\*?) ?(\w*) *\{", line) for line in contract_of(text, function)) if it]
    names = [name for star, name in clauses if star] or [name for _, name in clauses]
    return names[0] if len(names) == 1 and names[0] else "ensures"
