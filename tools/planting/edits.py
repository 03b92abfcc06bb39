"""Reads the mutants: files `*.edit` that say which lines of a crate become which others, why that is wrong, and what refuses it.

`why:` says what goes wrong for whom, and `body:` which body of a list it stands for. After a line `file:` come pairs of `old:` and `new:`,
one line each; an `old:` stands once in the file, as the pairs before made it. `refuses: FUNCTION CLAUSE ..` names what the prover leaves
open, a line for each function that is changed, or `no program: ERROR` the error by which the compiler refuses it. A mutant that only a test
sees has `test: CRATE TEST` in their place.
"""
import glob
import os
import re
from dataclasses import dataclass, field

from contract import contract_of
from layout import functions
from plant import plant

FOLDERS = ("must-fail", "mutants")


@dataclass
class Edit:
    """A mutant. `fault` says why it can't be planted, or is ""."""

    file: str
    crate: str
    name: str
    why: str = ""
    bodies: list = field(default_factory=list)
    refuses: list = field(default_factory=list)
    error: str = ""
    tests: list = field(default_factory=list)
    pairs: list = field(default_factory=list)
    fault: str = ""
    functions: list = field(default_factory=list)

    @property
    def label(self):
        return f"{self.crate}/{self.name}"

    @property
    def groups(self):
        return {it.group for it in self.functions}


def pair_faults(edit):
    """Why the lines of an edit are no pairs, or ""."""
    if not edit.pairs:
        return "it has no pair of 'old:' and 'new:'"
    is_whole = all(path.startswith("src/") and old for path, old, _ in edit.pairs)
    return "" if is_whole else "no 'file:' below src/, or no 'old:', stands before a 'new:'"


def read(file, crate):
    """Reads an edit of a crate, without a look at what it changes."""
    edit, path, old = Edit(file, crate, os.path.basename(file).removesuffix(".edit")), "", ""
    try:
        with open(file, encoding="utf-8") as it:
            lines = it.read().split("\n")
    except (OSError, UnicodeError) as why:
        edit.fault = f"it can't be read: {why}"
        return edit
    for kind, _, words in (line.partition(":") for line in lines):
        words = words.removeprefix(" ")
        if kind == "why":
            edit.why = words
        elif kind == "body":
            edit.bodies.append(words)
        elif kind == "refuses":
            name, *clauses = words.split() or [""]
            edit.refuses.append([name.replace(".", "::"), *clauses])
        elif kind == "no program":
            edit.error = words.strip()
        elif kind == "test":
            edit.tests.append(words.split())
        elif kind == "file":
            path = os.path.normpath(words.strip())
        elif kind == "old":
            old = words
        elif kind == "new":
            edit.pairs.append((path, old, words))
            old = ""
    edit.fault = pair_faults(edit)
    return edit


def contracts(text, path, chosen):
    """The clauses of the chosen functions of a file, by key."""
    return {it.key: contract_of(text, it) for it in functions(text, path) if it.key in chosen}


def changed_contract(edit, was, texts):
    """The name of a function whose contract an edit changes, or ""."""
    chosen = {it.key for it in edit.functions}
    for path, text in texts.items():
        now = contracts(text, path, chosen)
        changed = next((key for key, clauses in contracts(was[path], path, chosen).items() if now.get(key) != clauses), None)
        if changed:
            return changed[-1]
    return ""


def look(edit, folder, needs_function=True):
    """Notes which functions an edit touches, or why it is none that can be judged."""
    texts = {}
    for path in {it[0] for it in edit.pairs}:
        if os.path.isfile(f"{folder}/{path}"):
            with open(f"{folder}/{path}", encoding="utf-8") as it:
                texts[path] = it.read()
    was = dict(texts)
    edit.fault = edit.fault or plant(edit, texts, edit.functions)
    if not edit.fault and texts == was:
        edit.fault = "it changes nothing"
    if not edit.fault and needs_function and not edit.functions:
        edit.fault = "it changes no function"
    if not edit.fault and changed_contract(edit, was, texts):
        edit.fault = f"it changes the contract of {changed_contract(edit, was, texts)}, and not its body alone"
    return edit


def edits_of(crate, top=".", tested=False, folders=FOLDERS):
    """The mutants of a crate in these folders that the prover is to refuse, or those that only tests see."""
    folder = f"{top}/crates/{crate}"
    places = [f"{folder}/mutants/tested"] if tested else [f"{folder}/{it}" for it in folders]
    files = [file for place in places for file in sorted(glob.glob(f"{place}/*.edit"))]
    return [look(read(file, crate), folder, not tested) for file in files]


def crates_with_edits(top="."):
    """The crates that have mutants, in the order of crates.txt."""
    with open(f"{top}/crates.txt", encoding="utf-8") as it:
        crates = re.findall(r"(?m)^(\w+)", it.read())
    return [it for it in crates if glob.glob(f"{top}/crates/{it}/mutants/**/*.edit", recursive=True) or glob.glob(f"{top}/crates/{it}/must-fail/*.edit")]
