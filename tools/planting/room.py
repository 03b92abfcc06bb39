"""Makes copies of a crate in which mutants are planted and nothing but chosen functions is left to prove.

Each other function of the crate gets the body `unreachable!()`, so that none of its callees is read, and a proof that is a hole. Then a
check proves the chosen ones alone, over the contracts of what they call. That is sound: a function is proved of its body and of those
contracts, and a mutant changes bodies only.
"""
import os
import re
import shutil

from layout import body_of, functions, homes, sources, symbol_of
from plant import plant

PARTS = ("src", "specs", "proofs")
HOLE = """use Rattle.{crate}.proofs.{path}.Statement.{{statement}}

pub {name}_spec : {{M : Type 1}} → statement M
{name}_spec = ?
"""


def can_be_emptied(function, lines):
    """Whether a function's body and proof can be left out: it has a body of its own lines, and its proof stands alone.

    Those of some traits with parameters stay: what a check calls such an `impl` doesn't follow from its text alone.
    """
    is_open = not function.owner.certain or function.is_default or function.is_const or function.cycle
    opens = body_of(lines, function)
    return not is_open and opens is not None and "-> impl " not in "\n".join(lines[function.first:opens + 1])


def emptied(text, path, chosen):
    """The text of a file in which every function has the body `unreachable!()` but the chosen ones, and those functions."""
    lines, gone = text.split("\n"), []
    found = functions(text, path)
    kept = [it for it in found if it.key in chosen]
    for function in reversed(found):
        holds_chosen = any(function.first <= it.first <= function.last for it in kept)
        if not holds_chosen and can_be_emptied(function, lines):
            indent = re.match(" *", lines[function.first])[0]
            lines[body_of(lines, function) + 1:function.last] = [indent + "    unreachable!()"]
            gone.append(function)
    return "\n".join(lines), gone


def write_hole(room, crate, function, types):
    """Gives a function a hole in the place of its proof."""
    path = symbol_of(function, types).split("::")
    folder = os.path.join(room, "proofs", *path)
    shutil.rmtree(folder, ignore_errors=True)
    os.makedirs(folder)
    with open(f"{folder}/Proof.antt", "w", encoding="utf-8") as it:
        it.write(HOLE.format(crate=crate, path=".".join(path), name=function.name))


def read_sources(folder):
    texts = {}
    for path in sources(folder):
        with open(f"{folder}/{path}", encoding="utf-8") as it:
            texts[path] = it.read()
    return texts


def make(room, folder, crate, edits, chosen):
    """Makes a copy of a crate with these edits, in which only the functions of the chosen keys are left to prove. Returns why it can't, or ""."""
    for part in PARTS:
        if os.path.isdir(f"{folder}/{part}"):
            shutil.copytree(f"{folder}/{part}", f"{room}/{part}")
    texts, types = read_sources(folder), homes(folder)
    for edit in edits:
        fault = plant(edit, texts)
        if fault:
            return fault
    for path, text in texts.items():
        text, gone = emptied(text, path, chosen)
        with open(f"{room}/{path}", "w", encoding="utf-8") as it:
            it.write(text)
        for function in gone:
            write_hole(room, crate, function, types)
    return ""
