"""Deletes answers from the files in which a person wrote them, for a check of what is left."""
import re

IMPORTS = re.compile(r"(?m)^use ([^\n{]*)\.\{([^}]*)\}\n")
STARTS = re.compile(r"(?:pub )?([^\s:(){},]+)(?=[\s:])")


def without_imports(text, names):
    """A file's text with these names left out of what it imports."""
    def left(at):
        kept = [it.strip() for it in at[2].split(",") if it.strip() not in names]
        return f"use {at[1]}.{{{', '.join(kept)}}}\n" if kept else ""

    return IMPORTS.sub(left, text)


def without_answers(text, names):
    """A file's text without the definitions of these names."""
    left, is_gone = [], False
    for line in text.split("\n"):
        starts = STARTS.match(line)
        if starts and starts[1] != "unfolding":
            is_gone = starts[1] in names
        left += [] if is_gone else [line]
    return "\n".join(left)


def delete(file, names):
    """Deletes these answers and imports from a file."""
    with open(file, encoding="utf-8") as it:
        text = it.read()
    with open(file, "w", encoding="utf-8") as it:
        it.write(without_answers(without_imports(text, names), names))
