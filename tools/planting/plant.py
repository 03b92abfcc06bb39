"""Changes the texts of a crate's files as an edit says."""
from layout import innermost


def plant(edit, texts, touched=None):
    """Changes the texts of a crate's files, by their paths, as an edit says, and returns why it can't, or "". Adds what it touches."""
    for path, old, new in edit.pairs:
        if path not in texts:
            return f"there is no file {path}"
        text = texts[path]
        if text.count(old) != 1:
            return f"this stands {text.count(old)} times in {path}, and not once: {old.strip()[:90]}"
        function = innermost(text, path, text.count("\n", 0, text.index(old)))
        if touched is not None and function and function.key not in [it.key for it in touched]:
            touched.append(function)
        texts[path] = text.replace(old, new)
    return ""
