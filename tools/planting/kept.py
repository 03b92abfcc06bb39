"""What earlier runs on this machine found, in any checkout, by the sum of all that it rests on."""
import functools
import hashlib
import json
import os
import tempfile
import time

import kit

# So long what is kept stays if no run asks for it, in seconds.
MONTH = 30 * 24 * 3600
# The parts of this tool that decide what is planted and how it is checked. What is kept is what a check printed, so that the parts which
# read and judge that, and those that choose what is planted together, may change.
PLANTS = ("answers", "kit", "layout", "plant", "room")


# Whether this run takes nothing that earlier ones kept. What it finds is kept all the same.
is_anew = False


@functools.lru_cache(maxsize=None)
def folder():
    """The folder of what is kept, outside of each checkout: beside the kit, as `rt ci` does, or else in the user's cache."""
    cache = os.environ.get("XDG_CACHE_HOME") or os.path.expanduser("~/.cache")
    for place in (f"{os.path.dirname(kit.kit())}/mutants-kept", f"{cache}/mutants-kept"):
        try:
            os.makedirs(place, 0o700, exist_ok=True)
        except OSError:
            continue
        if os.access(place, os.W_OK) and os.stat(place).st_uid == os.geteuid():
            return place
    return None


def sum_of(*parts):
    return hashlib.sha256(json.dumps(parts).encode()).hexdigest()


@functools.lru_cache(maxsize=None)
def tool():
    """The sum of this tool's own text, as far as what a check prints rests on it."""
    total = hashlib.sha256()
    for name in PLANTS:
        with open(f"{os.path.dirname(os.path.abspath(__file__))}/{name}.py", "rb") as it:
            total.update(it.read())
    return total.hexdigest()


@functools.lru_cache(maxsize=None)
def own_sum(path, said):
    """The sum of a crate's files and of its line of crates.txt."""
    total = hashlib.sha256(said.encode())
    for part in ("src", "specs", "proofs"):
        for at, folders, files in os.walk(f"{path}/{part}"):
            folders.sort()
            for name in sorted(files):
                with open(f"{at}/{name}", "rb") as it:
                    total.update(repr((os.path.relpath(f"{at}/{name}", path), it.read())).encode())
    return total.hexdigest()


def crate_sum(crate):
    """The sum of all that a check of a crate rests on: the kit, this tool, the crate and the libraries below it."""
    all_of_them = [*sorted(crate.below(), key=lambda it: it.name), crate]
    return sum_of(kit.identity(), tool(), [own_sum(it.folder, repr((it.name, sorted(it.said.items()), it.of_kit))) for it in all_of_them])


def find(key):
    """What is kept under a key, or None."""
    if is_anew:
        return None
    try:
        with open(f"{folder()}/{key}", encoding="utf-8") as it:
            found = json.load(it)
        os.utime(f"{folder()}/{key}")
        return found["found"] if found["key"] == key else None
    except (OSError, ValueError, KeyError, TypeError):
        return None


def shrink():
    """Removes what no run has asked for in a month."""
    oldest = time.time() - MONTH
    for entry in os.scandir(folder()) if folder() else ():
        if entry.stat().st_mtime < oldest:
            os.remove(entry.path)


def keep(key, found):
    """Keeps what was found under a key. Where that can't be written, a later run finds it again."""
    if folder() is None:
        return
    try:
        with tempfile.NamedTemporaryFile("w", dir=folder(), prefix="new-", delete=False, encoding="utf-8") as it:
            json.dump({"key": key, "found": found}, it)
        os.replace(it.name, f"{folder()}/{key}")
    except OSError:
        pass
