"""The kit, found through `rt` on the PATH: its checks, and the libraries below a crate."""
import functools
import hashlib
import importlib.machinery
import os
import shutil
import subprocess
import sys
import tempfile
import types
from dataclasses import dataclass


@functools.lru_cache(maxsize=None)
def kit():
    """The kit's folder."""
    found = shutil.which("rt") or sys.exit("there is no rt on the PATH: it is the kit's command")
    return os.path.dirname(os.path.dirname(os.path.realpath(found)))


@functools.lru_cache(maxsize=None)
def library():
    """The kit's own Python module, which knows the words of a check."""
    module = types.ModuleType("rtlib")
    module.__file__ = f"{kit()}/bin/rtlib.py"
    sys.modules["rtlib"] = module
    importlib.machinery.SourceFileLoader("rtlib", module.__file__).exec_module(module)
    return module


@functools.lru_cache(maxsize=None)
def identity():
    """A sum of the kit: its names, its command, its prover and the statements of its libraries."""
    total = hashlib.sha256()
    rlibs = sorted(f"rlibs/{it}/format" for it in os.listdir(f"{kit()}/rlibs"))
    for name in ["KIT-ID", "WHAT", "bin/rtlib.py", *rlibs]:
        if os.path.isfile(f"{kit()}/{name}"):
            with open(f"{kit()}/{name}", "rb") as it:
                total.update(it.read())
    prover = os.stat(f"{kit()}/bin/rattle")
    total.update(f"{prover.st_size} {prover.st_mtime_ns}".encode())
    return total.hexdigest()


def crate_of(name, top):
    return library().Crate(f"{top}/crates/{name}", top, {})


def is_library_there(crate, since):
    """Whether a crate's library is built of its text, or was built after that moment by whoever left no stamp, as `rt ci` does."""
    folder = f"{crate.folder}/out/rlib"
    if crate.is_built():
        return True
    is_whole = os.path.isfile(f"{crate.rlib}/format") and not os.path.isfile(f"{folder}/stamp")
    return bool(since) and is_whole and os.stat(folder).st_mtime >= since


def was_touched(crate, since):
    """Whether a file or folder that a check of a crate reads was changed since that moment, as far as the system's clock says."""
    folders = [at for part in ("src", "specs", "proofs") for at in os.walk(f"{crate.folder}/{part}")]
    paths = [path for at, _, names in folders for path in (at, *(f"{at}/{name}" for name in names))]
    return any(os.lstat(path).st_ctime >= since for path in paths)


def has_just_proved(crate, since):
    """Whether `rt ci` has proved a crate since that moment, of the text that stands and over the libraries that stand.

    It writes the library of a crate that it has proved, and leaves no stamp there. What it read is older than the moment at which it began.
    """
    if not since or os.stat(f"{crate.folder}/../../crates.txt").st_ctime >= since:
        return False
    return all(is_library_there(it, since) and not was_touched(it, since) for it in [*crate.below(), crate])


def build_libraries(names, top, since):
    """Builds the libraries below these crates that are not there, and returns the crates that lack one."""
    failed, lacking = set(), []
    for name in names:
        for below in crate_of(name, top).below():
            if below.name in failed or is_library_there(below, since):
                continue
            print(f"{below.name}: its library is built first", flush=True)
            if subprocess.run(["rt", "lib", "--jobs", "1"], cwd=below.folder, stdin=subprocess.DEVNULL).returncode:
                failed.add(below.name)
        lacking += [name] if failed & {it.name for it in crate_of(name, top).below()} else []
    return lacking


@dataclass
class Ran:
    """What a check came to: its status, what it printed, and the processor seconds that it took."""

    status: int
    output: str
    seconds: float


def check(crate, room, only, kept=None, limit=None):
    """Checks these functions of a copy of a crate past its holes, over the work that an earlier check kept there, if it is given.

    With a limit each search for a proof ends after half of its steps (`--margin`), and the check by a signal, status -SIGXCPU, once it has
    taken so many processor seconds.
    """
    words = ["sh", "-c", f'ulimit -c 0; ulimit -S -t {limit}; exec "$@"', "sh"] if limit else []
    words += [library().RATTLE, "check", *crate.words(["--jobs", "1", "--allow-holes", *(["--margin"] if limit else [])])]
    words += [word for it in only for word in ("--only", it)]
    words += ["--incremental", kept] if kept else []
    with tempfile.TemporaryFile("w+", encoding="utf-8", errors="replace") as log:
        started = subprocess.Popen([*library().guarded(), *words], cwd=room, stdin=subprocess.DEVNULL, stdout=log, stderr=subprocess.STDOUT)
        _, status, used = os.wait4(started.pid, 0)
        started.returncode = os.waitstatus_to_exitcode(status)
        log.seek(0)
        return Ran(started.returncode, log.read(), used.ru_utime + used.ru_stime)
