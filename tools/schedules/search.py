"""Runs a program under the scheduler again and again, each time with another seed."""
import bisect
import collections
import functools
import hashlib
import os
import re
import resource
import subprocess
import tempfile

import program

TOP = os.path.dirname(os.path.dirname(program.HERE))
OUT = f"{program.HERE}/out"
SECONDS = 60
# A run takes much less than a second of processor time, and ends by itself where it has made too many points.
HANGS = 300
# The words of a run of a program, or of a part of it: for a seed, sizes that vary, so that few threads and many have their turn. Histories
# are of two and of three threads: where four or more overlap as they do here, now and then there are too many orders for the judge to
# decide. In one run of three memory is scarce: so often a thread's request for some is refused.
SCARCE = "scarce"
REFUSED_ONCE_IN = 5
WORDS = {
    ("channel_histories", ""): lambda seed: [20, 2 + seed % 2, seed * 1000, *[SCARCE] * (seed % 3 == 0)],
    ("channel_histories", "crowds"): lambda seed: ["crowds", 1 + seed % 4, 2 + seed // 4 % 5],
}
COUNTS = ("rounds", "points", "switches", "timed out", "for no reason")
Asked = collections.namedtuple("Asked", "seed seconds runs words threads part", defaults=[None, ""])
Run = collections.namedtuple("Run", "seed words status said counts")


def sum_of_sources(top, name):
    """A number for all that a program's object file is made from."""
    told = hashlib.sha256(program.kit().encode())
    roots = [program.root_of(top, name), *[root for root, _ in program.below(top, name).values() if root.startswith(top)]]
    files = [f"{program.HERE}/program.py"]
    for root in roots:
        for at, inner, names in os.walk(os.path.dirname(root)):
            inner.sort()
            files += [f"{at}/{it}" for it in sorted(names) if it.endswith(".rt")]
    for file in files:
        with open(file, "rb") as it:
            told.update(os.path.relpath(file, top if file.startswith(top) else program.HERE).encode() + it.read())
    return told.hexdigest()


def built(name, top=TOP, out=OUT):
    """The program under the scheduler; compiled anew only where a source has changed."""
    os.makedirs(out, exist_ok=True)
    path, stamp, told = f"{out}/{name}", f"{out}/{name}.stamp", sum_of_sources(top, name)
    if not os.path.exists(stamp) or told != open(stamp, encoding="utf-8").read():
        points = program.compile_code(top, name, f"{path}.o")
        with open(stamp, "w", encoding="utf-8") as it:
            it.write(told)
        print(f"{name}: compiled, with a point before each of {points} atomic instructions", flush=True)
    program.link(f"{path}.o", path)
    return path


def run_once(path, seed, words, threads):
    with tempfile.NamedTemporaryFile(prefix="schedules-") as counts:
        asked = {"SCHEDULES_SEED": str(seed), "SCHEDULES_COUNTS": counts.name}
        if SCARCE in words:
            asked["SCHEDULES_REFUSED_ONCE_IN"] = str(REFUSED_ONCE_IN)
        if threads is not None:
            asked["SCHEDULES_THREADS"] = str(threads)
        how = {"env": {**os.environ, **asked}, "stdin": subprocess.DEVNULL}
        try:
            ran = subprocess.run([path, *words], stdout=subprocess.PIPE, stderr=subprocess.STDOUT, timeout=HANGS, **how)
        except subprocess.TimeoutExpired as late:
            return Run(seed, words, "none: it hangs", (late.stdout or b"").decode(errors="replace"), [0] * len(COUNTS))
        told = [int(it) for it in counts.read().split()]
    said = ran.stdout.decode(errors="replace")
    return Run(seed, words, ran.returncode, said, told or [0] * len(COUNTS))


def with_names(path, said):
    """What was said, with the names of the program's own functions in the place of the addresses of calls."""
    names = program.names_of(path)
    begins = [at for at, _ in names]

    def name(found):
        at = bisect.bisect_right(begins, int(found[1], 16)) - 1
        return "" if at < 0 or names[at][1].startswith(("_", "schedules_")) else f"\n    in {names[at][1]}"

    return re.sub(r" @(0x[0-9a-f]+)", name, said)


def seconds_used():
    used = resource.getrusage(resource.RUSAGE_CHILDREN)
    return used.ru_utime + used.ru_stime


def words_of(path, part, seed):
    """The words of a run with this seed; for a crate's tests, the name of one of them that begins with the part."""
    words = WORDS.get((os.path.basename(path), part))
    if words:
        return [str(it) for it in words(seed)]
    tests = tests_of(path, part)
    return [tests[seed % len(tests)]]


@functools.lru_cache(maxsize=None)
def tests_of(path, part):
    listed = subprocess.run([path, "--list"], stdout=subprocess.PIPE, stderr=subprocess.DEVNULL, text=True, check=False).stdout
    names = [line.partition(": ")[0] for line in listed.splitlines() if line.endswith(": test")]
    return [name for name in names if name.startswith(part)] or [""]


def search(path, asked):
    """Makes runs: the first that is wrong, if one is, and what was tried."""
    begin, totals, runs, wrong = seconds_used(), [0] * len(COUNTS), 0, None
    while not wrong and (runs < asked.runs if asked.runs else seconds_used() - begin < asked.seconds):
        seed = asked.seed + runs
        words = asked.words or words_of(path, asked.part, seed)
        ran = run_once(path, seed, words, asked.threads)
        runs += 1
        totals = [total + it for total, it in zip(totals, ran.counts)]
        wrong = ran if ran.status else None
    return wrong, tried(runs, totals, seconds_used() - begin)


def tried(runs, totals, seconds):
    rounds, points, switches, timed_out, for_no_reason = totals
    return (
        f"{runs} runs, {rounds} times threads together: {points} points, {switches} switches, {timed_out} waits timed out, "
        f"{for_no_reason} ended for no reason; {seconds:.1f} s of processor time"
    )
