#!/usr/bin/env python3
"""Says which requests for memory were refused in tests that take all memory.

usage, at the top of the repository: tools/see_refusals.py CRATE [WORD]

`rt test` in crates/CRATE, one whose tests stand over `scarcity`, leaves the built tests there. Each test whose name contains WORD
is run, and has a line: how many calls it made that asked for memory, how many requests they made in all, how many of these were
refused at least once, and how often calls were refused. A call's requests are those of its last attempt, which was granted all of
them; each that no attempt of the call was refused has a line of its own. A call that goes on where it was refused has fewer in its
last attempt. It needs a C compiler: `cc`, or what CC names.
"""
import os
import subprocess
import sys
import tempfile

HERE = os.path.dirname(os.path.abspath(__file__))


def build_library(room):
    library = f"{room}/see_refusals.so"
    compiler = os.environ.get("CC", "cc")
    subprocess.run([compiler, "-O2", "-shared", "-fPIC", "-o", library, f"{HERE}/see_refusals.c"], check=True)
    return library


def names_of(tests, word):
    listed = subprocess.run([tests, "--list"], stdout=subprocess.PIPE, stderr=subprocess.DEVNULL, check=True).stdout.decode()
    names = [line.split(": ")[0] for line in listed.splitlines() if line.endswith(": test")]
    return [name for name in names if word in name]


def calls_of(tests, name, library, room):
    """The calls of a test, each with its attempts: for how many bytes each request was, and whether the last of them was refused."""
    seen = f"{room}/seen"
    open(seen, "wb").close()
    environment = {**os.environ, "LD_PRELOAD": library, "SEEN_REFUSALS": seen}
    subprocess.run([tests, name], env=environment, stdin=subprocess.DEVNULL, stdout=subprocess.DEVNULL, check=True)
    calls, attempts = [], []
    with open(seen) as it:
        for line in it:
            first_refused, *sizes = map(int, line.split())
            attempts.append((sizes, first_refused > 0))
            if not first_refused:
                calls, attempts = [*calls, attempts], []
    return calls


def met_in(last, sizes):
    """Which request of the last attempt was refused in one whose requests up to the refused one were for so many bytes. An attempt
    may have more requests than the last one, which kept what it was granted: none where the refused one is of these."""
    place = 0
    for size in sizes[:-1]:
        if place < len(last) and last[place] == size:
            place += 1
    return place if place < len(last) and last[place] == sizes[-1] else None


def missed_of(attempts):
    """The last attempt's requests that were never refused, and how many of others were."""
    last = attempts[-1][0]
    met, others = set(), set()
    for sizes, _refused in attempts[:-1]:
        place = met_in(last, sizes)
        if place is None:
            others.add(tuple(sizes))
        else:
            met.add(place)
    return [place + 1 for place in range(len(last)) if place not in met], len(others)


def show(tests, name, library, room):
    calls = [it for it in calls_of(tests, name, library, room) if len(it) > 1 or it[-1][0]]
    requests = refused = 0
    for number, attempts in enumerate(calls, 1):
        last = len(attempts[-1][0])
        missed, others = missed_of(attempts)
        requests, refused = requests + last + others, refused + last + others - len(missed)
        if missed:
            print(f"{name}: call {number} of those that ask: of {last} requests never refused: {', '.join(map(str, missed))}")
    often = sum(len(it) - 1 for it in calls)
    print(f"{name}: {len(calls)} calls that ask, {requests} requests, {refused} refused at least once; {often} refusals", flush=True)


def main(words):
    if len(words) not in (1, 2):
        print(__doc__.strip())
        return 2
    tests = os.path.abspath(f"crates/{words[0]}/out/{words[0]}_tests")
    with tempfile.TemporaryDirectory(prefix="see-refusals-") as room:
        library = build_library(room)
        for name in names_of(tests, words[1] if len(words) == 2 else ""):
            show(tests, name, library, room)
    return 0


if __name__ == "__main__":
    sys.exit(main(sys.argv[1:]))
