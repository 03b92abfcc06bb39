"""Plants the mutants that only tests see, and runs the tests that they name."""
import os
import re
import shutil
import subprocess
import tempfile

from plant import plant

LEFT_OUT = shutil.ignore_patterns("out")


def copy_of(top):
    """A copy of the workspace without what checks left."""
    room = tempfile.mkdtemp(prefix="mutants-tested-")
    for name in ("crates.txt", "HANDLES"):
        shutil.copyfile(f"{top}/{name}", f"{room}/{name}")
    shutil.copytree(f"{top}/crates", f"{room}/crates", ignore=LEFT_OUT)
    return room


def write_planted(edit, room):
    """Plants an edit in the copy of its crate, and returns the texts that were there."""
    was = {}
    for path in {it[0] for it in edit.pairs}:
        with open(f"{room}/crates/{edit.crate}/{path}", encoding="utf-8") as it:
            was[path] = it.read()
    texts = dict(was)
    plant(edit, texts)
    write(texts, f"{room}/crates/{edit.crate}")
    return was


def write(texts, folder):
    for path, text in texts.items():
        with open(f"{folder}/{path}", "w", encoding="utf-8") as it:
            it.write(text)


def run_test(room, crate, test):
    """Whether a test of a crate fails in the copy, run unproved, or None where nothing was said of it; and all that was printed."""
    ran = subprocess.run(["rt", "try", "--test", "--seconds", "120", "--", test], cwd=f"{room}/crates/{crate}", stdin=subprocess.DEVNULL,
                         stdout=subprocess.PIPE, stderr=subprocess.STDOUT, encoding="utf-8", errors="replace")
    lines = re.findall(r"(?m)^test (\S+) (.*)$", ran.stdout)
    ends = {name: "FAILED" in said for name, said in lines}
    return ends.get(test), ran.stdout


def fault_as_it_stands(edit, stands):
    """Why nothing could be shown by the tests that an edit names, even before it is planted, or ""."""
    if edit.fault or not edit.tests:
        return edit.fault or "it has no line 'test: CRATE TEST'"
    for crate, test in edit.tests:
        is_red, output = stands[crate, test]
        if is_red is None:
            return f"{crate} has no test {test}: {output.strip()[-200:]}"
        if is_red:
            return f"the test {test} of {crate} fails as it stands"
    return ""


def fault_of(edit, room, stands):
    """Why an edit isn't seen by the tests that it names, or ""."""
    fault = fault_as_it_stands(edit, stands)
    if fault:
        return fault
    was = write_planted(edit, room)
    try:
        for crate, test in edit.tests:
            is_red, output = run_test(room, crate, test)
            if is_red is None:
                # (it doesn't compile, or hangs until its time is over: neither shows that the test sees it)
                return f"nothing is said of the test {test} of {crate}: {output.strip()[-200:]}"
            if not is_red:
                return f"the test {test} of {crate} passes: {output.strip()[-200:]}"
    finally:
        write(was, f"{room}/crates/{edit.crate}")
    return ""


def try_all(chosen, top="."):
    """Plants these mutants, by their crates, one after another, and returns how many are seen, and how many are not."""
    edits = [it for found in chosen.values() for it in found]
    room, failed = copy_of(os.path.abspath(top)), 0
    crates = sorted({crate for edit in edits for crate, _ in edit.tests})
    print(f"{len(edits)} mutants for the tests of {', '.join(crates) or 'no crate'}, each run unproved", flush=True)
    stands = {it: run_test(room, *it) for it in sorted({(crate, test) for edit in edits for crate, test in edit.tests})}
    for edit in edits:
        fault = fault_of(edit, room, stands)
        failed += bool(fault)
        print(f"{edit.label}: " + (f"FAILED: {fault}" if fault else "seen by " + ", ".join(test for _, test in edit.tests)), flush=True)
    shutil.rmtree(room)
    return len(edits) - failed, failed
