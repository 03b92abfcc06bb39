"""Mutants that the tool has to fail, so that it can be seen to judge: they are written into a copy of a crate, over which the tool runs."""
import os
import re
import shutil
import subprocess
import sys
import tempfile

import judge
import said
from edits import Edit

TOP = os.path.dirname(os.path.dirname(os.path.dirname(os.path.abspath(__file__))))
CRATE = "waybill"
# What is wrong in the copy before anything is planted.
WRONG = ("src/sink.rt", "self.places[sender] = number + 1;", "self.places[sender] = number;")
IN_TURN = "file: src/sink.rt\nold:         number == awaited\nnew:         number == awaited"
LEARN = "file: src/office.rt\nold:         self.table.shared.load::<Learns>(&mut pass.seat, 0);\nnew:         if false { self.table.shared.load::<Learns>(&mut pass.seat, 0); }"
# The mutants, each with its text and with words of the fault that has to be found.
CASES = {
    "only_a_comment": (f"refuses: sink::is_in_turn yes\n{IN_TURN} // (as it was)\n", "sink::is_in_turn is still proved"),
    "another_clause": (f"refuses: tokens::Office::learn received\n{LEARN}\n", "none of the named clauses of tokens::Office::learn is open"),
    "function_is_refused_as_it_stands": (
        "refuses: sink::Sink::unpack invariant_of-self\nfile: src/sink.rt\nold: self.places[sender] = number;\nnew: self.places[sender] = number - 1;\n",
        "sink::Sink::unpack is refused as it stands",
    ),
    "no_line_says_where": (
        "file: src/office.rt\nold:         table.join_seat::<Receives>(&mut pass.seat, parcel.bill);\n"
        "new:         let bill = parcel.bill; if false { table.join_seat::<Receives>(&mut pass.seat, bill); }\n",
        "no line 'refuses:' names tokens::Office::unpack",
    ),
    "no_code": (f"refuses: sink::is_in_turn yes\n{IN_TURN} no code\n", "the compiler's error is"),
    "no_such_text": ("refuses: sink::is_in_turn yes\nfile: src/sink.rt\nold: number == no_such_name\nnew: false\n", "this stands 0 times in src/sink.rt"),
    "no_pairs": ("refuses: sink::is_in_turn yes\nfile: src/sink.rt\nold: number == awaited\n", "it has no pair of 'old:' and 'new:'"),
    "no_text": (b"\xff\xfe\n", "it can't be read"),
}

# What a check may print of a function whose edit names clause `room`, what one without the written answers may print, and words of the
# fault that has to be found, or "" where the function is refused as it must be.
REFUSED = "\nfn a::f: not proved; it stands on `Rattle.a.proofs.f.Answers.returns-clause-room`, which antt refuses"
ANSWER = "./proofs/f/Answers.antt:3:5: error: `returns-clause-room`: "
NO_PROOF = f"{ANSWER}as printed, the two types first differ where one has `c.args.x`\n  (expected), and the other has `c.args.y` (found){REFUSED}"
GONE = f"{ANSWER}record `Rattle.a.proofs.f.Lts.After-len`\n  has no field `push`{REFUSED}"
RENUMBERED = f"{ANSWER}the two types differ only where one has `c.len-2.result` (expected) and the other has `c.len.result` (found){REFUSED}"
NOT_READ = "./proofs/f/Answers.antt:2:5: error: `made`: record `R` has no field `push`\n./proofs/f/Answers.antt:9:5: error: 1 declaration that depends on `made`, which was rejected, was not checked: returns-clause-room" + REFUSED
LEFT_OPEN = "note: src/lib.rt:1:1: it is not proved that what the function ensures holds when it returns (`returns-clause-room`)\nfn a::f: no proof"
PROVED = "fn a::f: depends on a hole in `Rattle.a.proofs.g.Proof.g_spec`"
READINGS = {
    "a clause is left open": (LEFT_OPEN, None, ""),
    "another clause is left open": (LEFT_OPEN.replace("room", "kept"), None, "none of the named clauses"),
    "a proof": (PROVED, None, "is still proved"),
    "an answer proves it no more": (NO_PROOF, None, ""),
    "an answer proves it no more, nor does the prover": (NO_PROOF, LEFT_OPEN, ""),
    "an answer proves it no more, but the prover does": (NO_PROOF, PROVED, "is still proved"),
    "an answer proves it no more, but the prover does, and not another clause": (NO_PROOF, LEFT_OPEN.replace("room", "kept"), "none of the named clauses"),
    "an answer names what is gone": (GONE, None, "name what is gone"),
    "an answer names what has another number": (RENUMBERED, None, "name what is gone"),
    "an answer stands on what is gone": (NOT_READ, None, "name what is gone"),
    "an answer names what is gone, and the prover finds no proof": (GONE, LEFT_OPEN, ""),
    "an answer names what is gone, and the prover finds a proof": (GONE, PROVED, "is still proved"),
}


def misread(text, second, fault):
    """What the judge finds in place of this fault, or of none, or ""."""
    edit, first = Edit("", "a", "e", refuses=[["f", "room"]]), judge.opens_of(said.verdicts(said.told(text))["f"], "room")
    opens = judge.with_second(first, judge.opens_of(said.verdicts(second)["f"], "room"), ["room"]) if second else first
    found = "; ".join(judge.faults(edit, judge.Found(functions={"f": opens})))
    return "" if fault in found and bool(found) == bool(fault) else found or "no fault"


def write(file, text):
    with open(file, "wb") as it:
        it.write(text if isinstance(text, bytes) else text.encode())


def make(room):
    """Makes a workspace of the crate alone, with a mistake in it and these mutants, and with the tool."""
    shutil.copytree(f"{TOP}/tools/planting", f"{room}/tools/planting", ignore=shutil.ignore_patterns("__pycache__"))
    shutil.copy(f"{TOP}/tools/mutants", f"{room}/tools/mutants")
    shutil.copytree(f"{TOP}/crates/{CRATE}", f"{room}/crates/{CRATE}", ignore=shutil.ignore_patterns("out", "must-fail", "mutants"))
    with open(f"{TOP}/crates.txt", encoding="utf-8") as it:
        write(f"{room}/crates.txt", re.search(rf"(?m)^{CRATE}\b.*\n", it.read())[0])
    shutil.copy(f"{TOP}/HANDLES", f"{room}/HANDLES")
    path, old, new = WRONG
    with open(f"{room}/crates/{CRATE}/{path}", encoding="utf-8") as it:
        text = it.read()
    assert text.count(old) == 1, f"{old} stands {text.count(old)} times in {path}, so the self-test has nothing to begin with"
    write(f"{room}/crates/{CRATE}/{path}", text.replace(old, new))
    os.mkdir(f"{room}/crates/{CRATE}/mutants")
    for name, (text, _) in CASES.items():
        write(f"{room}/crates/{CRATE}/mutants/{name}.edit", text)
    # A library as `rt ci` leaves it, of another text: the control round is needed all the same.
    os.makedirs(f"{room}/crates/{CRATE}/out/rlib/{CRATE}.rlib")
    write(f"{room}/crates/{CRATE}/out/rlib/{CRATE}.rlib/format", "")


def run(flags):
    """Runs the tool with these flags over mutants that it has to fail. Returns how many it failed for the right reason, and how many not."""
    with tempfile.TemporaryDirectory(prefix="mutants-selftest-") as room:
        make(room)
        words = [sys.executable, f"{room}/tools/mutants", CRATE, "--jobs", "1", "--since", "1", *flags]
        ran = subprocess.run(words, stdin=subprocess.DEVNULL, stdout=subprocess.PIPE, stderr=subprocess.STDOUT, encoding="utf-8", errors="replace")
    lines = ran.stdout.rstrip().split("\n")
    wrong = {name: misread(*case) for name, case in READINGS.items()}
    print("self-test, what a check prints: " + ("; ".join(f"MISREAD {name}: {found}" for name, found in wrong.items() if found) or "is read well"), flush=True)
    missed = int(any(wrong.values()))
    for name, (_, fault) in CASES.items():
        told = next((line for line in lines if line.startswith(f"{CRATE}/{name}: ")), "no line")
        is_seen = told.startswith(f"{CRATE}/{name}: FAILED: ") and fault in told
        missed += not is_seen
        print(f"self-test, {name}: " + ("fails, as it must" if is_seen else f"NOT SEEN: {told}"), flush=True)
    ends_well = ran.returncode == 1 and lines[-1] == f"0 passed, {len(CASES)} failed"
    print("self-test, the whole run: " + ("fails, as it must" if ends_well else f"NOT SEEN: status {ran.returncode}, {lines[-1]}"), flush=True)
    missed += not ends_well
    return len(CASES) + 2 - missed, missed
