"""Tries the mutants of one crate: a control round, in which nothing is planted, and then round after round of mutants."""
import os
import shutil
import signal
import tempfile

import judge
import kept
import kit
import room
import rounds
import said
from answers import delete
from contract import only_clause
from layout import homes, symbol_of
from work import Work

# So many processor seconds a second check, without answers that don't fit, takes at most, so many more for each edit, and so many more where
# it has to read all itself, since no other check was needed.
SECOND, EACH, ALONE = 40, 20, 400
# The statuses of a check that says something of each function: all proved, some not, or antt could not tell.
JUDGED = (0, 1, 3)
# The status of a check that was ended by its limit.
ENDED = -signal.SIGXCPU


def deletions(misfits):
    """The answers that don't fit, by their files. A loop has to have its invariant, and a proof by hand is all that there is, so these stay."""
    deleted = {}
    for answers in misfits.values():
        for _, (answer, file) in answers:
            if file.endswith("/Answers.antt"):
                deleted.setdefault(file, set()).add(answer)
    return deleted


class Trial:
    """The mutants of one crate, what is known of them, and what is yet to be tried."""

    def __init__(self, name, top, edits, since=0):
        self.crate, self.edits, self.seconds = kit.crate_of(name, top), edits, 0.0
        self.folder = self.crate.folder
        self.texts, self.types = room.read_sources(self.folder), homes(self.folder)
        self.sum = kept.crate_sum(self.crate)
        self.at = tempfile.mkdtemp(prefix=f"mutants-{name}-")
        self.work = Work(f"{self.at}/work")
        self.deleted, self.second_outputs = {}, {}
        self.outputs = {it.label: kept.find(self.key(it)) for it in self.whole()}
        just_proved = "proved with its crate" if kit.has_just_proved(self.crate, since) else None
        self.controls = {it.key: just_proved or kept.find(self.control_key(it)) for it in self.functions()}

    def whole(self):
        """The edits that can be planted."""
        return [it for it in self.edits if not it.fault]

    def functions(self):
        """The functions that the edits change, each once."""
        return list({it.key: it for edit in self.whole() for it in edit.functions}.values())

    def key(self, edit):
        """The name under which it is kept what a check of an edit printed, without the answers that are deleted by then."""
        deleted = [[file, sorted(answers)] for file, answers in sorted(self.deleted.get(edit.label, {}).items())]
        limits = [SECOND, EACH] if deleted and self.is_known(edit) else []
        return kept.sum_of(self.sum, "edit", edit.pairs, deleted + limits)

    def control_key(self, function):
        """The name under which it is kept that a function was accepted as it stands."""
        return kept.sum_of(self.sum, "control", function.key)

    def todo(self):
        """The edits of which nothing is known."""
        return [it for it in self.whole() if self.outputs[it.label] is None]

    def needs_library(self):
        """Whether something is to be tried."""
        return bool(self.todo()) or None in self.controls.values()

    def check(self, where, only, work, limit=None):
        """Checks these functions of a copy, or without one no more than whether it compiles. A check that was killed is made once more."""
        names = [symbol_of(it, self.types) for it in only] or [""]
        ran = kit.check(self.crate, where, names, work, limit)
        if ran.status < 0 and ran.status != ENDED:
            ran = kit.check(self.crate, where, names, work, limit)
        self.seconds += ran.seconds
        print(f"{self.crate.name}, {os.path.basename(where)}: {len(only)} functions, {ran.seconds:.0f} processor seconds", flush=True)
        return ran

    def copy(self, name, edits, functions):
        """Makes a copy of the crate for a check, and returns its folder, or why it can't be made."""
        where = f"{self.at}/{name}"
        return where, room.make(where, self.folder, self.crate.name, edits, {it.key for it in functions})

    def control(self):
        """Checks the functions that mutants change as they stand, among the holes of all others, and keeps the work for the rounds."""
        functions = [it for it in self.functions() if self.controls[it.key] is None]
        if not functions:
            return
        where, _ = self.copy("control", [], functions)
        lent = self.work.lend(f"{where}.work")
        ran = self.check(where, functions, lent)
        self.work.take(lent)
        verdicts = said.verdicts(ran.output)
        for function in functions:
            line = next((it.line for name, it in verdicts.items() if name == symbol_of(function, self.types)), "no line: " + ran.output[-300:])
            self.controls[function.key] = line
            if line.startswith(said.ACCEPTED):
                kept.keep(self.control_key(function), line)

    def note(self, edit, ran):
        """Keeps what a check printed, unless it was killed, and nothing is known."""
        into = self.second_outputs if edit.label in self.deleted else self.outputs
        into[edit.label] = {"status": ran.status, "output": said.told(ran.output)}
        if ran.status in (*JUDGED, ENDED):
            kept.keep(self.key(edit), into[edit.label])

    def round(self, number, edits):
        """Plants some edits together and checks their functions. Where these don't compile, each is tried alone."""
        functions = [it for edit in edits for it in edit.functions]
        where, fault = self.copy(f"round-{number}", edits, functions)
        lent = self.work.lend(f"{where}.work")
        ran = kit.Ran(2, fault, 0.0) if fault else self.check(where, [] if edits[0].error else functions, lent)
        self.work.take(lent)
        shutil.rmtree(where, ignore_errors=True)
        if said.compile_error(ran.output) and len(edits) > 1:
            for at, edit in enumerate(edits):
                self.round(f"{number}-{at}", [edit])
        else:
            for edit in edits:
                self.note(edit, ran)

    def rounds(self):
        """The edits of which nothing is known, in rounds."""
        return rounds.rounds_of(self.todo(), self.texts)

    def opens(self, edit, output):
        """What stands open of each function that an edit changes, by what a check printed, and the first function of which it says nothing, or ""."""
        verdicts, opens, lacking = said.verdicts(output), {}, ""
        for function in edit.functions:
            name = symbol_of(function, self.types)
            if name in verdicts:
                opens[name] = judge.opens_of(verdicts[name], only_clause(self.texts[function.path], function))
            else:
                lacking = lacking or name
        return opens, lacking

    def found(self, edit):
        """What came of an edit, by what its checks printed."""
        status, output = self.outputs[edit.label]["status"], self.outputs[edit.label]["output"]
        error = said.compile_error(output)
        if error or edit.error or status not in JUDGED:
            return judge.Found(error=error) if error or edit.error else judge.Found(fault=f"its check ended with status {status}: {output[-300:]}")
        opens, lacking = self.opens(edit, output)
        found = judge.Found(functions=opens, fault=f"the check has no line of {lacking}: {output[-300:]}" if lacking else "")
        second = self.second_outputs.get(edit.label)
        if second:
            found.tried_without = sorted(answer for it in self.deleted[edit.label].values() for answer in it)
            again, _ = self.opens(edit, second["output"])
            if second["status"] in JUDGED:
                tried = {name: {clause for clause, _ in it} for name, it in self.misfits(edit).items()}
                found.functions = {name: judge.with_second(it, again.get(name, it), tried.get(name, ())) for name, it in opens.items()}
                found.second = "; ".join(f"{name}: " + judge.in_words(it) for name, it in again.items())
            else:
                found.second = "no proof was found in time" if second["status"] == ENDED else f"the check ended with status {second['status']}"
        return found

    def misfits(self, edit):
        """The functions that are refused, as far as the edit's lines go, only since written answers don't fit, by name, with the clauses and these answers."""
        output, found = self.outputs[edit.label]["output"], {}
        verdicts, (opens, _) = said.verdicts(output), self.opens(edit, output)
        for function in edit.functions:
            name, only = symbol_of(function, self.types), only_clause(self.texts[function.path], function)
            resting = judge.resting_on_answers(edit, name, opens.get(name))
            if resting:
                found[name] = [(said.clause(answer, only), (answer, file)) for answer, file in verdicts[name].misfits.items()]
                found[name] = [it for it in found[name] if it[0] in resting]
        return found

    def is_known(self, edit):
        """Whether the first check has refused an edit where its lines say, so that a second one may be ended before it finds something."""
        opens, _ = self.opens(edit, self.outputs[edit.label]["output"])
        return all(judge.is_refused(edit, name, it) for name, it in opens.items())

    def retries(self):
        """The edits that are to be checked once more without the answers that don't fit, in rounds."""
        again = {it.label: deletions(self.misfits(it)) for it in self.whole() if not said.compile_error(self.outputs[it.label]["output"])}
        self.deleted = {label: it for label, it in again.items() if it}
        edits = [it for it in self.whole() if it.label in self.deleted]
        self.second_outputs = {it.label: kept.find(self.key(it)) for it in edits}
        left = [it for it in edits if not self.second_outputs[it.label]]
        known = [it for it in left if self.is_known(it)]
        return rounds.rounds_of(known, self.texts) + rounds.rounds_of([it for it in left if it not in known], self.texts)

    def retry(self, number, edits):
        """Checks edits together without the answers that don't fit: the functions that have such answers, and no others."""
        functions = [it for edit in edits for it in edit.functions if symbol_of(it, self.types) in self.misfits(edit)]
        where, _ = self.copy(f"without-{number}", edits, functions)
        for edit in edits:
            for file, answers in self.deleted[edit.label].items():
                delete(f"{where}/{file}", answers)
        limit = SECOND + EACH * len(edits) + (0 if self.work.is_there() else ALONE)
        lent = self.work.lend(f"{where}.work")
        ran = self.check(where, functions, lent, limit if all(map(self.is_known, edits)) else None)
        self.work.take(lent)
        for edit in edits:
            self.note(edit, ran)

    def refused_controls(self, edit):
        """The functions of an edit that the check refuses as they stand, so that nothing is shown."""
        return [f"{symbol_of(it, self.types)} is refused as it stands: {self.controls[it.key][:200]}" for it in edit.functions
                if not (self.controls[it.key] or "").startswith(said.ACCEPTED)]

    def close(self):
        shutil.rmtree(self.at, ignore_errors=True)
