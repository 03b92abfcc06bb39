#!/usr/bin/env python3
"""Makes out/mutants.md, the table of the mutants that the prover refuses, of the edits themselves, and says where one is not as it should be.

usage, at the top of the repository: tools/list_edits.py [--check]

An edit, crates/*/mutants/*.edit or one of those in must-fail/ that `rt ci` tries, begins with a line `why: SENTENCE`: what goes wrong
for whom, and which clause stands against it. It may stand for one of BODIES below, by a line `body: WORDS`. Lines `refuses:` or
`no program:` say where it is refused, as tools/mutants found it. With --check nothing is written. The status is 1, and a line says why,
where an edit has no such sentence or none of these lines, where it cites something by a number, where nothing stands for one of BODIES,
or where a test that is named here isn't there, or one that tools/planting/by_hand.txt or a mutant in mutants/tested/ names.
"""
import glob
import os
import re
import sys

sys.dont_write_bytecode = True
sys.path.insert(0, os.path.join(os.path.dirname(os.path.abspath(__file__)), "planting"))

import edits as edit_files  # noqa: E402

PAGE = "out/mutants.md"
# The wrong bodies that were planted by hand. Each line of the first part names its tests, and their crates after an "of".
BY_HAND, LEFT = "tools/planting/by_hand.txt", "[left to tests"
# The wrong bodies that a channel has to be safe from, in the order of the page, each with the tests that stand for it besides edits.
BODIES = {
    "a send tells a receive before its message is in": [],
    "a receive listens and pends without a second try": [],
    "a send tells by the default notice for one": [],
    "a woken receive that is given up drops its notice": [],
    "a poll that is refused memory drops its notice": [],
    "a poll that is refused memory drops its message": [],
    "a closing tells those who wait first and marks the channel as closed afterwards": [],
    "a push answers full while the only message is taken and still being read": [],
    "a displacing push stores the tail and reopens a closed queue": [],
    "the drop of the last sender lowers the count and doesn't close": [],
    "a call wakes everybody": [],
    "a call is run whole at its first step": [],
    "settling answers with woken ones left": [],
    "settling gives up those who are woken": [],
    "a call that is to wait for nobody waits for whoever holds the slot": [
        "concurrent_queue_tests/a_push_that_stands_still_holds_no_question_up",
    ],
    "a pop answers closed while the message of a displacing send is on its way": [],
    "a push takes two places for one message": [],
    "a receive gives a message and leaves it in the queue": [],
    "a recorded call invents a receipt and stores no entry": [],
    "a recorded channel hands out another reply than it stored": [
        "channel_world_tests/every_receipt_stands_in_the_record",
    ],
    "each growth is answered as refused: of a push, a listener, an opening, a settling, a record": [
        "concurrent_queue_tests/a_walk_gives_the_messages_in_order",
        "event_listener_tests/reserved_room_takes_as_many_insertions",
        "channel_world_tests/channels_are_opened_from_one_source",
        "channel_world_tests/one_message_settles_two_of_three_receives",
        "refused_growths_tests/a_send_without_room_comes_back",
    ],
    "each begin of a call is refused": ["channel_world_tests/a_message_between_two_tries_is_taken"],
    "a receive of several tells one send for all that it took": [],
    "a receive of several stops before its limit beside a message": [],
    "a receive of several drops what it took": [],
    "a receive of several always answers that memory was refused": ["channel_world_tests/as_many_sends_are_told_as_messages_were_taken"],
    "a call that lost an exchange goes on for ever": [],
    "a stream is always pending": [],
    "handles go round the steps, and lose, double or reorder messages or lose a wake": [
        "async_channel_tests/a_told_receive_that_leaves_passes_its_notice_on",
        "async_channel_tests/each_taking_wakes_the_next_send",
        "async_channel_thread_tests/at_rest",
        "async_channel_thread_tests/one_sender_one_receiver",
        "async_channel_thread_tests/many_senders_many_receivers",
    ],
    # What threads run for the common calls, whatever other threads do.
    "a pending send loses its message": ["async_channel_tests/each_taking_wakes_the_next_send"],
    "a poll loses the key of its listener": [],
    "a registering says of a listener that was told that it waits": [],
    "many free places tell one send": [],
    "a walked call does something else first": [],
    "a clone counts nothing": [],
    "a clone that was counted is refused": [],
    "an upgrade that counted answers that there is none": [],
    "a drop that lowers nothing": [],
    "a closing always answers false": [],
    "a displacing send drops what it displaced": [],
    "a poll of a receive tries nothing": ["async_channel_tests/one_place_takes_one_message"],
    "a receive in straight code tells another list than that of sends": [],
    "a receive in straight code tells no send": ["async_channel_tests/each_taking_wakes_the_next_send"],
    "a send in straight code tells no receive": ["async_channel_tests/a_told_receive_that_leaves_passes_its_notice_on"],
    "a send in straight code tells the streams twice": [],
    "a receive of several hands them out reversed": [],
    "messages that are received into a list's room stand reversed": [
        "async_channel_tests/messages_fill_the_room_that_is_there",
    ],
    "a receive into a list's room asks for memory": [
        "async_channel_tests/messages_fill_the_room_that_is_there",
    ],
    "a walk over messages swallows its refusal": ["async_channel_tests/a_walk_gives_its_refusals"],
    "a walk over messages goes on after its end": ["async_channel_tests/a_walk_ends_where_the_channel_is_closed_and_empty"],
    "a receive drops what it took": [],
    "a blocking call makes its second try before it listens": [],
    "a blocking call leaves its listener listed": [],
    "a blocking call asks for its parker too early": [],
    "`recv_blocking` says closed of an open channel": [],
    "`is_terminated` asks empty before closed": [],
    "a clone is of a fresh channel with the same number": [],
    "a listener stands in a list of its own": [],
    # Asked for of shared queues: what other threads may see between two operations.
    "a push into a ring wins its place by a store": [],
    "a pop of one slot loads, compares and stores": [],
    "a pop of a ring loads the tail first": [],
    "a pop of blocks loads the tail first": [],
    "the two writes of a block's turn are exchanged": [],
    "one call of a shared queue is two": [],
    # Asked for of listeners.
    "a listener that is told stays linked among those that wait": [],
    "a run of listeners is told whose last one keeps its link to those that wait": [],
    "a removal of the last told one leaves it as the end of its chain": [],
    "a recorded event hands out an empty record": [],
    # Asked for of worlds and their records.
    "a record is never finished": [],
    "all seats of a record have one number": [],
    "a recorded channel hands out another place than it stored": [],
    "a recorded channel hands out other woken names than it stored": [],
    "a settling asks for more room than its polls may need": [],
    # Asked for of waybills.
    "an unpack drops the token": [],
    "a pass learns what nobody knows": [],
    "a pass forgets what it packs": [],
    "a check of numbers passes a message out of turn": [],
    "a parcel is unpacked at another office": [],
    # Asked for of the channel with a bound that threads share.
    "a send notifies nobody": [],
    "a notice is swallowed": [],
    "a listener that leaves with its notice": [],
    "a poll that ends leaves its listener listed": [],
    "a registration that is forgotten": [],
    "a closing notifies first": [],
    "a drop of the last handle that doesn't close": [],
    "a clone that raises nothing": [],
    "a count that is lowered by a load and a lowering": [],
    "a call that is let go": [],
    "a call that answers another thing": [],
    "a section that is not left": [],
    "a list given back into another lock": [],
    "locks of another channel": [],
}
# What a sentence doesn't cite by its number: a rule, a paper, a section, an issue.
CITED = re.compile(r"\b[A-Z]\d+\b|\b0[1-4]\b|\b(issue|paper|document|section|request)s? \d")
HEAD = """# Mutants that the prover refuses

Made by `tools/list_edits.py` of the edits `crates/*/mutants/*.edit` and `crates/*/must-fail/*.edit`, not by hand. Each edit changes a body
so that it does something wrong and still compiles. There are {count}. `tools/mutants` looks that each is refused in its own function, at
the clause that the last column names; in the gate `rt ci` tries those in `must-fail/`.

## Against what a channel has to be safe from

| Wrong body | Refused by the prover | Seen by a test |
|---|---|---|
{bodies}

## Crate by crate

What goes wrong for whom, what stands against it, and which clauses of which functions the prover leaves open.
"""


def has_test(name):
    """Returns whether the crate has this test, or this row of a test."""
    crate, _, test = name.partition("/")
    for source in glob.glob(f"crates/{crate}/src/**/*.rt", recursive=True):
        with open(source, encoding="utf-8") as it:
            if re.search(rf"\b(fn|row) {test.split('::')[-1]}\b", it.read()):
                return True
    return False


def by_hand():
    """The parts of BY_HAND: a title, and what goes wrong with what sees it."""
    with open(BY_HAND, encoding="utf-8") as it:
        parts = it.read().split("\n[")[1:]
    return [("[" + part.split("\n")[0], [line.partition(" | ")[::2] for line in part.split("\n")[1:] if line]) for part in parts]


def left_faults():
    """The lines of LEFT that name no test, or one that isn't there in a crate that the line names."""
    with open("crates.txt", encoding="utf-8") as it:
        crates = set(re.findall(r"(?m)^(\w+)", it.read()))
    for wrong, seen in (line for title, lines in by_hand() if title.startswith(LEFT) for line in lines):
        names = re.findall(r"`([\w:]+)`", seen)
        tests = [name.split("::")[-1] for name in names if name not in crates]
        places = [name for name in names if name in crates] or crates
        if not tests:
            yield f"{BY_HAND} names no test for: {wrong}"
        for test in tests:
            if not any(has_test(f"{crate}/{test}") for crate in places):
                yield f"{BY_HAND} names a test that isn't there: {test}"


def edit_faults(edit):
    """What is not as it should be with the lines of an edit that the prover is to refuse."""
    if not edit.why.endswith("."):
        yield f"{edit.label} has no line 'why: SENTENCE' in front"
    elif CITED.search(edit.why):
        yield f"{edit.label} cites something by a number: {CITED.search(edit.why)[0]}"
    if edit.fault:
        yield f"{edit.label}: {edit.fault}"
    if not edit.refuses and not edit.error:
        yield f"{edit.label} has no line 'refuses:' or 'no program:' (tools/mutants {edit.crate} --write)"


def tested_faults(edit):
    """What is not as it should be with the lines of an edit that only tests see."""
    if edit.fault or not edit.why.endswith(".") or not edit.tests:
        yield f"{edit.label}: {edit.fault or 'it has no line why: SENTENCE, or none test: CRATE TEST'}"
    yield from (f"{edit.label} names a test that isn't there: {' '.join(test)}" for test in edit.tests if not has_test("/".join(test)))


def faults(edits, tested):
    yield from left_faults()
    for edit in edits:
        yield from edit_faults(edit)
    for edit in tested:
        yield from tested_faults(edit)
    tried = {body for edit in edits for body in edit.bodies}
    for body, tests in BODIES.items():
        if body not in tried and not tests:
            yield f"nothing stands for: {body}"
        yield from (f"there is no test {test}" for test in tests if not has_test(test))


def row(body, edits):
    tried = ", ".join(f"`{edit.label}`" for edit in edits if body in edit.bodies)
    seen = ", ".join(f"`{test}`" for test in BODIES[body])
    return f"| {body} | {tried} | {seen} |"


def refused_at(edit):
    """Where an edit is refused, in words."""
    if edit.error:
        return f"no program: `{edit.error}`"
    return "; ".join(f"`{name}`: {', '.join(f'`{clause}`' for clause in clauses)}" for name, *clauses in edit.refuses)


def page(edits, tested):
    text = HEAD.format(count=len(edits), bodies="\n".join(row(body, edits) for body in BODIES))
    for crate in dict.fromkeys(edit.crate for edit in edits):
        text += f"\n### `{crate}`\n\n| Edit | Why | Refused at |\n|---|---|---|\n"
        text += "".join(f"| `{edit.name}` | {edit.why} | {refused_at(edit)} |\n" for edit in edits if edit.crate == crate)
    text += "\n## Seen by tests alone\n\n| Edit | Why | Test |\n|---|---|---|\n"
    text += "".join(f"| `{edit.label}` | {edit.why} | {', '.join('/'.join(it) for it in edit.tests)} |\n" for edit in tested)
    text += "\n## Planted by hand\n"
    for title, lines in by_hand():
        text += f"\n### {title.strip('[]').capitalize()}\n\n| Wrong body | Seen by |\n|---|---|\n" + "".join(f"| {wrong} | {seen} |\n" for wrong, seen in lines)
    return text


def main(words):
    if words not in ([], ["--check"]):
        sys.exit(__doc__)
    crates = edit_files.crates_with_edits()
    edits = [it for crate in crates for it in edit_files.edits_of(crate)]
    tested = [it for crate in crates for it in edit_files.edits_of(crate, tested=True)]
    wrong = list(faults(edits, tested))
    if not words:
        os.makedirs(os.path.dirname(PAGE), exist_ok=True)
        with open(PAGE, "w", encoding="utf-8") as it:
            it.write(page(edits, tested))
    print("\n".join([*wrong, f"{len(edits)} mutants of {len(crates)} crates for the prover, {len(tested)} for tests"]))
    return 1 if wrong else 0


if __name__ == "__main__":
    sys.exit(main(sys.argv[1:]))
