#!/usr/bin/env python3
"""Makes out/rows.md, which says where each worked row stands, of the texts of rows themselves.

usage, at the top of the repository: tools/list_rows.py [--check]

With --check nothing is written. Either way the status is 1, and a line says why, where a text or its test isn't there, or where a text of
rows is not among TEXTS.
"""
import glob
import os
import re
import sys

PAGE = "out/rows.md"
# Crate, file, constant, what a line of it goes through, the test that plays it.
TEXTS = [
    ("concurrent_queue_tests", "queue_rows", "QUEUES", "`Exclusive`, its walks, and `ConcurrentQueue` on one thread (`queues`)", "rows::queues"),
    ("concurrent_queue_tests", "turn_rows", "TURNS", "`run_queue_steps` (`turns`)", "rows::turns"),
    ("concurrent_queue_tests", "scarce_rows", "WANTS", "`QueueCall` over cells that are refused blocks, or whose positions end (`scarce`)", "rows::wants"),
    ("event_listener_tests", "list_rows", "ROWS", "`List` of one owner, and `List::run` (`lists`)", "list::rows"),
    ("event_listener_tests", "event_rows", "UNIT_ROWS", "`Event<()>`, its four notices, and `EventListener`, polled by hand and as a future (`units`, `listening`, `made`)", "event::rows"),
    ("event_listener_tests", "event_rows", "TAG_ROWS", "`Event<u32>`, and `EventListener` with its waits (`tags`, `listening`, `made`)", "event::rows_of_tags"),
    ("event_listener_tests", "recorded", "ROWS", "`RecordedEvent` and its record (`records`)", "recorded::rows"),
    ("async_channel_tests", "handle_rows", "OPERATIONS", "`Sender` and `Receiver`, and `Send`, `Recv`, `Closed` and streams, polled by hand (`lent`; `calls` of `channel_test_helpers`)", "rows::operations"),
    ("async_channel_tests", "handle_rows", "HANDLES", "all handles, made and dropped, and operations polled up to their ends (`owned`; `calls` of `channel_test_helpers`)", "rows::handles"),
    ("async_channel_tests", "handle_rows", "WITHOUT_A_BOUND", "the same, with the calls of `FIFTY` behind it", "rows::handles"),
    ("async_channel_tests", "handle_rows", "OF_A_THOUSAND_PLACES", "the same, with the calls of `FIFTY` a hundred times behind it", "rows::handles"),
    ("async_channel_tests", "slot_rows", "STEPS", "`ChannelCall::step` over a channel with one owner (`slots`, `slot_calls`)", "rows::steps"),
    ("async_channel_tests", "standing_rows", "QUESTIONS", "handles of a watched channel, asked in the midst of a send (`standing`)", "standing::a_push_that_stands_still_holds_no_handle_up"),
    ("async_channel_thread_tests", "pair_rows", "PAIRS", "`Sender` on one thread and `Receiver` on another, which meet at gates (`pairs`; `calls` of `channel_test_helpers`)", "pairs::rows"),
    ("channel_world_tests", "step_rows", "ROWS", "`World::run_steps` (`worlds`)", "rows::steps_by_names"),
    ("channel_world_tests", "step_rows", "REFUSED", "lists of `World::run_steps` that stop (`worlds`)", "rows::steps_by_names"),
    ("channel_world_tests", "step_rows", "SEVERAL", "`World::run_steps` (`worlds`)", "rows::steps_by_names"),
    ("channel_world_tests", "call_rows", "SENDS", "`World::run_calls` (`worlds`)", "rows::calls"),
    ("channel_world_tests", "call_rows", "RECEIVES", "`World::run_calls` (`worlds`)", "rows::calls"),
    ("channel_world_tests", "call_rows", "WAITS", "`World::run_calls` (`worlds`)", "rows::calls"),
    ("channel_world_tests", "call_rows", "REFUSED", "`World::run_calls` that stops (`worlds`)", "rows::calls"),
    ("channel_world_tests", "call_rows", "BOTH", "`World::run_calls` and `World::run_steps` in turn (`worlds`)", "rows::calls"),
    ("channel_world_tests", "call_rows", "SETTLINGS", "`World::settle` (`worlds`)", "rows::calls"),
    ("channel_world_tests", "call_rows", "TOLD", "what a world tells of its lines and positions, and `World::run_party` (`worlds`)", "rows::calls"),
    ("channel_world_tests", "many_rows", "MANY", "`World::run_calls` (`worlds`)", "rows::calls"),
    ("channel_world_tests", "script_rows", "LINES", "`run_script`, a whole script of each row (`scripts::rows`)", "scripts::rows::scripts"),
    ("channel_world_tests", "script_rows", "POLLS", "`run_script`, a whole script of each row (`scripts::rows`)", "scripts::rows::scripts"),
    ("channel_world_tests", "script_rows", "OTHERS", "`run_script`, a whole script of each row (`scripts::rows`)", "scripts::rows::scripts"),
    ("channel_world_tests", "history_rows", "ORDERS", "`judge` over logs of calls of one message each (`histories`)", "rows::histories"),
    ("channel_world_tests", "history_rows", "SEVERAL", "`judge`, and `History::fault`, over logs with receives of several (`histories`)", "rows::histories"),
    ("channel_world_tests", "history_rows", "RESTS", "`Rest::is_right` (`histories`)", "rows::histories"),
]
TEXT = re.compile(r'const (\w+): &str = "(\n[^"]*^row [^"]*)"', re.M)
HEAD = """# Where the worked rows stand

Made by `tools/list_rows.py` of the texts of rows, not by hand. A worked row is a text: lines that name calls, each with what it is to
answer. One test plays all rows of a text, and stops at the first line that answers another thing, whose row, call and both answers it
shows. `worked_rows` reads the texts, and says in its head how; what a line calls is said in the file or the crate that stands in
brackets. One more row costs no proof.

| Text | Each line goes through | Test | Rows |
|---|---|---|---|
"""
TAIL = """
Three rows of `channel_world_tests` are texts that loops write, `crowds::a_message_for_a_crowd_of_streams_is_settled`,
`crowds::a_closing_for_a_crowd_of_streams_is_settled` and `many::a_million_steps_are_made`. The five
interleavings of `giving_up` of that crate are texts too, which a test plays up to each place. So is the table of `step_counts`, in which a
line stands for each call.

What needs more than two threads, clocks that pass, types of its own or proofs is code: the other tests of these crates. So is what
takes all memory of its process. One stored run of a script is in `channel_script`.
"""


def read(path):
    with open(path, encoding="utf-8") as it:
        return it.read()


def texts():
    """Returns the text of rows of each constant that has one, by crate, file and name."""
    found = {}
    for path in glob.glob("crates/*/src/*.rt"):
        _, crate, _, file = path.split("/")
        for name, text in TEXT.findall(read(path)):
            found[crate, file.removesuffix(".rt"), name] = text
    return found


def has_test(crate, test):
    module, _, name = test.rpartition("::")
    return f"#[test]\nfn {name}(" in read(f"crates/{crate}/src/{module.replace('::', '/')}.rt")


def main(words):
    if words not in ([], ["--check"]):
        sys.exit(__doc__)
    found, wrong, page = texts(), [], HEAD
    for crate, file, name, goes_through, test in TEXTS:
        text = found.pop((crate, file, name), "")
        rows = re.findall(r"^row (\w+)$", text, re.M)
        if not rows or not has_test(crate, test):
            wrong.append(f"there are no rows {name} in {crate}/{file}, or no test {test}")
        page += f"| `{crate}/src/{file}.rt`, `{name}` | {goes_through} | `{test}` | {', '.join(f'`{row}`' for row in rows)} |\n"
    wrong += [f"tools/list_rows.py doesn't know {name} of {crate}/{file}" for crate, file, name in found]
    page += TAIL
    if not words:
        os.makedirs(os.path.dirname(PAGE), exist_ok=True)
        with open(PAGE, "w", encoding="utf-8") as it:
            it.write(page)
    print("\n".join([*wrong, f"{len(TEXTS)} texts of rows"]))
    return 1 if wrong else 0


if __name__ == "__main__":
    sys.exit(main(sys.argv[1:]))
