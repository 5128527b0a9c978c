#!/usr/bin/env python3
"""The stored files of the programs: what each reads, and what it has to print.

    python3 tests/vectors.py write      write crates/PROGRAM/stdin and crates/PROGRAM/stdout of every program, and tests/rehearsed/
    python3 tests/vectors.py check      say whether they are what `write` would write; exit status 1 where one is not
    python3 tests/vectors.py list       print each line of crates/calls/stdout with its number and what the call is for, and how
                                        often each number is answered in crates/histories, by event calls, by list calls and to
                                        the events of a list

tests/cases_*.py choose the calls, and tests/calls.py says how they are written; tests/histories.py, tests/histories_summary.py and
tests/narration.py choose the histories of those two programs; the rehearsal has document 01's example; tests/stories.py chooses the inputs below
tests/rehearsed/. tests/model.py works out from documents 01 and 02 alone what each call answers and stores. The test command needs
none of this: it compares a program's output with the file.
"""

import pathlib
import sys

import cases_messages
import cases_random
import cases_refusals
import cases_rules
import cases_summary
import cases_tables
import histories
import histories_summary
import narration
import stories
from calls import CALLS, READER, WRITER
from model import ACCEPTOR, LEADER, RM, rehearse

CASES = [cases_messages, cases_refusals, cases_tables, cases_rules, cases_summary, cases_random]
ROOT = pathlib.Path(__file__).resolve().parent.parent

# The numbers that each call can answer.
NUMBERS = {
    RM: {0, 1, 2, 3, 5, 7, 8, 9, 11, 12, 13},
    ACCEPTOR: {0, 1, 2, 4, 5, 7, 8, 9, 12, 13},
    LEADER: {0, 1, 2, 5, 6, 7, 8, 9, 10, 12, 13, 14, 20},
    READER: {0, 1, 15, 16, 17, 18},
    WRITER: {0, 1, 17},
}

# Document 01's example of the rehearsal, and what it says that it prints.
EXAMPLE = bytes.fromhex("010101 0000 00000000 03000000 04000001 07000000 02000002 01000000")
PRINTED = "0\n0\n0\n0\n0\n12\nCOMMITTED\n"


def choose():
    """Runs every section of every file of cases; sees that each call answers each of its numbers at least twice."""
    for cases in CASES:
        for section in cases.SECTIONS:
            section()
    for what, numbers in NUMBERS.items():
        got = [number for name, _, number, _, _ in CALLS if name == what]
        assert set(got) == numbers, (what, sorted(set(got)))
        assert all(got.count(number) >= 2 for number in numbers), what
    histories.choose(histories_summary.SECTIONS)
    assert rehearse(EXAMPLE) == PRINTED


def stored():
    """The files: path, contents."""
    for program, name, contents in of_programs():
        yield pathlib.Path("crates", program, name), contents
    for name, contents in stories.stored():
        yield pathlib.Path("tests", "rehearsed", name), contents


def of_programs():
    """The files of every program: program, name, contents."""
    yield "calls", "stdin", b"".join(text for _, _, _, text, _ in CALLS)
    yield "calls", "stdout", "".join(line + "\n" for _, _, _, _, line in CALLS).encode()
    yield "histories", "stdin", histories.stdin()
    yield "histories", "stdout", histories.stdout()
    yield "rehearsal", "stdin", EXAMPLE
    yield "rehearsal", "stdout", PRINTED.encode()
    yield "narration", "stdin", narration.story()
    yield "narration", "stdout", narration.narrate(narration.story()).encode()


def main(command):
    choose()
    if command == "list":
        for k, (what, label, _, _, line) in enumerate(CALLS):
            print("%d %s, %s: %s" % (k + 1, what, label, line))
        for what, counts in zip(("event calls", "list calls", "events in lists"), histories.counted()):
            for number, count in counts.items():
                print("histories, %d: %d %s" % (number, count, what))
        return 0
    differs, paths = 0, set()
    for path, contents in stored():
        paths.add(path)
        if command == "write":
            (ROOT / path).parent.mkdir(exist_ok=True)
            (ROOT / path).write_bytes(contents)
        elif not (ROOT / path).is_file() or (ROOT / path).read_bytes() != contents:
            print("%s is not what tests/vectors.py writes" % path)
            differs = 1
    for path in sorted((ROOT / "tests" / "rehearsed").glob("*")):
        if path.relative_to(ROOT) not in paths:
            print("%s is no file that tests/vectors.py writes" % path.relative_to(ROOT))
            differs = 1
    return differs


if __name__ == "__main__":
    if sys.argv[1:] not in (["write"], ["check"], ["list"]):
        sys.exit(__doc__)
    sys.exit(main(sys.argv[1]))
