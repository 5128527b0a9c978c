#!/usr/bin/env python3
"""Runs the built programs rehearsal and narration on further inputs, and compares what they print with the model.

    python3 tests/rehearsals.py         after `rt ci`, or `rt run` in each; exit status 1 where one differs

Plans that are bad or cut; events that are cut; 8,192 events, one fewer and one more, each also with a cut one after them; and random
histories. The stored files hold one input for each program; the test command compares those and tests/rehearsed/, and needs none of this.
"""

import pathlib
import random
import subprocess
import sys

from calls import other
from model import MAX_EVENTS, plan_bytes, rehearse
from narration import narrate
from vectors import EXAMPLE

CRATES = pathlib.Path(__file__).resolve().parent.parent / "crates"


def inputs():
    for text in (b"", b"\1", b"\1\1", b"\1\1\1", b"\1\1\1\0", EXAMPLE):
        yield text
        yield from (text + bytes(count) for count in (1, 2, 3, 4, 5))
    for plan in ((0, 1, 1), (17, 1, 1), (1, 0, 1), (1, 8, 1), (1, 1, 0), (1, 1, 5), (255, 255, 255), (16, 7, 4)):
        yield plan_bytes(plan) + other(0, 0)
    for count in (MAX_EVENTS - 1, MAX_EVENTS, MAX_EVENTS + 1):
        yield from (plan_bytes((1, 1, 1)) + other(1, 0) * count + bytes(cut) for cut in range(4))
    rng = random.Random(21)
    for _ in range(300):
        text = bytes(rng.randint(1, 3) for _ in range(5))
        for _ in range(rng.randint(0, 60)):
            kind = rng.randrange(10)
            low = rng.randrange(10) if kind in (2, 3, 4, 5, 6) or rng.random() < 0.1 else 0
            text += bytes([kind, rng.randrange(4), rng.randrange(2) if rng.random() < 0.3 else 0, low])
        yield text + bytes(rng.randrange(4))


def main():
    differs = count = 0
    for text in inputs():
        for program, model in (("rehearsal", rehearse), ("narration", narrate)):
            printed = subprocess.run([CRATES / program / "out" / program], input=text, stdout=subprocess.PIPE, check=True).stdout.decode()
            count += 1
            if printed != model(text):
                differs += 1
                print("%s differs on %s" % (program, text[:60].hex()))
    print("%d runs, %d differ" % (count, differs))
    return 1 if differs else 0


if __name__ == "__main__":
    sys.exit(main())
