"""The inputs below tests/rehearsed/, on which the test command runs the rehearsal and the narration, and what the two have to print.

    NAME.in               a plan and events, as both programs read them
    NAME.rehearsal        what the rehearsal prints
    NAME.narration        what the narration prints
    NAME.narration-end    its last lines, where all would be long

Histories that end COMMITTED, ABORTED and OPEN, an abort heard early, leaders that compete, a bad and a cut plan, a cut event, more events than
are made, and each number that a rehearsal can print: 0, 1, 7, 8, 9, 10, 12 and 13. It can't print 14: a message stands in an inbox once, and in N
too, and N has no more slots than an inbox; so where an inbox is full, it holds every message of N.
"""

from calls import other, proposing, reading
from model import MAX_SLOTS, plan_bytes, rehearse
from narration import narrate

NUMBERS = {"0", "1", "7", "8", "9", "10", "12", "13"}
LONG = 50000                                            # bytes of a narration that is stored whole
LAST = 13                                               # lines of a longer one


def committed():
    """Two weights, three acceptors: both prepare, two acceptors vote for each, the leader decides and both take the decision."""
    return plan_bytes((2, 3, 1)), [
        other(0, 0), other(0, 1),                       # 0, 1: 2a of both weights
        reading(3, 0, 0), reading(3, 1, 0),             # 2, 3
        reading(3, 1, 1), reading(3, 2, 1),             # 4, 5
        *[reading(4, 0, slot) for slot in (2, 3, 4, 5)],
        other(7, 0),                                    # 6: Commit
        reading(2, 0, 6), reading(2, 1, 6),
    ]


def aborted():
    """Weight 1 says nothing: the leader asks at ballot 1, no vote is reported, and it proposes aborted."""
    return plan_bytes((2, 3, 1)), [
        other(0, 0),                                    # 0: 2a of weight 0
        proposing(5, 0, 1, 1),                          # 1: 1a for weight 1
        reading(3, 0, 1), reading(3, 2, 1),             # 2, 3: promises
        reading(4, 0, 2), reading(4, 0, 3),
        proposing(6, 0, 1, 1),                          # 4: 2a, aborted
        reading(3, 0, 4), reading(3, 1, 4),             # 5, 6: votes
        reading(4, 0, 5), reading(4, 0, 6),
        other(8, 0),                                    # 7: Abort
        reading(2, 0, 7), reading(2, 1, 7),
    ]


def declined():
    """Weight 1 of three chooses to abort, and the leader hears that from the weight itself. No acceptor has voted, and none needs to: weight 1
    never says prepared at ballot 0, so its instance can choose aborted alone, and the order is dead (document 001, section 4.2). That the others
    are prepared tells the leader nothing."""
    return plan_bytes((3, 3, 1)), [
        other(0, 0), other(1, 1), other(0, 2),          # 0, 1, 2: 2a of the three weights
        reading(4, 0, 0), other(8, 0),                  # not enabled: weight 0 is prepared
        reading(4, 0, 1), other(7, 0),                  # weight 1 declines
        other(8, 0),                                    # 3: Abort
        reading(2, 0, 3), reading(2, 1, 3), reading(2, 2, 3),
        reading(4, 0, 1),                               # again
    ]


def opened():
    """One of two weights prepares, the other chooses to abort; nothing is decided."""
    return plan_bytes((2, 3, 2)), [other(0, 0), other(1, 1), reading(3, 0, 0), reading(3, 0, 1), reading(4, 1, 2), other(7, 1), other(8, 1)]


def competing():
    """Two leaders ask for weight 0, at ballots 1 and 2. The higher wins: at the lower no acceptor votes any more, and the vote at ballot 0
    that an acceptor reports is what the winner has to propose."""
    return plan_bytes((1, 3, 2)), [
        other(0, 0),                                    # 0: 2a, prepared at ballot 0
        reading(3, 0, 0),                               # 1: the vote of acceptor 0
        proposing(5, 0, 0, 1),                          # 2: 1a of leader 0, ballot 1
        reading(3, 1, 2), reading(3, 2, 2),             # 3, 4: promises to leader 0
        reading(4, 0, 3), reading(4, 0, 4),
        proposing(5, 1, 0, 2),                          # 5: 1a of leader 1, ballot 2
        reading(3, 0, 5), reading(3, 1, 5),             # 6, 7: promises to leader 1, one with the vote
        proposing(6, 0, 0, 1),                          # 8: leader 0 proposes aborted, too late
        reading(3, 0, 8), reading(3, 1, 8),             # refused: promised to ballot 2
        reading(3, 2, 8),                               # 9: one vote is no majority
        reading(4, 0, 9),
        other(8, 0),
        reading(4, 1, 6), reading(4, 1, 7),
        proposing(6, 1, 0, 2),                          # 10: leader 1 proposes prepared
        proposing(6, 1, 0, 2),                          # once for a ballot
        reading(3, 0, 10), reading(3, 2, 10),           # 11, 12: votes
        reading(4, 1, 11), reading(4, 1, 12),
        other(7, 1),                                    # 13: Commit
        reading(2, 0, 13),
    ]


def refusals():
    """Each number that a call can be refused with in a short history."""
    return plan_bytes((2, 3, 2)), [
        bytes([9, 0, 0, 0]), bytes([0, 2, 0, 0]), bytes([0, 0, 0, 1]), proposing(5, 0, 2, 2),        # 7
        reading(2, 0, 0), reading(3, 0, 1023), reading(4, 0, 1024),                                 # 8
        other(0, 0),                                                                                # 0: 2a
        reading(2, 0, 0),                                                                           # 9
        proposing(5, 0, 0, 0), proposing(5, 1, 0, 1), proposing(6, 0, 0, 2),                        # 10
        other(0, 0), other(1, 0), proposing(6, 1, 0, 2), other(7, 0), other(8, 1),                  # 12
        proposing(5, 1, 0, 2), reading(3, 1, 1), reading(3, 1, 1),                                  # 1, 2; 12 again
        reading(3, 1, 2), reading(2, 1, 1), reading(4, 0, 1),                                       # 9 for a 1b and twice for a 1a
        reading(3, 2, 1), reading(4, 1, 2), reading(4, 1, 3), proposing(6, 1, 0, 2),                # 3; 4: a 2a at ballot 2
        reading(4, 0, 4), reading(4, 0, 0),                                                         # 9 for it, not for one at ballot 0
    ]


def full_network():
    """As many calls for promises as N has slots, and what is refused then; an acceptor's answer has no room either."""
    asks = [proposing(5, 0, i, b) for i in range(5) for b in range(1, 256)][:MAX_SLOTS]
    return plan_bytes((5, 1, 1)), asks + [proposing(5, 0, 4, 250), reading(3, 0, 0), other(0, 0), proposing(5, 0, 0, 1)]


def cut_event():
    return plan_bytes((1, 1, 1)), [other(1, 0), bytes([0, 0, 0])]


def no_events():
    return plan_bytes((16, 7, 4)), []


STORIES = [
    ("committed", committed(), "COMMITTED"),
    ("aborted", aborted(), "ABORTED"),
    ("declined", declined(), "ABORTED"),
    ("open", opened(), "OPEN"),
    ("competing", competing(), "COMMITTED"),
    ("refusals", refusals(), "OPEN"),
    ("full_network", full_network(), "OPEN"),
    ("cut_event", cut_event(), "ABORTED"),
    ("no_events", no_events(), "OPEN"),
    ("limit", (plan_bytes((1, 1, 1)), [other(0, 0)] + [other(1, 0)] * 8192), "OPEN"),
    ("bad_plan", (plan_bytes((17, 1, 1)), [other(0, 0)]), "1"),
    ("cut_plan", (plan_bytes((1, 1, 1))[:4], []), "1"),
    ("empty", (b"", []), "1"),
]


def stored():
    """The files: name, contents."""
    printed = set()
    for name, (plan, events), last in STORIES:
        text = plan + b"".join(events)
        lines, words = rehearse(text), narrate(text)
        assert lines.split("\n")[-2] == last, (name, lines)
        printed |= set(lines.split("\n")[:-2] if last != "1" else [last])
        yield name + ".in", text
        yield name + ".rehearsal", lines.encode()
        if len(words) <= LONG:
            yield name + ".narration", words.encode()
        else:
            yield name + ".narration-end", "".join(words.splitlines(True)[-LAST:]).encode()
    assert printed == NUMBERS, sorted(printed)
