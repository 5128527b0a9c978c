"""Calls of a leader's step for the summary (document 02, Papers 5 and 6): which receipts mark it, kinds 7 and 8 by it alone, and refusal 20."""

import itertools

from calls import call, decision, m1a, m1b, m2a, m2b, other, proposing, reading, slots, true_summary
from model import ABORTED, LEADER, PREPARED, SLOT, set_bytes

BITS = {PREPARED: 1, ABORTED: 2}


def receive(label, plan, inbox, message, sets, who=0, number=0):
    """The receipt of a message beside three summaries: zeros, a mixed one, and one in which every bit stands. `sets` gives the instance and the
    value whose bit stands after it, or None where no bit is set."""
    n = plan[0]
    for before in (bytes(n), bytes(k % 4 for k in range(n)), bytes([3] * n)):
        outcome = call(label, LEADER, plan, inbox, slots(3, decision(1), message), reading(4, who, 1), number, before)
        if number == 0:
            after = before if sets is None else set_bytes(before, sets[0], [before[sets[0]] | BITS[sets[1]]])
            assert outcome[3] == after, (label, plan, inbox, message, before, outcome)


def receive_all(label, inbox, message, sets):
    """The receipt under the plan 3, 3, 2 by both leaders; and in an inbox without room, where a message that is there is taken, and any other
    is refused and marks nothing."""
    for who in (0, 1):
        receive(label, (3, 3, 2), slots(6, *inbox), message, sets, who)
    full = slots(len(inbox), *inbox)
    if message in inbox:
        receive(label + ", in a full inbox", (3, 3, 2), full, message, sets)
    else:
        receive(label + ", 14", (3, 3, 2), full, message, None, number=14)


def marks():
    """Receipts of the value v for instance i: the inbox before it, the message, and whether v's bit of i is set. The bits of the other value
    and of other instances are never set, whatever the inbox says."""
    for i, v in itertools.product((0, 2), (PREPARED, ABORTED)):
        w, j, vote = 3 - v, 1, lambda a, b=4: m2b(i, a, b, v)
        for label, inbox, message, does in [
                ("no majority", [], vote(0), False),
                ("a majority", [vote(0)], vote(2), True),
                ("a majority and more", [vote(0), vote(1)], vote(2), True),
                ("a majority at ballot 0", [vote(2, 0)], vote(0, 0), True),
                ("a majority at ballot 255", [vote(2, 255)], vote(0, 255), True),
                # an equal message is in the inbox already
                ("repeated, no majority", [vote(0)], vote(0), False),
                ("repeated, a majority", [vote(0), vote(1)], vote(0), True),
                ("repeated, twice in the inbox", [vote(0), vote(0)], vote(0), False),
                # ballots
                ("two ballots", [vote(0, 4)], vote(1, 5), False),
                ("three ballots", [vote(0, 4), vote(1, 5)], vote(2, 6), False),
                ("one acceptor at two ballots", [vote(0, 4)], vote(0, 5), False),
                ("a lower ballot decides", [vote(0, 4), vote(1, 4)], vote(2, 9), True),
                ("a higher ballot decides", [vote(0, 4), vote(1, 4)], vote(2, 0), True),
                ("repeated, another ballot decides", [vote(0, 4), vote(1, 4), vote(2, 7)], vote(2, 7), True),
                # values
                ("the other value before", [m2b(i, 0, 4, w)], vote(1), False),
                ("the other value decided", [m2b(i, 0, 4, w), m2b(i, 1, 4, w)], vote(2), False),
                ("the other value decided, a majority", [m2b(i, 0, 4, w), m2b(i, 1, 4, w), vote(0, 6)], vote(2, 6), True),
                ("both values of one acceptor", [m2b(i, 0, 4, w), vote(0)], vote(0), False),
                # instances
                ("another instance before", [m2b(j, 0, 4, v)], vote(1), False),
                ("another instance decided", [m2b(j, 0, 4, v), m2b(j, 1, 4, v)], vote(2), False),
                ("another instance decided, a majority", [m2b(j, 0, 4, v), m2b(j, 1, 4, v), vote(1)], vote(2), True),
                # messages that are no 2b
                ("no votes", [m1b(i, 0, 4, (4, v)), m2a(i, 4, v), m1a(i, 4), decision(v)], vote(1), False),
                ("a promise", [m1b(i, 0, 5, (4, v))], m1b(i, 1, 5, (4, v)), False),
                ("a promise, where v is decided", [vote(0), vote(1)], m1b(i, 1, 5, (4, v)), False),
                ("a promise without a vote, where v is decided", [vote(0), vote(1)], m1b(i, 2, 5), False),
                # beside the 2a at ballot 0 a vote marks by Decided alone
                ("beside the 2a, no majority", [m2a(i, 0, v)], vote(1, 0), False),
                ("beside the 2a, repeated", [m2a(i, 0, v), vote(1, 0)], vote(1, 0), False),
                ("beside the 2a, two ballots", [vote(0, 0), m2a(i, 0, v)], vote(1), False),
                ("beside the 2a, a majority", [vote(0, 0), m2a(i, 0, v)], vote(1, 0), True),
                ("beside the other 2a, no majority", [m2a(i, 0, w)], vote(1, 0), False),
                ("beside the other 2a, a majority", [m2a(i, 0, w), vote(0)], vote(1), True),
                ("a promise beside the 2a", [m2a(i, 0, v)], m1b(i, 1, 5, (0, v)), False)]:
            receive_all(label, inbox, message, (i, v) if does else None)


def proposals():
    """Receipts of a 2a for instance i. At ballot 0 aborted sets its bit, whatever the inbox holds, and prepared none; at any other ballot the 2a
    is refused, before 14 too, as a 1a and a decision are."""
    for i, v in itertools.product((0, 2), (PREPARED, ABORTED)):
        w, j, message = 3 - v, 1, m2a(i, 0, v)
        votes = lambda value, b=4: [m2b(i, 0, b, value), m2b(i, 2, b, value)]
        for label, inbox in [
                ("alone", []),
                ("repeated", [message]),
                ("repeated, after others", [m1a(i, 4), decision(v), m1b(i, 0, 4), m2b(i, 0, 0, v), message]),
                ("after the other value", [m2a(i, 0, w)]),
                ("after another instance", [m2a(j, 0, v)]),
                ("after other ballots", [m2a(i, 1, v), m2a(i, 255, v)]),
                ("after a vote", [m2b(i, 1, 0, v)]),
                ("where v is decided", votes(v)),
                ("where v is decided at ballot 0", votes(v, 0)),
                ("where the other value is decided", votes(w)),
                ("after promises", [m1b(i, 0, 4), m1b(i, 1, 4, (0, v))])]:
            receive_all("a 2a at ballot 0, " + label, inbox, message, (i, v) if v == ABORTED else None)
        for used in ([], votes(v), [message]):
            for refused in (m1a(i, 4), decision(v), *(m2a(i, b, v) for b in (1, 3, 4, 255))):
                for room in (0, 2):
                    receive("9", (3, 3, 2), slots(len(used) + room, *used), refused, None, number=9)
    for n, i, who in ((1, 0, 0), (16, 0, 3), (16, 7, 1), (16, 15, 3)):
        for v in (PREPARED, ABORTED):
            receive("a 2a of %d instances" % n, (n, 7, 4), slots(1), m2a(i, 0, v), (i, v) if v == ABORTED else None, who)


def majorities():
    """The vote that makes a majority of each number of acceptors, and the one before it; the ends of the longest summary."""
    for a in range(1, 8):
        for v in (PREPARED, ABORTED):
            for count in range(a):
                inbox = slots(a + 1, *(m2b(0, (3 + x) % a, a, v) for x in range(count)))
                message = m2b(0, (3 + count) % a, a, v)
                receive("vote %d of %d" % (count + 1, a), (1, a, 1), inbox, message, (0, v) if 2 * (count + 1) > a else None)
    for i in (0, 7, 15):
        for v in (PREPARED, ABORTED):
            inbox = slots(5, *(m2b(i, a, 9, v) for a in (6, 2, 0)))
            receive("16 instances", (16, 7, 4), inbox, m2b(i, 4, 9, v), (i, v), 3)
            receive("16 instances", (16, 7, 4), inbox, m2b((i + 1) % 16, 4, 9, v), None, 3)


def reads():
    """Kinds 7 and 8 by the summary alone: every summary of one and of two bytes, beside inboxes that say nothing, as much, less or the reverse;
    one byte of many that differs; N full, and a decision that stands there."""
    def decide(label, plan, inbox, summary, who=0, network=slots(2)):
        for kind, enabled in ((7, all(x & 1 for x in summary)), (8, any(x & 2 for x in summary))):
            call(label, LEADER, plan, inbox, network, other(kind, who), 0 if enabled else 12, summary)
    for n in (1, 2):
        says = [[]] + [[m2b(i, a, 1, v) for v in values for i in range(n) for a in (0, 2)] for values in ((1,), (2,), (1, 2))]
        says += [[m2a(i, 0, v) for i in range(n)] for v in (PREPARED, ABORTED)]
        for summary in itertools.product(range(4), repeat=n):
            for used in says:
                decide("by the summary", (n, 3, 2), slots(len(used), *used), bytes(summary), n - 1)
    for n in (3, 16):
        for at in sorted({0, n // 2, n - 1}):
            for usual, odd in ((1, 0), (1, 2), (3, 2), (0, 2), (0, 1), (0, 3), (1, 3), (3, 0)):
                decide("one byte differs", (n, 7, 4), slots(1), set_bytes(bytes([usual] * n), at, [odd]), 3)
    for network, number in ((slots(1, m1a(0, 1)), 13), (slots(0), 13), (slots(1, decision(PREPARED)), 0)):
        call("N is full", LEADER, (2, 3, 1), slots(0), network, other(7, 0), number, bytes([1, 3]))
        call("N is full", LEADER, (2, 3, 1), slots(0), network, other(7, 0), 12, bytes([1, 2]))


def others():
    """Kinds 5 and 6 neither read nor change a summary, and the leader's own 2a sets no bit; nor does a refused call."""
    inbox = slots(4, m1b(0, 0, 4), m1b(0, 2, 4, (0, PREPARED)), m2b(0, 1, 0, PREPARED))
    for summary in itertools.product(range(4), repeat=2):
        for event, number in ((proposing(5, 1, 1, 4), 0), (proposing(6, 1, 0, 4), 0), (proposing(6, 1, 1, 4), 12), (proposing(5, 0, 0, 4), 10)):
            outcome = call("other kinds", LEADER, (2, 3, 2), inbox, slots(2), event, number, bytes(summary))
            assert number != 0 or outcome[3] == bytes(summary)


def refused():
    """20: every length around n and n × L, every byte above 3, at each place; also where the event is none, where it would be refused, and where
    the byte is not read."""
    inbox, network = slots(2, m2b(0, 0, 1, PREPARED)), slots(2, m2b(0, 1, 1, PREPARED))
    events = [reading(4, 1, 0), reading(4, 0, 1), proposing(5, 0, 0, 1), proposing(5, 0, 0, 0), proposing(6, 1, 0, 2), other(7, 1), other(8, 0),
              b"", bytes([0, 0, 0, 0]), bytes([4, 2, 0, 0]), bytes([7, 0, 0, 1]), bytes(5)]
    for n in (1, 2, 16):
        plan = (n, 3, 2)
        for turn, count in enumerate(sorted({0, 1, n - 1, n + 1, 2 * n, 3 * n, 255, 256, 256 + n} - {n})):
            call("a summary of %d bytes" % count, LEADER, plan, inbox, network, events[turn % len(events)], 20, bytes(count))
            call("a summary of %d bytes" % count, LEADER, plan, inbox, network, events[0], 20, bytes([3] * count))
        for at in range(n):
            for turn, value in enumerate((4, 255, 128, 5)):
                call("a byte above 3", LEADER, plan, inbox, network, events[(at + turn) % len(events)], 20, set_bytes(bytes(n), at, [value]))
    for value in range(256):
        call("every byte", LEADER, (2, 3, 2), inbox, network, reading(4, 1, 0), 0 if value < 4 else 20, bytes([1, value]))
    for event in events:
        for summary in ([0, 4], [255, 0], [3], [0, 0, 0]):
            call("20 before 7", LEADER, (2, 3, 2), inbox, network, event, 20, summary)
    # the rows before it
    broken = set_bytes(inbox, SLOT - 1, [1])
    for summary in ([0, 4], [3]):
        call("6 before 20", LEADER, (2, 3, 2), broken, network, events[0], 6, summary)
        call("5 before 20", LEADER, (2, 3, 2), inbox, set_bytes(network, SLOT - 1, [1]), events[0], 5, summary)
        call("2 before 20", LEADER, (2, 3, 2), inbox[:-1], network, events[0], 2, summary)
        call("1 before 20", LEADER, (2, 3, 5), inbox, network, events[0], 1, summary)


SECTIONS = [marks, proposals, majorities, reads, others, refused]
