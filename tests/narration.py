"""What the program crates/narration prints, worked out from documents 01 and 02 by tests/model.py, and the history that is stored for it.

For each event three lines: what is tried, with the message in its slot of N; what the call answers, with the message that
stands in the answered slot, or with the weight that a leader hears decline; and the states of all weights. Last one of the words COMMITTED,
ABORTED and OPEN.
"""

from calls import other, proposing, reading
from model import (
    MAX_EVENTS,
    MAX_SLOTS,
    UNUSED,
    Plan,
    Refused,
    decline,
    decode,
    event_call,
    judge_event,
    open_record,
    slots_of,
    zeros,
)

VALUES = {1: "prepared", 2: "aborted"}
DECISIONS = {1: "Commit", 2: "Abort"}
STATES = ["working", "prepared", "committed", "aborted"]
REFUSALS = {
    1: "plan out of range",
    2: "lengths of the tables do not fit the plan",
    3: "W holds a byte that is no state",
    4: "Q holds a vote that is none",
    5: "N is damaged",
    6: "an inbox is damaged",
    7: "no event",
    8: "the slot is unused or beyond N",
    9: "the message is not for this role",
    10: "ballot not owned",
    11: "the decision contradicts the state",
    12: "not enabled",
    13: "N is full",
    14: "the inbox is full",
    20: "the summary is damaged",
}


def refusal(number):
    return "refused: %s (%d)" % (REFUSALS[number], number)


def in_words(m):
    """A message."""
    if m.kind == "1a":
        return "call for promises of ballot %d for weight %d" % (m.bal, m.ins)
    if m.kind == "1b":
        report = "no vote" if m.val is None else "%s at %d" % (VALUES[m.val], m.bal)
        return "acceptor %d promises ballot %d for weight %d, reports %s" % (m.acc, m.mbal, m.ins, report)
    if m.kind == "2a":
        return "weight %d is proposed as %s at ballot %d" % (m.ins, VALUES[m.val], m.bal)
    if m.kind == "2b":
        return "acceptor %d votes for weight %d as %s at ballot %d" % (m.acc, m.ins, VALUES[m.val], m.bal)
    return "the decision is %s" % DECISIONS[m.val]


def slot_in_words(network, place):
    slots = slots_of(network)
    if place >= len(slots) or slots[place] == UNUSED:
        return "slot %d, where no message is" % place
    return "slot %d: %s" % (place, in_words(decode(slots[place])))


def event_in_words(plan, network, event):
    """What an event tries."""
    try:
        judge_event(plan, event)
    except Refused:
        return " ".join(["bytes"] + ["%02x" % byte for byte in event])
    kind, who, high, low = event
    slot = slot_in_words(network, 256 * high + low)
    ballot = "ballot %d for weight %d" % (low, high)
    return [
        "weight %d prepares" % who,
        "weight %d chooses to abort" % who,
        "weight %d takes %s" % (who, slot),
        "acceptor %d takes %s" % (who, slot),
        "leader %d takes into its inbox %s" % (who, slot),
        "leader %d begins %s" % (who, ballot),
        "leader %d proposes at %s" % (who, ballot),
        "leader %d decides Commit" % who,
        "leader %d decides Abort" % who,
    ][kind]


def answer_in_words(event, outcome):
    """What the call of an event answers."""
    if outcome[0] != 0:
        return refusal(outcome[0])
    _, slot, record = outcome
    if slot is not None:
        return "accepted, stands in %s" % slot_in_words(record.network, slot)
    taken = decode(slots_of(record.network)[256 * event[2] + event[3]])
    return "accepted: weight %d declines, so the order can be aborted at once" % taken.ins if taken == decline(taken.ins) else "accepted"


def narrate(text):
    """What the narration prints for the bytes of its standard input."""
    if len(text) < 5:
        return refusal(1) + "\n"
    plan = Plan(*text[:3], int.from_bytes(text[3:5], "big"))
    outcome = open_record(plan, zeros(plan, MAX_SLOTS, MAX_SLOTS))
    if outcome[0] != 0:
        return refusal(outcome[0]) + "\n"
    record, lines, events = outcome[1], [], text[5:]
    for k, at in enumerate(range(0, min(len(events), 4 * MAX_EVENTS), 4)):
        event = events[at:at + 4]
        lines.append("%d. %s" % (k + 1, event_in_words(plan, record.network, event)))
        outcome = event_call(plan, record, event)
        record = outcome[2] if outcome[0] == 0 else record
        lines += ["    " + answer_in_words(event, outcome), "    weights: " + " ".join(STATES[state] for state in record.states)]
    ends = {2: "COMMITTED", 3: "ABORTED"}
    same = len(set(record.states)) == 1
    return "\n".join(lines + [ends.get(record.states[0], "OPEN") if same else "OPEN"]) + "\n"


def story():
    """Two weights, three acceptors, two leaders. For weight 1 only one acceptor votes at ballot 0; leader 1 asks at ballot 2, and that
    acceptor reports prepared. The order commits. All nine kinds are tried; a weight that has prepared can't abort."""
    events = [
        other(0, 0),                                    # 0: 2a weight 0
        reading(3, 0, 0), reading(3, 1, 0),             # 1, 2: votes of acceptors 0 and 1
        reading(4, 0, 1), reading(4, 0, 2),
        other(0, 1),                                    # 3: 2a weight 1
        other(1, 1),                                    # not enabled: it has prepared
        reading(3, 0, 3),                               # 4: a vote of acceptor 0 alone
        other(7, 0), other(8, 0),                       # not enabled: weight 1 is not decided, and none is aborted
        proposing(5, 1, 1, 1),                          # ballot 1 is leader 0's
        proposing(5, 1, 1, 2),                          # 5: 1a for weight 1, ballot 2
        reading(3, 0, 5), reading(3, 2, 5),             # 6, 7: promises, one with a vote report
        reading(3, 2, 3),                               # too late: ballot 0 is behind the promise
        reading(4, 1, 6),
        proposing(6, 1, 1, 2),                          # not enabled: one promise of three
        reading(4, 1, 7),
        proposing(6, 1, 1, 2),                          # 8: 2a weight 1 prepared at ballot 2
        reading(3, 2, 8), reading(3, 1, 8),             # 9, 10: votes
        reading(4, 0, 9), reading(4, 0, 10),
        reading(2, 0, 0),                               # a proposal is no decision
        reading(2, 0, 11),                              # nothing there yet
        other(7, 0),                                    # 11: Commit
        reading(2, 0, 11), reading(2, 1, 11),
        reading(4, 1, 11),                              # a decision is for weights
        bytes([9, 0, 0, 0]), bytes([0, 2, 0, 0]), bytes([7, 0, 0, 1]),
        bytes([0, 0]),                                  # cut
    ]
    return bytes([2, 3, 2, 1, 2]) + b"".join(events)
