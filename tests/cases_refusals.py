"""Calls of the role steps for the examples of document 01 and its "Refusals by place": each number at each place, two at once,
events and plans at and past their limits.
"""

from calls import call, decision, m1a, m1b, m2a, m2b, other, proposing, reading, slots, strip, true_summary, twice
from model import (
    ABORT,
    ABORTED,
    ACCEPTOR,
    COMMIT,
    COMMITTED,
    KINDS,
    LEADER,
    PREPARED,
    RM,
    ROLES,
    SLOT,
    UNUSED,
    decode,
    role_of,
    set_bytes,
    takes,
)


def examples():
    """The examples of "Proved examples" and the rehearsal's list of events, each with the answer that stands there."""
    one, read, propose = (1, 1, 1), reading(3, 0, 0), proposing(6, 0, 0, 3)
    call("example 7", ACCEPTOR, one, [2, 0, 0], slots(2, m2a(0, 2, PREPARED)), read, 0)
    call("example 8", ACCEPTOR, one, [2, 0, 0], slots(2, m2a(0, 1, PREPARED)), read, 12)
    call("example 9", ACCEPTOR, one, [2, 0, 0], slots(2, m1a(0, 2)), read, 12)
    call("example 10", ACCEPTOR, one, [2, 0, 0], slots(2, m1a(0, 3)), read, 0)
    inbox = slots(3, bytes.fromhex("3F00000300010102"), bytes.fromhex("3F00010302020102"))
    _, slot, _, _, network = call("example 11", LEADER, (1, 3, 1), inbox, slots(1), propose, 0)
    assert network[SLOT * slot:][:SLOT] == m2a(0, 3, 2)
    two = [m1b(0, 0, 3), m1b(0, 1, 3)]
    call("example 12", LEADER, (1, 4, 1), slots(4, *two), slots(1), propose, 12)
    call("example 12", LEADER, (1, 4, 1), slots(4, *two, m1b(0, 3, 3)), slots(1), propose, 0)
    # document 02, Paper 5: the leader first receives the two 2b
    inbox, summary, network = slots(3), bytes(1), slots(3, m2b(0, 0, 0, PREPARED), m2b(0, 1, 3, PREPARED))
    for slot in (0, 1):
        _, _, inbox, summary, network = call("example 13", LEADER, (1, 3, 1), inbox, network, reading(4, 0, slot), 0, summary)
    assert summary == bytes(1)
    call("example 13", LEADER, (1, 3, 1), inbox, network, other(7, 0), 12, summary)

    tables, network, summary = {RM: bytes(1), ACCEPTOR: bytes(3), LEADER: slots(3)}, slots(4), bytes(1)
    for text, number in zip("00000000 03000000 04000001 07000000 02000002 01000000".split(), (0, 0, 0, 0, 0, 12)):
        event = bytes.fromhex(text)
        role = role_of(event[0])
        outcome = call("rehearsal", role, one, tables[role], network, event, number, summary if role == LEADER else None)
        if number == 0:
            tables[role], network = outcome[2], outcome[4]
            summary = outcome[3] if role == LEADER else summary
    assert tables[RM] == bytes([COMMITTED])


# ---- Damages: a call is changed so that a row of "Refusals by place" applies ----

# Neither unused nor a readable message with zeros after it, under the plan 3, 3, 3 of order 0102; the last two are Commits of other orders.
BAD_SLOTS = [bytes.fromhex(text) for text in """
    0000000000010000 0001000000000000 0100000000000000 2000000000000000 FF00000000000000 2900000102000000
    2903000102010000 2900010102000001 2703000101020000 2700030101020000 2700000101020001 3F00000100000102
    3F00000100030102 3F03000100010102 3F00030100010102 3900000001020000 3900000301020000 3903000101020000
    3900000101020100 3B00000000010200 3B00000003010200 3B03000001010200 3B00030001010200 3B00000001010201
    3000010200000000 3003010200000000 30FF010200000000 3001010201000000 1100010000000000 1E00000000010000
    3900010201020001 1900000101020000 3900000102010000 3900000101030000 3F00000100010100 3000000000000000
    3001010200000001 7900000101020000 3001010300000000 3001020200000000""".split()]


def edit(number, part, change):
    """A damage: the row's number, and the call with one of its parts changed."""
    return number, lambda c: {**c, part: change(c[part])}


def set_at(number, part, at, *values):
    return edit(number, part, lambda old: set_bytes(old, at, values))


def full(number, part):
    return [edit(number, part, strip)]


def plan_damages():
    return [edit(1, "plan", lambda plan, at=at, x=x: plan[:at] + (x,) + plan[at + 1:])
            for at, values in enumerate(((0, 17, 255), (0, 8, 255), (0, 5, 255))) for x in values]


def length_damages(part):
    return [edit(2, part, lambda table, more=more: (table + bytes(9))[:len(table) + more]) for more in (1, -1, 5)]


def contents_damages(role):
    """Row 3, 4 or 6, by the role."""
    if role == RM:
        return [set_at(3, "table", at, x) for at, x in ((0, 4), (1, 255), (2, 128))]
    if role == ACCEPTOR:
        return [set_at(4, "table", *x) for x in ((0, 0, 0, 3), (3, 9, 1, 0), (24, 9, 9, 255), (25, 255, 0))]
    return slot_damages(6, "table")


def summary_damages():
    """Row 20 of a leader's own call: of another length than n, whatever L is, and bytes above 3."""
    lengths = [edit(20, "summary", lambda old, count=count: (old + bytes(300))[:count]) for count in (0, 1, 2, 4, 9, 259)]
    return lengths + [set_at(20, "summary", at, x) for at, x in ((0, 4), (1, 128), (2, 255), (2, 4), (1, 7))]


def slot_damages(number, part):
    """Rows 5 and 6. Slot 0 of the table is used, and the event does without it."""
    out = [set_at(number, part, 0, *slot) for slot in BAD_SLOTS + [UNUSED]]
    out.append(edit(number, part, lambda table: table + UNUSED + decision(COMMIT)))
    out.append(edit(number, part, lambda table: strip(table) + bytes.fromhex("FF00000000000000")))
    return out


def event_damages(role, kind):
    out = [edit(7, "event", lambda e: b""), edit(7, "event", lambda e: e[:3]), edit(7, "event", lambda e: e + b"\0")]
    out += [set_at(7, "event", 0, k) for k in [*range(10), 255] if k not in KINDS[role]]
    out += [set_at(7, "event", 1, who) for who in (3, 255)]
    if kind in (5, 6):
        out += [set_at(7, "event", 2, i) for i in (3, 255)]
    elif kind not in (2, 3, 4):
        out += [set_at(7, "event", at, x) for at in (2, 3) for x in (1, 255)]
    return out


def bases():
    """Accepted calls under the plan 3, 3, 3, at least one for each kind: role, table, network, event, and the damages of its
    own rows. Slot 0 of N and of the inbox holds a message that the event does not want; kinds 2, 3 and 4 read slot 1 of N.
    """
    def wanted(message):
        unwanted = m1a(0, 1) if takes(4, decode(message)) else m2b(0, 0, 9, PREPARED)
        return slots(5, unwanted, message, m2a(1, 4, ABORTED))

    low = lambda number, x: set_at(number, "event", 3, x)
    state = lambda number, *values: [set_at(number, "table", 2, x) for x in values]
    slot_rows = [low(8, 3), low(8, 5), low(8, 255), set_at(8, "event", 2, 1), low(9, 0)]
    send = full(13, "network")
    for kind in (0, 1):
        yield RM, bytes([1, 2, 0]), wanted(m2a(2, 1, PREPARED)), other(kind, 2), state(12, 1, 2, 3) + send
    for value, states in ((COMMIT, (0, 3)), (ABORT, (2,))):
        yield RM, bytes([0, 2, 1]), wanted(decision(value)), reading(2, 2, 1), slot_rows + [low(9, 2)] + state(11, *states)
    votes = bytes([1, 0, 1, 0, 0, 0, 9, 9, 2] * 3)
    for message, mbals in ((m1a(2, 4), (4, 5, 255)), (m2a(2, 4, PREPARED), (5, 255))):
        late = [set_at(12, "table", 21, x) for x in mbals]
        yield ACCEPTOR, votes, wanted(message), reading(3, 1, 1), slot_rows + late + send
    inbox = slots(6, m2a(0, 1, PREPARED), m1b(1, 0, 6), m1b(1, 2, 6, (1, PREPARED)), m2b(0, 2, 0, ABORTED))
    for message in (m1b(2, 1, 4), m1b(2, 1, 4, (0, PREPARED)), m2b(2, 1, 4, ABORTED), m2a(2, 0, PREPARED), m2a(2, 0, ABORTED)):
        yield LEADER, inbox, wanted(message), reading(4, 1, 1), slot_rows + [low(9, 2)] + full(14, "table")
    unowned = [low(10, b) for b in (0, 1, 2, 4, 5, 7, 8, 254)]
    yield LEADER, inbox, wanted(m1a(1, 2)), proposing(5, 2, 1, 6), unowned + send
    disabled = [set_at(12, "table", SLOT * place, *slot) for place, slot in (
        (1, m1b(1, 0, 5)), (1, m1b(0, 0, 6)), (1, m1b(1, 2, 6)), (1, m2a(1, 6, ABORTED)), (3, m2a(1, 6, PREPARED)))]
    yield LEADER, inbox, wanted(m1a(1, 2)), proposing(6, 2, 1, 6), unowned + disabled + send + full(14, "table")
    for kind, value, instances in ((7, PREPARED, 3), (8, ABORTED, 1)):
        votes = [m2b(i, a, 1, value) for i in range(instances) for a in (0, 2)]
        disabled = [set_at(12, "summary", 0, x) for x in (0, 3 - value)]
        yield LEADER, slots(9, m1a(0, 2), *votes), wanted(m1a(1, 2)), other(kind, 1), disabled + send


# The numbers in the order in which their rows are asked: 20 comes after 6.
ROWS = [*range(1, 7), 20, *range(7, 15)]


def refusals():
    """Each damage by itself, and for each two numbers a pair of damages, of which the first in the order of the rows is answered."""
    everything, turn = list(bases()), 0
    for role in ROLES:
        own_bases = [base for base in everything if base[0] == role]
        for k, (_, table, network, event, own) in enumerate(own_bases):
            whole = {"plan": (3, 3, 3), "table": table, "network": network, "event": event}
            label = "%s kind %d" % (role, event[0])
            if role == LEADER:
                whole["summary"] = true_summary((3, 3, 3), table)
            twice(label, role, number=0, **whole)
            by_number = {}
            lengths = length_damages("table") + length_damages("network")
            contents = contents_damages(role) + slot_damages(5, "network") + (summary_damages() if role == LEADER else [])
            for number, damage in plan_damages() + lengths + contents + event_damages(role, event[0]) + own:
                by_number.setdefault(number, []).append(damage)
            for number, damages in by_number.items():
                # the damages that suit every call are dealt out among the calls of the role
                for damage in damages[k::len(own_bases)] if number <= 7 else damages:
                    call(label + " damaged", role, number=number, **damage(whole))
            for first in by_number:
                for second in by_number:
                    if ROWS.index(first) < ROWS.index(second):
                        a, b = by_number[first], by_number[second]
                        damaged = a[turn % len(a)](b[turn % len(b)](whole))
                        call(label + " damaged twice", role, number=first, **damaged)
                        turn += 1


# ---- Limits ----

def events():
    """Every kind to every role, with who, high and low at and around their limits, at the plan's ends."""
    for plan in ((1, 1, 1), (16, 7, 4), (2, 3, 2)):
        n, a, _ = plan[:3]
        network = slots(7, m1a(n - 1, 1), m1b(n - 1, a - 1, 1), m2a(0, 1, PREPARED), m2b(0, 0, 0, PREPARED), decision(COMMIT),
                        decision(ABORT))
        quorum = range(a // 2 + 1)
        inbox = [m1b(n - 1, x, b) for x in quorum for b in (1, 4)] + [m2b(0, x, 0, ABORTED) for x in quorum]
        tables = {RM: bytes(x % 2 for x in range(n)), ACCEPTOR: bytes(3 * n * a), LEADER: slots(len(inbox) + 2, *inbox)}
        none, past = [(0, 0), (0, 1), (1, 0)], [(0, 6), (0, 7), (1, 0), (1, 4), (255, 255)]
        ballots = [(0, 1), (n - 1, 1), (n - 1, 4), (n, 1), (255, 1), (n - 1, 0), (n - 1, 255)]
        arguments = {0: none, 1: none, 2: [(0, 4), (0, 5), (0, 0)] + past, 3: [(0, 0), (0, 2), (0, 1)] + past,
                     4: [(0, 1), (0, 2), (0, 3), (0, 4)] + past, 5: ballots, 6: ballots, 7: none, 8: none}
        for role in ROLES:
            limit = plan[ROLES.index(role)]
            if n < 16:
                for length in (0, 1, 2, 3, 5, 8):
                    event = (bytes([min(KINDS[role])]) + bytes(7))[:length]
                    call("event of %d bytes" % length, role, plan, tables[role], network, event, 7)
                for kind in sorted({*range(11), 128, 255} - {*KINDS[role]}):
                    call("another kind", role, plan, tables[role], network, other(kind, 0), 7)
            for kind in KINDS[role]:
                for high, low in arguments[kind]:
                    for who in (0, limit - 1):
                        call("event", role, plan, tables[role], network, [kind, who, high, low])
                for who in (limit, 255):
                    call("who past the end", role, plan, tables[role], network, [kind, who, *arguments[kind][0]], 7)


def plans():
    """Plans at their ends, and with numbers past them, with tables of the lengths that they ask for."""
    ends = [(n, a, l) for n in (1, 16) for a in (1, 7) for l in (1, 4)]
    past = [(0, 7, 1), (17, 1, 4), (255, 1, 1), (16, 0, 4), (1, 8, 1), (1, 255, 4), (16, 1, 0), (1, 7, 5), (16, 7, 255),
            (0, 0, 0), (17, 8, 5), (0, 7, 5)]
    for n, a, l in ends + past:
        plan, number = (n, a, l), 0 if (n, a, l) in ends else 1
        last = lambda count: max(0, count - 1)
        call("plan", RM, plan, bytes(n), slots(1), other(0, last(n)), number)
        call("plan", ACCEPTOR, plan, bytes(3 * n * a), slots(2, m2a(0, 0, ABORTED)), reading(3, last(a), 0), number)
        call("plan", LEADER, plan, slots(1), slots(1), proposing(5, last(l), last(n), 8), number)


SECTIONS = [examples, refusals, events, plans]
