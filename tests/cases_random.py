"""Random calls of the role steps, from fixed seeds: histories of a record from its opening, and calls on random tables."""

import random

from calls import call, decision, m1a, m1b, m2a, m2b, other, proposing, reading, slots
from model import (
    ACCEPTOR,
    COMMITTED,
    KINDS,
    LEADER,
    RM,
    RM_ABORTED,
    ROLES,
    Plan,
    event_call,
    leader_tables,
    messages,
    open_record,
    owner,
    role_of,
    set_bytes,
    takes,
    zeros,
)


def candidates(plan, network):
    """The events that a history may try: every slot, every instance and the first ballots."""
    n, a, l = plan[:3]
    for kind, count in ((0, n), (1, n), (7, l), (8, l)):
        yield from (other(kind, x) for x in range(count))
    for kind, count in ((2, n), (3, a), (4, l)):
        yield from (reading(kind, x, slot) for slot in range(len(messages(network)) + 1) for x in range(count))
    for kind in (5, 6):
        yield from (proposing(kind, x, i, b) for x in range(l) for i in range(n) for b in range(1, max(5, 2 * l)))


def next_event(rng, plan, record):
    """Mostly an event that changes something; else a late message, which an acceptor refuses, or any that repeats or is refused."""
    changing, late, rest = [], [], []
    for event in candidates(plan, record.network):
        outcome = event_call(plan, record, event)
        changes = outcome[0] == 0 and outcome[2] != record
        (changing if changes else late if event[0] == 3 and outcome == (12,) else rest).append(event)
    turn = rng.random()
    pool = changing if changing and turn < 0.7 else late if late and turn < 0.8 else rest
    # the kind first: the events that name a slot are many
    kind = rng.choice(sorted({event[0] for event in pool}))
    return rng.choice([event for event in pool if event[0] == kind])


def call_role(label, plan, record, event):
    """The event as its role's own call, which has to answer and store what the event call does: the record after it."""
    role, who = role_of(event[0]), event[1]
    def lent(record):
        """The role's table and its summary."""
        return {RM: (record.states, b""), ACCEPTOR: (record.votes, b""), LEADER: leader_tables(plan, record, who)}[role]
    table, summary = lent(record)
    outcome = call(label, role, plan, table, record.network, event, summary=summary)
    whole = event_call(plan, record, event)
    assert outcome[:2] == whole[:2]
    if outcome[0] != 0:
        return record
    assert outcome[2:] == (*lent(whole[2]), whole[2].network)
    return whole[2]


def histories():
    """Lists of events on an opened record, up to four leaders; no call answers 11, and no two weights decide differently."""
    rng = random.Random(1)
    for counts, network_slots, inbox_slots, length in (
            ((1, 1, 1), 6, 4, 25), ((2, 1, 1), 9, 6, 30), ((1, 3, 2), 14, 8, 50), ((2, 3, 1), 18, 12, 50),
            ((1, 4, 3), 16, 9, 45), ((3, 2, 2), 20, 14, 60), ((1, 3, 4), 18, 8, 50), ((2, 3, 4), 20, 9, 60)):
        plan = Plan(*counts)
        _, record = open_record(plan, zeros(plan, network_slots, inbox_slots))
        for _ in range(length):
            event = next_event(rng, plan, record)
            assert event_call(plan, record, event) != (11,)
            record = call_role("history under %d %d %d" % plan[:3], plan, record, event)
            assert not {COMMITTED, RM_ABORTED} <= set(record.states)


def random_message(rng, plan):
    n, a, _ = plan[:3]
    i, x, b, v = rng.randrange(n), rng.randrange(a), rng.choice((1, 1, 2, 3, 4)), rng.choice((1, 2))
    return rng.choice((m1a(i, b), m1b(i, x, b), m1b(i, x, b, (rng.randrange(3), v)), m2a(i, b - 1, v), m2b(i, x, b - 1, v),
                       m2b(i, x, b - 1, v), decision(v)))


def random_slots(rng, plan, most):
    used = [random_message(rng, plan) for _ in range(rng.randint(0, most))]
    return slots(len(used) + rng.choice((0, 0, 1, 2)), *used)


def random_event(rng, plan, role, network):
    kind, who = rng.choice(sorted(KINDS[role])), rng.randrange(plan[ROLES.index(role)])
    if kind in (2, 3, 4):
        places = [k for k, m in enumerate(messages(network)) if takes(kind, m)]
        return reading(kind, who, rng.choice(places) if places and rng.random() < 0.9 else rng.randrange(10))
    if kind in (5, 6):
        owned = [b for b in range(1, 9) if owner(Plan(*plan), b) == who]
        return proposing(kind, who, rng.randrange(plan[0]), rng.choice(owned + [rng.randrange(9)]))
    return other(kind, who)


def random_calls():
    """Random sound tables, also such as no list of calls leads to; now and then one byte is changed. Half of the summaries say something else
    than the inbox."""
    rng, marks = random.Random(2), random.Random(3)
    for _ in range(300):
        plan = n, a, _ = rng.choice((1, 1, 2, 3)), rng.randint(1, 4), rng.randint(1, 3)
        role = rng.choice((RM, ACCEPTOR, LEADER, LEADER, LEADER))
        network = random_slots(rng, plan, 8)
        votes = ((0, 0), (0, 1), (1, 2), (2, 1))
        table = {RM: bytes(rng.randrange(4) for _ in range(n)),
                 ACCEPTOR: bytes(x for _ in range(n * a) for x in (rng.randrange(4), *rng.choice(votes))),
                 LEADER: random_slots(rng, plan, 10)}[role]
        parts = [table, network, random_event(rng, plan, role, network)]
        part = rng.randrange(3)
        if parts[part] and rng.random() < 0.15:
            parts[part] = set_bytes(parts[part], rng.randrange(len(parts[part])), [rng.choice((0, 1, 2, 3, 255))])
        summary = None
        if role == LEADER and marks.random() < 0.5:
            summary = bytes(marks.choice((0, 1, 2, 3, 3, 4) if marks.random() < 0.05 else range(4)) for _ in range(n))
        call("random", role, plan, *parts, summary=summary)


SECTIONS = [histories, random_calls]
