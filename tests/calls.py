"""The calls of the program crates/calls: how a call and its line are written, and the words in which the cases choose them.

A call in the file stdin is fourteen bytes and four parts: which call (0 resource manager, 1 acceptor, 2 leader, 3 reader,
4 writer), n, A, L, the order number in two bytes, and the lengths of the four parts, two bytes each, the higher first; then the role's
table, the summary, the network, and the event. Only a leader has a summary. The reader has its slice in place of the event, and no tables;
the writer six bytes, the message's kind (0 1a, 1 and 2 a 1b without and with a vote, 3 2a, 4 2b, 5 decision) and ins, acc, mbal, bal and
val. Its line in the file stdout:

    0 SLOT TABLE SUMMARY NETWORK    a step: the slot of N where the sent message stands, or - for quiet; each table after it in
                                    hexadecimal in brackets, or = where it kept every byte, as a summary of no bytes does
    NUMBER = = =                    a refused step
    KIND FIELD FIELD ..             the reader: the message; a 1b without a vote has - for its vote
    NUMBER                          the reader's refusal
    NUMBER BYTES LENGTH             the writer
"""

from model import (
    FIELDS,
    LEADER,
    ROLES,
    SLOT,
    UNUSED,
    LeaderTables,
    Message,
    Plan,
    decode,
    is_sound,
    plan_bytes,
    read,
    role_call,
    slot_of,
    standing,
    write,
)

READER, WRITER = "reader", "writer"
WRITTEN = [0x29, 0x27, 0x3F, 0x39, 0x3B, 0x30]          # the maps by the number of the writer's message

CALLS = []                                              # what is called, label, number, call in bytes, line
SEEN = set()


def add(what, label, number, plan, parts, line):
    which = [*ROLES, READER, WRITER].index(what)
    lengths = b"".join(len(part).to_bytes(2, "big") for part in parts)
    text = bytes([which]) + plan_bytes(plan) + lengths + b"".join(parts)
    if text not in SEEN:
        SEEN.add(text)
        CALLS.append((what, label, number, text, line))


def shown(table, old):
    return "=" if table == old else "[%s]" % table.hex()


def true_summary(plan, inbox):
    """The summary that says what the inbox says; zeros beside an inbox that is none."""
    plan = Plan(*plan)
    return standing(plan, inbox) if len(inbox) % SLOT == 0 and is_sound(plan, inbox) else bytes(plan.rms)


def call(label, role, plan, table, network, event, number=None, summary=None):
    """One more call of a step: number, slot, the role's table, the summary, the network. Where its number is known beforehand, the model has
    to give it. A leader's summary says what its inbox does, unless one is given; the other roles' has no bytes."""
    table, network, event = bytes(table), bytes(network), bytes(event)
    if summary is None:
        summary = true_summary(plan, table) if role == LEADER else b""
    before = (table, bytes(summary), network)
    outcome = role_call(role, Plan(*plan), LeaderTables(*before[:2]) if role == LEADER else table, network, event)
    assert number in (None, outcome[0]), (label, role, plan, before, event, outcome, number)
    line = "%d = = =" % outcome[0]
    if outcome[0] == 0:
        _, slot, tables, network = outcome
        outcome = (0, slot, *(tables if role == LEADER else (tables, b"")), network)
        line = " ".join(["0", "-" if slot is None else "%d" % slot] + [shown(*both) for both in zip(outcome[2:], before)])
    add(role, label, outcome[0], plan, (*before, event), line)
    return outcome


def twice(label, role, plan, table, network, event, number=None, summary=None):
    """The call, and where it is accepted, the same call again on the tables that it left."""
    outcome = call(label, role, plan, table, network, event, number, summary)
    if outcome[0] == 0:
        _, _, table, summary, network = outcome
        call(label + ", again", role, plan, table, network, event, None, summary)
    return outcome


def call_reader(label, plan, part, number=None):
    outcome = read(Plan(*plan), bytes(part))
    assert number in (None, outcome[0]), (label, plan, part, outcome, number)
    line = "%d" % outcome[0]
    if outcome[0] == 0:
        fields = [getattr(outcome[1], field) for field in FIELDS]
        without = ["-"] if outcome[1].kind == "1b" and outcome[1].val is None else []
        line = " ".join([outcome[1].kind] + ["%d" % x for x in fields if x is not None] + without)
    add(READER, label, outcome[0], plan, (b"", b"", b"", bytes(part)), line)


def call_writer(label, plan, map_byte, fields, number=None):
    """The writer on the message of a map with raw fields, all five given; a message takes those that it has."""
    message = decode(bytes([map_byte] + [x for bit, x in enumerate(fields) if map_byte >> bit & 1]))
    outcome = write(Plan(*plan), message)
    assert number in (None, outcome[0]), (label, plan, message, outcome, number)
    raw = bytes([WRITTEN.index(map_byte), *fields])
    add(WRITER, label, outcome[0], plan, (b"", b"", b"", raw), "%d %s %d" % (outcome[0], outcome[1].hex(), outcome[2]))


# ---- Slots and events ----

def m1a(i, b):
    return slot_of(Message("1a", ins=i, bal=b))


def m1b(i, a, mbal, vote=None):
    bal, val = vote or (None, None)
    return slot_of(Message("1b", ins=i, acc=a, mbal=mbal, bal=bal, val=val))


def m2a(i, b, v):
    return slot_of(Message("2a", ins=i, bal=b, val=v))


def m2b(i, a, b, v):
    return slot_of(Message("2b", ins=i, acc=a, bal=b, val=v))


def decision(v):
    return slot_of(Message("decision", val=v))


def slots(count, *used):
    """A table of so many slots, the first of them used."""
    assert len(used) <= count
    return b"".join(used) + UNUSED * (count - len(used))


def strip(table):
    """The used slots alone, so that the table is full."""
    return b"".join(table[at:at + SLOT] for at in range(0, len(table), SLOT) if any(table[at:at + SLOT]))


def reading(kind, who, slot):
    """An event of kind 2, 3 or 4."""
    return bytes([kind, who, *divmod(slot, 256)])


def proposing(kind, who, i, b):
    """An event of kind 5 or 6."""
    return bytes([kind, who, i, b])


def other(kind, who):
    """An event of kind 0, 1, 7 or 8."""
    return bytes([kind, who, 0, 0])
