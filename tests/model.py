"""A model of documents 01 and 02, written from their text alone: the plan, the messages with reader and writer, the tables, the nine
events, the three role calls, the record (opening, the event call and the list call), and the rehearsal. It shares nothing with the crates.

    read, write                         the reader and the writer
    role_call                           the step of a resource manager, an acceptor or a leader as a call by itself
    open_record, event_call, run_call   the record's three calls
    takes                               whether an event of kind 2, 3 or 4 takes a message
    standing                            what each byte of a summary is to say of its inbox (document 02, Papers 5 and 6)
    rehearse                            what the rehearsal prints

A resource manager is document 01's weight. A call gives a tuple: 0, then what is accepted, or the refusal's number alone.
Tables are `bytes`; a refused call gives none, since they keep every byte. docs/DECISIONS.md says how open points are read.
Where the summary is None, the calls are those without one: row 20 is left out, and kinds 7 and 8 ask the inbox.
"""

from functools import lru_cache
from typing import NamedTuple, Optional


ORDER = 0x0102                    # the order number, where a case names none


class Plan(NamedTuple):
    """How many resource managers (n), acceptors (A) and leaders (L), and the order number."""
    rms: int
    acceptors: int
    leaders: int
    order: int = ORDER


def plan_bytes(plan):
    """A plan as the programs read it: the counts, and the order number in two bytes, the higher first."""
    plan = Plan(*plan)
    return bytes(plan[:3]) + plan.order.to_bytes(2, "big")


class Refused(Exception):
    """A refusal by its number."""


def refuse_if(test, number):
    if test:
        raise Refused(number)


def call(function):
    """A call answers 0 and what its function gives, or the refusal's number alone."""
    def answer(*arguments):
        try:
            return (0,) + function(*arguments)
        except Refused as refused:
            return refused.args
    return answer


def judge_plan(plan):
    refuse_if(not (1 <= plan.rms <= 16 and 1 <= plan.acceptors <= 7 and 1 <= plan.leaders <= 4), 1)


# ---- Messages (document 01, "Message bytes") ----

SLOT = 8
PREPARED, ABORTED = 1, 2          # values
COMMIT, ABORT = 1, 2              # decisions

# The fields by their bits: bit 0 ins, bit 1 acc, bit 2 mbal, bit 3 bal, bit 4 val. Bit 5 stands always: the order number.
FIELDS = ("ins", "acc", "mbal", "bal", "val")
# The known maps.
MAPS = {0x29: "1a", 0x27: "1b", 0x3F: "1b", 0x39: "2a", 0x3B: "2b", 0x30: "decision"}


class Message(NamedTuple):
    """A message with raw bytes in the fields that it has. A 1b without a vote has neither bal nor val."""
    kind: str
    ins: Optional[int] = None
    acc: Optional[int] = None
    mbal: Optional[int] = None
    bal: Optional[int] = None
    val: Optional[int] = None


def fields_of(map_byte):
    """The fields whose bits stand in the map, in order."""
    return [field for bit, field in enumerate(FIELDS) if map_byte >> bit & 1]


def length_of(map_byte):
    """The bytes of a message with this map: 2 and its ones; 0 for an unknown map (document 02, Paper 3)."""
    return 2 + bin(map_byte).count("1") if map_byte in MAPS else 0


def form(message, order=ORDER):
    """The bytes of a message: its map, then its fields and the order number."""
    has = [bit for bit, field in enumerate(FIELDS) if getattr(message, field) is not None]
    fields = [getattr(message, FIELDS[bit]) for bit in has]
    return bytes([0x20 + sum(1 << bit for bit in has)] + fields) + order.to_bytes(2, "big")


def slot_of(message, order=ORDER):
    """A used slot: a message followed by zeros."""
    return form(message, order) + bytes(SLOT - len(form(message, order)))


@lru_cache(maxsize=65536)
def decode(part):
    """The message that begins with a known map."""
    return Message(MAPS[part[0]], **dict(zip(fields_of(part[0]), part[1:])))


def in_range(plan, m):
    """Row 17 does not apply."""
    return ((m.ins is None or m.ins < plan.rms) and (m.acc is None or m.acc < plan.acceptors)
            and (m.val is None or m.val in (1, 2)) and not (m.kind == "1a" and m.bal == 0))


@call
def read(plan, part):
    """The reader on a slice that is to be exactly one message: the message."""
    judge_plan(plan)
    refuse_if(len(part) == 0 or part[0] not in MAPS, 15)
    refuse_if(len(part) != length_of(part[0]), 16)
    message = decode(part)
    refuse_if(not in_range(plan, message), 17)
    refuse_if(part[-2:] != plan.order.to_bytes(2, "big"), 18)
    return (message,)


@call
def written(plan, message):
    judge_plan(plan)
    refuse_if(not in_range(plan, message), 17)
    return slot_of(message, plan.order), len(form(message, plan.order))


def write(plan, message):
    """The writer: number, eight bytes, length; zeros if it refuses."""
    outcome = written(plan, message)
    return outcome if outcome[0] == 0 else (outcome[0], bytes(SLOT), 0)


# ---- Tables ("The plan and four tables", rows 2 to 6) ----

MAX_SLOTS = 1024
UNUSED = bytes(SLOT)
WORKING, RM_PREPARED, COMMITTED, RM_ABORTED = range(4)


def slots_of(table):
    return [table[at:at + SLOT] for at in range(0, len(table), SLOT)]


def messages(table):
    """The messages of a sound table in their order."""
    return [decode(slot) for slot in slots_of(table) if slot != UNUSED]


def is_slot_table(table):
    """Whole slots, at most 1,024."""
    return len(table) % SLOT == 0 and len(table) // SLOT <= MAX_SLOTS


@lru_cache(maxsize=65536)
def is_readable(plan, slot):
    """A message that the reader takes, with zeros after it."""
    return any(read(plan, slot[:length])[0] == 0 and not any(slot[length:]) for length in range(1, SLOT + 1))


@lru_cache(maxsize=256)
def is_sound(plan, table):
    """Rows 5 and 6: each slot is unused or readable, and the used ones come first."""
    slots = slots_of(table)
    used = slots.index(UNUSED) if UNUSED in slots else len(slots)
    return all(slot == UNUSED for slot in slots[used:]) and all(is_readable(plan, slot) for slot in slots[:used])


def are_states(states):
    """Row 3 does not apply."""
    return all(state <= 3 for state in states)


def are_votes(votes):
    """Row 4 does not apply."""
    cast = [(votes[at + 1], votes[at + 2]) for at in range(0, len(votes), 3)]
    return all(val <= 2 and (val != 0 or bal == 0) for bal, val in cast)


def put(plan, table, message, number):
    """A message appended unless an equal one is there: the first slot where it stands, and the table."""
    slots, slot = slots_of(table), slot_of(message, plan.order)
    if slot not in slots:
        refuse_if(UNUSED not in slots, number)
        slots[slots.index(UNUSED)] = slot
    return slots.index(slot), b"".join(slots)


def is_summary(summary, count):
    """Row 20 does not apply: so many bytes, none above 3."""
    return len(summary) == count and all(byte <= 3 for byte in summary)


def set_bytes(table, at, values):
    """The table with other bytes from a place on."""
    return table[:at] + bytes(values) + table[at + len(values):]


# ---- The nine events: each gives the slot (None for quiet), the role's table and the network ----

class LeaderTables(NamedTuple):
    """What a leader's events work on in place of one table: its inbox, and its n bytes of the summary, or None."""
    inbox: bytes
    summary: Optional[bytes]


def takes(kind, m):
    """Whether an event of kind 2, 3 or 4 takes a message: one that its row names, and a receipt also a 2a at ballot 0 (document 02, Paper 6)."""
    named = {2: ["decision"], 3: ["1a", "2a"], 4: ["1b", "2b"]}
    return m.kind in named[kind] or (kind, m.kind, m.bal) == (4, "2a", 0)


def slot_read(kind, network, high, low):
    """The message in the slot of kinds 2, 3 and 4: rows 8 and 9."""
    slots, place = slots_of(network), 256 * high + low
    refuse_if(place >= len(slots) or slots[place] == UNUSED, 8)
    message = decode(slots[place])
    refuse_if(not takes(kind, message), 9)
    return message


def leave_working(state, value):
    """RMPrepare and RMChooseToAbort."""
    def leaving(plan, states, network, who, high, low):
        refuse_if(states[who] != WORKING, 12)
        slot, network = put(plan, network, Message("2a", ins=who, bal=0, val=value), 13)
        return slot, set_bytes(states, who, [state]), network
    return leaving


def rm_receive(plan, states, network, who, high, low):
    """RMRcvCommitMsg and RMRcvAbortMsg."""
    commit = slot_read(2, network, high, low).val == COMMIT
    refuse_if(states[who] in ((WORKING, RM_ABORTED) if commit else (COMMITTED,)), 11)
    return None, set_bytes(states, who, [COMMITTED if commit else RM_ABORTED]), network


def acceptor_receive(plan, votes, network, who, high, low):
    """Phase1b and Phase2b."""
    m = slot_read(3, network, high, low)
    at = 3 * (m.ins * plan.acceptors + who)
    mbal, bal, val = votes[at:at + 3]
    if m.kind == "1a":
        refuse_if(not mbal < m.bal, 12)
        vote = {"bal": bal, "val": val} if val != 0 else {}
        slot, network = put(plan, network, Message("1b", ins=m.ins, acc=who, mbal=m.bal, **vote), 13)
        return slot, set_bytes(votes, at, [m.bal]), network
    refuse_if(not mbal <= m.bal, 12)
    slot, network = put(plan, network, Message("2b", ins=m.ins, acc=who, bal=m.bal, val=m.val), 13)
    return slot, set_bytes(votes, at, [m.bal, m.bal, m.val]), network


def bit_of(value):
    """The bit of a summary's byte that stands for a value: bit 0 prepared, bit 1 aborted."""
    return 1 << value - 1


def decline(i):
    """The 2a by which resource manager i says that it aborts. Its instance can choose aborted alone (document 001, section 4.2)."""
    return Message("2a", ins=i, bal=0, val=ABORTED)


def marked(plan, tables, m):
    """The summary after a receipt that left this inbox: a 2b of (i, v) sets v's bit of byte i where Decided(i, v) holds now, and a decline sets
    the bit of aborted. Beside a decline a 2b marks by Decided alone."""
    inbox, summary = tables
    marks = m == decline(m.ins) or m.kind == "2b" and is_decided(plan, inbox, m.ins, m.val)
    if summary is None or not marks:
        return summary
    return set_bytes(summary, m.ins, [summary[m.ins] | bit_of(m.val)])


def receipt(plan, tables, network, who, high, low):
    message = slot_read(4, network, high, low)
    _, inbox = put(plan, tables.inbox, message, 14)
    tables = tables._replace(inbox=inbox)
    return None, tables._replace(summary=marked(plan, tables, message)), network


def owner(plan, ballot):
    """The leader that owns the ballot (document 02, Paper 4): leader 0 owns ballot 1. Nobody owns ballot 0."""
    return (ballot - 1) % plan.leaders if ballot > 0 else None


def judge_owned(plan, leader, ballot):
    refuse_if(owner(plan, ballot) != leader, 10)


def is_majority(plan, acceptors):
    return 2 * len(set(acceptors)) > plan.acceptors


def phase1a(plan, tables, network, who, high, low):
    judge_owned(plan, who, low)
    slot, network = put(plan, network, Message("1a", ins=high, bal=low), 13)
    return slot, tables, network


def proposed_value(reports):
    """The value in the 1b with the highest bal, of several the first; 2 where none reports a vote."""
    votes = [m for m in reports if m.val is not None]
    return max(votes, key=lambda m: m.bal).val if votes else ABORTED


def phase2a(plan, tables, network, who, high, low):
    judge_owned(plan, who, low)
    here = messages(tables.inbox)
    refuse_if(any(m.kind == "2a" and (m.ins, m.bal) == (high, low) for m in here), 12)
    reports = [m for m in here if m.kind == "1b" and (m.ins, m.mbal) == (high, low)]
    refuse_if(not is_majority(plan, [m.acc for m in reports]), 12)
    proposal = Message("2a", ins=high, bal=low, val=proposed_value(reports))
    slot, network = put(plan, network, proposal, 13)
    _, inbox = put(plan, tables.inbox, proposal, 14)
    return slot, tables._replace(inbox=inbox), network


def is_decided(plan, inbox, i, v):
    """Decided(i, v)."""
    votes = [m for m in messages(inbox) if m.kind == "2b" and (m.ins, m.val) == (i, v)]
    return any(is_majority(plan, [m.acc for m in votes if m.bal == b]) for b in {m.bal for m in votes})


def standing(plan, inbox):
    """What the inbox says, a byte for each instance: the bits of the values that are Decided, and that of aborted where the decline is there.
    Each ballot's votes are gathered in one pass."""
    voters, said = {}, [0] * plan.rms
    for m in messages(inbox):
        if m.kind == "2b":
            voters.setdefault((m.ins, m.bal, m.val), set()).add(m.acc)
        if m == decline(m.ins):
            said[m.ins] |= bit_of(ABORTED)
    for (i, _, v), acceptors in voters.items():
        if is_majority(plan, acceptors):
            said[i] |= bit_of(v)
    return bytes(said)


def stands(plan, tables, i, v):
    """Whether v stands for i, as kinds 7 and 8 ask: the summary alone says so; without one, the inbox, where v is Decided or, if v is aborted,
    the decline is there."""
    if tables.summary is None:
        return is_decided(plan, tables.inbox, i, v) or v == ABORTED and decline(i) in messages(tables.inbox)
    return tables.summary[i] & bit_of(v) != 0


def decide(quantifier, value):
    """Kind 7 needs value 1 to stand for all i, kind 8 value 2 for some i."""
    def deciding(plan, tables, network, who, high, low):
        refuse_if(not quantifier(stands(plan, tables, i, value) for i in range(plan.rms)), 12)
        slot, network = put(plan, network, Message("decision", val=value), 13)
        return slot, tables, network
    return deciding


RM, ACCEPTOR, LEADER = "rm", "acceptor", "leader"
ROLES = (RM, ACCEPTOR, LEADER)
KINDS = {
    RM: {0: leave_working(RM_PREPARED, PREPARED), 1: leave_working(RM_ABORTED, ABORTED), 2: rm_receive},
    ACCEPTOR: {3: acceptor_receive},
    LEADER: {4: receipt, 5: phase1a, 6: phase2a, 7: decide(all, COMMIT), 8: decide(any, ABORT)},
}


def role_of(kind):
    """The role that a kind belongs to, or None."""
    return next((role for role in ROLES if kind in KINDS[role]), None)


def judge_event(plan, event):
    """Row 7."""
    refuse_if(len(event) != 4, 7)
    kind, who, high, low = event
    refuse_if(role_of(kind) is None or who >= plan[ROLES.index(role_of(kind))], 7)
    refuse_if(kind in (5, 6) and high >= plan.rms, 7)
    refuse_if(kind in (0, 1, 7, 8) and (high, low) != (0, 0), 7)


def act(plan, table, network, event):
    """An event on the table of its role and on N, both judged."""
    kind, who, high, low = event
    return KINDS[role_of(kind)][kind](plan, table, network, who, high, low)


# ---- A role's own call ----

@call
def role_call(role, plan, table, network, event):
    """A role's step by itself: slot or None, the role's table, the network. A leader's table is its LeaderTables."""
    judge_plan(plan)
    own = table.inbox if role == LEADER else table
    allowed = {RM: len(own) == plan.rms, ACCEPTOR: len(own) == 3 * plan.rms * plan.acceptors, LEADER: is_slot_table(own)}
    refuse_if(not (allowed[role] and is_slot_table(network)), 2)
    refuse_if(role == RM and not are_states(own), 3)
    refuse_if(role == ACCEPTOR and not are_votes(own), 4)
    refuse_if(not is_sound(plan, network), 5)
    refuse_if(role == LEADER and not is_sound(plan, own), 6)
    refuse_if(role == LEADER and table.summary is not None and not is_summary(table.summary, plan.rms), 20)
    judge_event(plan, event)
    refuse_if(event[0] not in KINDS[role], 7)
    return act(plan, table, network, event)


# ---- The record: W, Q, N, I and the summary ----

class Record(NamedTuple):
    """W, Q, N, I, and the summary or None."""
    states: bytes
    votes: bytes
    network: bytes
    inboxes: bytes
    summary: Optional[bytes]


def zeros(plan, network_slots, inbox_slots):
    """The tables of a plan with so many slots in N and in each inbox, every byte zero."""
    n, a, l = plan[:3]
    return Record(bytes(n), bytes(3 * n * a), bytes(SLOT * network_slots), bytes(SLOT * inbox_slots * l), bytes(n * l))


def judge_lengths(plan, record):
    """Row 2."""
    whole = SLOT * plan.leaders
    fits = (len(record.states) == plan.rms and len(record.votes) == 3 * plan.rms * plan.acceptors
            and is_slot_table(record.network)
            and len(record.inboxes) % whole == 0 and len(record.inboxes) // whole <= MAX_SLOTS)
    refuse_if(not fits, 2)


@call
def open_record(plan, record):
    """Opening: the record with every byte zero."""
    judge_plan(plan)
    judge_lengths(plan, record)
    refuse_if(len(record.summary) != plan.rms * plan.leaders, 20)
    return (Record(*(bytes(len(table)) for table in record)),)


def inbox_of(plan, record, leader):
    """Where a leader's part of I begins, and the part."""
    size = len(record.inboxes) // plan.leaders
    return leader * size, record.inboxes[leader * size:(leader + 1) * size]


def summary_of(plan, record, leader):
    """A leader's bytes of the summary."""
    return record.summary and record.summary[leader * plan.rms:(leader + 1) * plan.rms]


def leader_tables(plan, record, leader):
    return LeaderTables(inbox_of(plan, record, leader)[1], summary_of(plan, record, leader))


def judge_record(plan, record):
    """Rows 1 to 6."""
    judge_plan(plan)
    judge_lengths(plan, record)
    refuse_if(not are_states(record.states), 3)
    refuse_if(not are_votes(record.votes), 4)
    refuse_if(not is_sound(plan, record.network), 5)
    refuse_if(not all(is_sound(plan, inbox_of(plan, record, leader)[1]) for leader in range(plan.leaders)), 6)


def judge_summary(plan, record):
    """Row 20, of a call that does not open."""
    refuse_if(record.summary is not None and not is_summary(record.summary, plan.rms * plan.leaders), 20)


@call
def event_call(plan, record, event):
    """The event call: slot or None, the record after it."""
    judge_record(plan, record)
    judge_summary(plan, record)
    judge_event(plan, event)
    role, who = role_of(event[0]), event[1]
    if role == RM:
        slot, states, network = act(plan, record.states, record.network, event)
        return slot, record._replace(states=states, network=network)
    if role == ACCEPTOR:
        slot, votes, network = act(plan, record.votes, record.network, event)
        return slot, record._replace(votes=votes, network=network)
    slot, (inbox, summary), network = act(plan, leader_tables(plan, record, who), record.network, event)
    inboxes = set_bytes(record.inboxes, inbox_of(plan, record, who)[0], inbox)
    if summary is not None:
        summary = set_bytes(record.summary, who * plan.rms, summary)
    return slot, record._replace(inboxes=inboxes, summary=summary, network=network)


EVENT = 4                         # bytes of an event


@call
def run_call(plan, record, events, answers):
    """The list call (document 02, Paper 2): the answers, one byte an event, and the record after the last event. They are those of the single
    calls one after the other. A refusal gives neither, since answers and tables keep their bytes."""
    judge_record(plan, record)
    refuse_if(len(events) % EVENT != 0 or len(answers) != len(events) // EVENT, 19)
    judge_summary(plan, record)
    numbers = []
    for at in range(0, len(events), EVENT):
        outcome = event_call(plan, record, events[at:at + EVENT])
        numbers.append(outcome[0])
        record = outcome[2] if outcome[0] == 0 else record
    return bytes(numbers), record


# ---- The rehearsal ----

MAX_EVENTS = 8192


def rehearse(text):
    """What the rehearsal prints for the bytes of its standard input."""
    if len(text) < 5:
        return "1\n"
    plan = Plan(*text[:3], int.from_bytes(text[3:5], "big"))
    outcome = open_record(plan, zeros(plan, MAX_SLOTS, MAX_SLOTS))
    if outcome[0] != 0:
        return "1\n"
    record, lines, events = outcome[1], [], text[5:]
    for at in range(0, min(len(events), 4 * MAX_EVENTS), 4):
        outcome = event_call(plan, record, events[at:at + 4])
        lines.append("%d" % outcome[0])
        record = outcome[2] if outcome[0] == 0 else record
    ends = {frozenset([COMMITTED]): "COMMITTED", frozenset([RM_ABORTED]): "ABORTED"}
    return "\n".join(lines + [ends.get(frozenset(record.states), "OPEN")]) + "\n"
