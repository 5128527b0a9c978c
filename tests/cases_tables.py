"""Calls of the role steps for the tables of slots: which are sound, of which lengths, and where a message is found or stored
in them. The network and an inbox are both judged and written by the steps alone.
"""

from calls import WRITTEN, call, decision, m1a, m1b, m2a, m2b, other, proposing, reading, slots, twice
from model import ABORTED, ACCEPTOR, COMMIT, LEADER, MAX_SLOTS, ORDER, PREPARED, RM, SLOT, UNUSED, set_bytes

PLANS = [(1, 1, 1), (16, 7, 4), (5, 3, 2), (2, 6, 3), (16, 1, 4), (1, 7, 1), (0, 3, 2), (17, 3, 2), (5, 0, 2), (5, 8, 2),
         (5, 3, 0), (5, 3, 5), (0, 0, 0), (255, 255, 255)]


def as_network(label, plan, table, number=None):
    """The table as a network beside an inbox of no slots: 10 where it is sound, since nobody owns ballot 0; else 1, 2 or 5."""
    call(label, LEADER, plan, b"", table, proposing(5, 0, 0, 0), number)


def as_inbox(label, plan, table, number=None):
    """The table as an inbox beside a network of no slots: 10 where it is sound; else 1, 2 or 6."""
    call(label, LEADER, plan, table, b"", proposing(5, 0, 0, 0), number)


def as_both(label, plan, table, number=None):
    as_network(label, plan, table, number)
    as_inbox(label, plan, table, number)


def message_at(plan, k):
    """Eighteen messages: all six kinds with their fields at the low end, at the high end and in the middle."""
    n, a, _ = plan[:3]
    map_byte, stage = WRITTEN[k % 6], k // 6 % 3
    fields = [[0, 0, 0, 1 if map_byte == 0x29 else 0, 1], [n - 1, a - 1, 255, 255, 2], [n // 2, a // 2, 7, 3, 2]][stage]
    used = bytes([map_byte] + [x for bit, x in enumerate(fields) if map_byte >> bit & 1]) + ORDER.to_bytes(2, "big")
    return used + bytes(SLOT - len(used))


def one_slot():
    """A slot with each of eighteen messages, each byte set to values at and around the ranges."""
    for plan, judged in (((16, 7, 4), as_network), ((2, 3, 2), as_inbox)):
        n, a, _ = plan[:3]
        for k in range(18):
            message = message_at(plan, k)
            as_both("a message", plan, message, 10)
            for at in range(SLOT):
                for value in (0, 1, 3, n, a, 255):
                    judged("a byte set", plan, set_bytes(message, at, [value]))


def several_slots():
    """Tables of up to five slots, with each byte set to 1 or 255, with each slot cleared, cut at each length, and under good
    and bad plans."""
    plan = (5, 3, 2)
    for count, used, start in ((0, 0, 0), (1, 0, 0), (2, 0, 0), (2, 1, 5), (2, 2, 10), (3, 0, 0), (3, 1, 0), (3, 2, 3), (3, 3, 6),
                               (5, 3, 9), (5, 5, 13)):
        table = slots(count, *(message_at(plan, start + k) for k in range(used)))
        as_both("sound", plan, table, 10)
        for at in range(len(table)):
            as_network("a byte set", plan, set_bytes(table, at, [1 if at % 2 else 255]))
            as_inbox("a byte set", plan, set_bytes(table, at, [255 if at % 2 else 1]))
        for place in range(count):
            as_both("a slot cleared", plan, set_bytes(table, SLOT * place, UNUSED))
            as_both("a message stored", plan, set_bytes(table, SLOT * place, message_at(plan, start + used)))
        for length in range(len(table)):
            as_both("cut", plan, table[:length])
        for other_plan in PLANS:
            as_network("another plan", other_plan, table)


def capacities():
    """Tables of no slots and of 1,025, and slots past the first 256."""
    plan = (1, 1, 1)
    none, more = slots(0), slots(MAX_SLOTS + 1)
    for role, table, event in (
            (RM, bytes(1), other(0, 0)), (ACCEPTOR, bytes(3), reading(3, 0, 0)), (LEADER, none, proposing(5, 0, 0, 1))):
        call("no slots", role, plan, table, none, event, 8 if role == ACCEPTOR else 13)
        call("1,025 slots", role, plan, table, more, event, 2)
    call("1,025 slots", LEADER, plan, more, slots(1), proposing(5, 0, 0, 1), 2)
    call("no slots", LEADER, plan, none, slots(1, m1b(0, 0, 1)), reading(4, 0, 0), 14)
    call("no slots", LEADER, plan, none, none, other(7, 0), 12)
    call("no slots", LEADER, plan, none, none, proposing(6, 0, 0, 1), 12)
    # the message that is wanted at 259, that is 256 × 1 + 3, and at 3 one that is not
    long = [m1a(0, 1 + x % 255) for x in range(262)]
    for message, role, table, kind in ((decision(COMMIT), RM, [1], 2), (m2b(0, 0, 0, ABORTED), LEADER, slots(1), 4)):
        network = slots(262, *long[:259], message, *long[260:])
        call("slot 259", role, plan, table, network, reading(kind, 0, 259), 0)
        call("slot 3", role, plan, table, network, reading(kind, 0, 3), 9)
        call("slot 769", role, plan, table, network, [kind, 0, 3, 1], 8)


def most_slots():
    """1,024 used slots: the last is read, a message is found or there is no room, the last slot is filled or bad."""
    plan = (1, 1, 1)
    network = slots(MAX_SLOTS, *(m2b(0, 0, x // 4, ABORTED) for x in range(1021)), m2a(0, 255, ABORTED), m1a(0, 255),
                    decision(COMMIT))
    for role, table, kind, slot, number in (
            (RM, b"\1", 2, 1023, 0), (ACCEPTOR, bytes(3), 3, 1021, 0), (ACCEPTOR, bytes(3), 3, 1022, 13)):
        call("1,024 used", role, plan, table, network, reading(kind, 0, slot), number)
    inbox, new = network[:-SLOT] + m2b(0, 0, 9, PREPARED), m2b(0, 0, 8, PREPARED)
    call("1,024 in the inbox", LEADER, plan, inbox, inbox[-SLOT:], reading(4, 0, 0), 0)
    call("1,024 in the inbox", LEADER, plan, inbox, new, reading(4, 0, 0), 14)
    call("1,023 in the inbox", LEADER, plan, inbox[:-SLOT] + UNUSED, new, reading(4, 0, 0), 0)
    call("the last slot bad", LEADER, plan, b"", network[:-1] + b"\1", proposing(5, 0, 0, 1), 5)
    call("the last slot bad", LEADER, plan, inbox[:-1] + b"\1", b"", proposing(5, 0, 0, 1), 6)


# Tables for a message, a letter for each slot: m the message, s similar ones, o another, r the one that is read, - unused.
WORDS = ["", "-", "m", "s", "s-", "om-", "smm", "msm-", "sos", "so--", "som", "--"]
WORDS_READ = ["r", "r-", "-r", "rm", "mr", "sr", "sr-", "rsom-", "rsmms", "ssssr--", "rr-", "mmr"]


def filled(word, m, similar, r=None):
    """The table of a word; each s is the next of the similar messages."""
    letters = {"m": m, "o": m1a(0, 9) if m == decision(COMMIT) else decision(COMMIT), "r": r, "-": UNUSED}
    return b"".join(similar[word[:at].count("s") % len(similar)] if x == "s" else letters[x] for at, x in enumerate(word))


def sends():
    """What each kind sends, into networks and inboxes with it, with similar ones, with two of it, full, and of no slots."""
    plan = (3, 3, 2)
    for kind, v in ((0, PREPARED), (1, ABORTED)):
        for i in (0, 2):
            similar = [m2a(i, 0, 3 - v), m2a(i, 1, v), m2a(1, 0, v)]
            for word in WORDS:
                twice("send", RM, plan, [0, 0, 0], filled(word, m2a(i, 0, v), similar), other(kind, i))
    for vote in (None, (0, PREPARED), (0, ABORTED), (2, ABORTED)):
        votes = set_bytes(bytes(27), 15, [2, *(vote or (0, 0))])
        similar = [m1b(1, 1, 3, vote), m1b(1, 2, 2, vote), m1b(1, 2, 3, (1, PREPARED)),
                   m1b(1, 2, 3, None if vote else (0, ABORTED))]
        for word in WORDS_READ:
            network = filled(word, m1b(1, 2, 3, vote), similar, m1a(1, 3))
            twice("send 1b", ACCEPTOR, plan, votes, network, reading(3, 2, word.index("r")))
    for v in (PREPARED, ABORTED):
        similar = [m2b(1, 2, 3, 3 - v), m2b(1, 1, 3, v), m2b(0, 2, 3, v), m2b(1, 2, 2, v)]
        for word in WORDS_READ:
            network = filled(word, m2b(1, 2, 3, v), similar, m2a(1, 3, v))
            twice("send 2b", ACCEPTOR, plan, bytes(27), network, reading(3, 2, word.index("r")))
    for m, *similar in (
            (m1b(1, 2, 3), m1b(1, 1, 3), m1b(1, 2, 3, (0, PREPARED))), (m1b(1, 2, 3), m1b(0, 2, 3), m1b(1, 2, 4)),
            (m2b(1, 2, 3, 1), m2b(1, 2, 3, 2), m2b(1, 2, 2, 1)), (m2b(1, 2, 3, 1), m2b(0, 2, 3, 1), m2b(1, 1, 3, 1)),
            (m2a(1, 0, 1), m2a(1, 0, 2), m2a(0, 0, 1)), (m2a(1, 0, 2), m2a(1, 1, 2), m2a(2, 0, 2), m2b(1, 0, 0, 2)),
            (m1b(1, 2, 3, (0, 1)), m1b(1, 2, 3), m1b(1, 2, 3, (0, 2)), m1b(1, 2, 3, (1, 1))),
            (m1b(1, 2, 3, (0, 1)), m1b(0, 2, 3, (0, 1)), m1b(1, 1, 3, (0, 1)), m1b(1, 2, 4, (0, 1)))):
        for word in WORDS:
            for who, network in ((0, slots(1, m)), (1, slots(4, m1a(0, 1), m, m))):
                twice("receipt", LEADER, plan, filled(word, m, similar), network, reading(4, who, who))
    for i in (0, 2):
        for word in WORDS:
            network = filled(word, m1a(i, 3), [m1a(i, 1), m1a(1, 3), m2a(i, 3, 1)])
            twice("send 1a", LEADER, plan, slots(1, m1a(i, 3)), network, proposing(5, 0, i, 3))
    quorum = m1b(1, 0, 4) + m1b(1, 2, 4, (0, PREPARED))
    for word in WORDS:
        for rest in ("", "-", "s", "so--"):
            inbox = quorum + filled(rest, m2a(1, 4, 1), [m2a(1, 2, 1), m2a(0, 4, 1)])
            network = filled(word, m2a(1, 4, 1), [m2a(1, 4, 2), m2a(1, 2, 1), m2a(0, 4, 1)])
            twice("send 2a", LEADER, plan, inbox, network, proposing(6, 1, 1, 4))
    for kind, v in ((7, PREPARED), (8, ABORTED)):
        inbox = b"".join(m2b(i, a, 0, v) for i in range(3) for a in (0, 1))
        for word in WORDS:
            network = filled(word, decision(v), [decision(3 - v), m2a(0, 0, v)])
            twice("send decision", LEADER, plan, inbox, network, other(kind, 0))


SECTIONS = [one_slot, several_slots, capacities, most_slots, sends]
