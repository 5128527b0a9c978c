"""Histories of the summary (document 02, Papers 5 and 6): which receipts mark it, kinds 7 and 8 by it alone, each leader's bytes apart from the
others', an abort that is heard early, and refusal 20 in event calls and in lists. Such openings stand in tests/histories.py, where every
history from an opened record is compared with the calls without a summary, and each byte with its inbox.
"""

import itertools

from calls import decision, m1a, m1b, m2a, m2b, other, proposing, reading, slots
from histories import GIVEN, OPENED, History, joined
from model import ABORTED, EVENT, PREPARED, SLOT, Plan, Record, set_bytes, zeros

PLAN = Plan(2, 3, 2)
# N: votes of three acceptors for weight 0 as prepared at ballot 0; one for it at ballot 2; two for weight 1 as aborted; a promise that reports
# weight 0 as prepared.
NETWORK = slots(10, m2b(0, 0, 0, PREPARED), m2b(0, 1, 0, PREPARED), m2b(0, 2, 0, PREPARED), m2b(0, 2, 2, PREPARED), m2b(1, 0, 1, ABORTED),
                m2b(1, 1, 1, ABORTED), m1b(0, 2, 3, (0, PREPARED)))
# N: at ballot 0 weight 0 says that it is prepared, and weight 1 that it aborts, for which there are two votes; 2a of other ballots; a 1a; Abort.
DECLINED = slots(12, m2a(0, 0, PREPARED), m2a(1, 0, ABORTED), m2b(1, 0, 0, ABORTED), m2b(1, 2, 0, ABORTED), m2a(1, 1, ABORTED),
                 m2a(0, 3, PREPARED), m2a(1, 255, ABORTED), m1a(1, 1), decision(ABORTED))
FULL = bytes([2, 1, 3, 3])


def record_of(summary, inboxes=(), room=4, network=NETWORK):
    """A sound record with so many slots in each inbox; the messages that stand there are given for each leader."""
    parts = [slots(room, *used) for used in inboxes] or [slots(room)] * 2
    return Record(bytes([1, 0]), bytes(18), network, b"".join(parts), bytes(summary))


def take(who, slot):
    return reading(4, who, slot)


def steps(label, record, *events):
    """Event by event from a given record, with the number and the whole summary after each."""
    history = History(label, PLAN, record, GIVEN)
    for event, number, summary in events:
        history.event(event, number)
        assert history.record.summary == bytes(summary), (label, event, history.record)


def marks():
    """Receipts of both leaders. Each leader's bytes follow its own inbox."""
    steps("leader 0 alone", record_of([0] * 4),
          (take(0, 0), 0, [0, 0, 0, 0]), (take(0, 3), 0, [0, 0, 0, 0]), (take(0, 1), 0, [1, 0, 0, 0]), (take(0, 4), 0, [1, 0, 0, 0]),
          (take(0, 5), 14, [1, 0, 0, 0]), (take(0, 0), 0, [1, 0, 0, 0]), (other(7, 0), 12, [1, 0, 0, 0]), (other(8, 0), 12, [1, 0, 0, 0]))
    steps("leader 1 alone", record_of([0] * 4),
          (take(1, 4), 0, [0, 0, 0, 0]), (take(1, 5), 0, [0, 0, 0, 2]), (other(8, 0), 12, [0, 0, 0, 2]), (other(8, 1), 0, [0, 0, 0, 2]),
          (take(1, 6), 0, [0, 0, 0, 2]), (take(1, 0), 0, [0, 0, 0, 2]), (take(1, 1), 14, [0, 0, 0, 2]), (reading(2, 0, 7), 0, [0, 0, 0, 2]))
    steps("both by turns", record_of([0] * 4),
          (take(0, 0), 0, [0, 0, 0, 0]), (take(1, 1), 0, [0, 0, 0, 0]), (take(1, 2), 0, [0, 0, 1, 0]), (take(0, 2), 0, [1, 0, 1, 0]),
          (take(0, 4), 0, [1, 0, 1, 0]), (take(1, 5), 0, [1, 0, 1, 0]), (take(0, 5), 0, [1, 2, 1, 0]), (other(8, 1), 12, [1, 2, 1, 0]),
          (other(8, 0), 0, [1, 2, 1, 0]), (other(7, 0), 12, [1, 2, 1, 0]))
    # bits that no inbox speaks for stay, and a receipt sets its own alone
    steps("another summary", record_of(FULL),
          (take(0, 0), 0, [2, 1, 3, 3]), (take(0, 1), 0, [3, 1, 3, 3]), (other(7, 0), 0, [3, 1, 3, 3]), (take(1, 6), 0, [3, 1, 3, 3]),
          (other(0, 1), 0, [3, 1, 3, 3]), (other(8, 1), 0, [3, 1, 3, 3]), (proposing(5, 1, 0, 2), 13, [3, 1, 3, 3]))
    # the inboxes say more than the summary; a repeated vote and one of another ballot mark, a promise and votes for another weight or the other
    # value do not
    votes = [m2b(0, 0, 0, PREPARED), m2b(0, 1, 0, PREPARED)]
    steps("a summary behind its inboxes", record_of([0] * 4, (votes, votes), 6),
          (other(7, 0), 12, [0] * 4), (take(0, 6), 0, [0] * 4), (take(0, 4), 0, [0] * 4), (take(0, 5), 0, [0, 2, 0, 0]),
          (take(1, 3), 0, [0, 2, 1, 0]), (take(0, 0), 0, [1, 2, 1, 0]), (other(8, 1), 12, [1, 2, 1, 0]))
    steps("the other value is decided", record_of([0] * 4, ([m2b(0, 0, 3, ABORTED), m2b(0, 1, 3, ABORTED)],) * 2),
          (take(1, 0), 0, [0] * 4), (take(1, 2), 0, [0, 0, 1, 0]), (take(0, 3), 0, [0, 0, 1, 0]), (other(8, 1), 12, [0, 0, 1, 0]))
    steps("no room for the vote", record_of([0, 2, 0, 0], (votes, votes), 2),
          (take(0, 3), 14, [0, 2, 0, 0]), (take(1, 2), 14, [0, 2, 0, 0]), (take(1, 1), 0, [0, 2, 1, 0]), (take(0, 5), 14, [0, 2, 1, 0]))
    # the leader's own proposal, and what weights and acceptors do, change no byte
    quorum = [m1b(0, 0, 1), m1b(0, 1, 1)]
    steps("other events", record_of(FULL, (quorum, votes), network=slots(12, m2a(0, 0, PREPARED), m1a(1, 2), decision(PREPARED))),
          (proposing(6, 0, 0, 1), 0, FULL), (proposing(5, 1, 1, 2), 0, FULL), (reading(3, 0, 0), 0, FULL), (reading(3, 2, 1), 0, FULL),
          (other(1, 1), 0, FULL), (reading(2, 0, 2), 0, FULL), (bytes([9, 0, 0, 0]), 7, FULL), (take(1, 3), 9, FULL), (take(1, 11), 8, FULL))


def declines():
    """Document 02, Paper 6: receipts of a 2a at ballot 0. Kind 8 goes by the bit that aborted sets; kind 7 has no regard to it."""
    decline, none = m2a(1, 0, ABORTED), [0] * 4
    steps("a decline alone", record_of(none, network=DECLINED),
          (other(8, 0), 12, none), (take(0, 1), 0, [0, 2, 0, 0]), (other(8, 1), 12, [0, 2, 0, 0]), (other(8, 0), 0, [0, 2, 0, 0]),
          (other(7, 0), 12, [0, 2, 0, 0]), (take(1, 1), 0, [0, 2, 0, 2]), (other(8, 1), 0, [0, 2, 0, 2]))
    steps("a decline among others", record_of(none, network=DECLINED),
          (take(1, 0), 0, none), (other(8, 1), 12, none), (take(1, 2), 0, none), (other(8, 1), 12, none), (take(1, 1), 0, [0, 0, 0, 2]),
          (take(1, 3), 0, [0, 0, 0, 2]), (take(1, 1), 0, [0, 0, 0, 2]), (other(8, 0), 12, [0, 0, 0, 2]), (other(8, 1), 0, [0, 0, 0, 2]))
    steps("9 for other 2a", record_of(FULL, network=DECLINED), *((take(who, slot), 9, FULL) for who in (0, 1) for slot in range(4, 9)))
    # the bit is clear though the 2a is in the inbox: a vote without a majority sets none, the 2a again does, also where there is no room
    steps("a summary behind a decline", record_of(none, ([decline],) * 2, 2, DECLINED),
          (other(8, 0), 12, none), (take(0, 2), 0, none), (take(0, 2), 0, none), (other(8, 0), 12, none), (take(0, 3), 14, none),
          (take(0, 0), 14, none), (take(0, 4), 9, none), (take(0, 1), 0, [0, 2, 0, 0]), (take(1, 0), 0, [0, 2, 0, 0]))
    steps("votes beside a decline", record_of(none, ([decline],) * 2, 3, DECLINED),
          (take(1, 2), 0, none), (take(1, 3), 0, [0, 0, 0, 2]), (take(1, 0), 14, [0, 0, 0, 2]), (other(8, 1), 0, [0, 0, 0, 2]))
    steps("no room for a decline", record_of([0, 1, 2, 0], network=DECLINED, room=0),
          (take(0, 1), 14, [0, 1, 2, 0]), (take(1, 0), 14, [0, 1, 2, 0]), (take(1, 6), 9, [0, 1, 2, 0]), (other(8, 0), 12, [0, 1, 2, 0]))
    steps("kind 7 beside a decline", record_of([1, 1, 1, 0], network=DECLINED),
          (take(0, 1), 0, [1, 3, 1, 0]), (other(7, 0), 0, [1, 3, 1, 0]), (other(8, 0), 0, [1, 3, 1, 0]), (take(1, 1), 0, [1, 3, 1, 2]),
          (other(7, 1), 12, [1, 3, 1, 2]), (take(1, 0), 0, [1, 3, 1, 2]), (other(7, 1), 12, [1, 3, 1, 2]))


def reads():
    """Kinds 7 and 8 of two leaders: every summary of one weight, and many of two, beside inboxes that say nothing and such that say all."""
    def decide(label, plan, record):
        n = plan.rms
        for who in (0, 1):
            own = record.summary[who * n:who * n + n]
            for kind, enabled in ((7, all(x & 1 for x in own)), (8, any(x & 2 for x in own))):
                History(label, plan, record, GIVEN, shown=False).event(other(kind, who), 0 if enabled else 12)
    one = Plan(1, 1, 2)
    inboxes = (slots(4), slots(2, m2b(0, 0, 0, PREPARED), m2b(0, 0, 1, ABORTED)) * 2, slots(2) + slots(2, m2b(0, 0, 0, PREPARED)),
               slots(1, m2a(0, 0, ABORTED)) + slots(1, m2a(0, 0, PREPARED)))
    for summary, inbox in itertools.product(itertools.product(range(4), repeat=2), inboxes):
        decide("one weight by the summary", one, Record(bytes(1), bytes(3), slots(2), inbox, bytes(summary)))
    for own in itertools.product(range(4), repeat=2):
        for rest in (0, 1, 3):
            decide("two weights by the summary", PLAN, record_of([*own, rest, rest]))
            decide("two weights by the summary", PLAN, record_of([rest, rest, *own]))
    most = Plan(16, 7, 4)
    for at in (0, 15, 16, 31, 48, 63):
        for usual, odd in ((1, 0), (0, 2), (3, 2)):
            record = zeros(most, 2, 1)._replace(summary=set_bytes(bytes([usual] * 64), at, [odd]))
            for who, kind in itertools.product(range(4), (7, 8)):
                own = record.summary[16 * who:16 * who + 16]
                enabled = all(x & 1 for x in own) if kind == 7 else any(x & 2 for x in own)
                History("four leaders by the summary", most, record, GIVEN, shown=False).event(other(kind, who), 0 if enabled else 12)


def refused():
    """20 on the tables of every plan's ends: the last byte and each leader's, too short and too long; together with 7 it comes first."""
    for plan in (Plan(1, 1, 1), Plan(16, 7, 4), Plan(3, 2, 4), Plan(1, 3, 4), Plan(16, 1, 1)):
        n, l = plan.rms, plan.leaders
        sound = zeros(plan, 2, 1)._replace(summary=bytes(k % 4 for k in range(n * l)))
        for at in sorted({0, n - 1, n * (l - 1), n * l - 1}):
            for value in (3, 4, 255):
                history = History("byte %d of the summary" % at, plan, sound._replace(summary=set_bytes(sound.summary, at, [value])), GIVEN)
                history.event(b"", 7 if value == 3 else 20)
                history.event(bytes([9, 0, 0, 0]), 7 if value == 3 else 20)
                history.event(other(1, n - 1), 0 if value == 3 else 20)
                history.event(proposing(5, 0, 0, 1), 0 if value == 3 else 20)
        for count in sorted({0, n * l - 1, n * l + 1, 256 + n * l, *({n, n * l - n} if l > 1 else ())}):
            history = History("%d bytes of the summary" % count, plan, sound._replace(summary=bytes(count)), GIVEN)
            for event in (other(1, 0), proposing(5, 0, 0, 1), bytes([9, 0, 0, 0]), bytes(3)):
                history.event(event, 20)


def lists():
    """Lists in which receipts mark and decisions read what they left, also on other summaries; 20 of a whole list, and 19 before it."""
    events = b"".join([take(0, 0), other(7, 0), take(0, 1), other(8, 0), take(0, 4), take(0, 5), other(8, 0), take(1, 0), other(8, 1), take(1, 2),
                       take(1, 5), take(1, 4), other(8, 1), other(7, 1)])
    for room, summary, answers in (
            (4, [0, 0, 0, 0], [0, 12, 0, 12, 0, 0, 0, 0, 12, 0, 0, 0, 0, 12]),
            (4, [0, 1, 2, 1], [0, 12, 0, 12, 0, 0, 0, 0, 0, 0, 0, 0, 0, 0]),
            (3, [0, 0, 3, 0], [0, 12, 0, 12, 0, 14, 12, 0, 0, 0, 0, 14, 0, 12]),
            (1, [0, 2, 0, 1], [0, 12, 14, 0, 14, 14, 0, 0, 12, 14, 14, 14, 12, 12])):
        history = History("a list that marks", PLAN, record_of(summary, room=room), GIVEN)
        history.run(events, 0, answers)
        history.run(events, 0)
        single = History("a list that marks, event by event", PLAN, record_of(summary, room=room), GIVEN)
        for at, number in enumerate(answers):
            single.event(events[EVENT * at:EVENT * at + EVENT], number)
        assert single.record.summary == bytes(history.record.summary) and len(answers) == len(events) // EVENT
    for summary in ([4, 0, 0, 0], [0, 0, 0, 255], [0, 0, 4, 0], [3, 3, 3], [3] * 5, [], [0, 0], [0] * 260):
        history = History("a list with 20", PLAN, record_of(summary), GIVEN)
        history.run(events, 20)
        history.run(b"", 20)
        history.run(bytes([9, 0, 0, 0]) * 2, 20)
        for some, room in ((events[:-1], None), (events, 1), (b"", 1), (events + b"\0", None)):
            history.run(some, 19, room=room)
    record = record_of([0] * 4)
    broken = set_bytes(record.inboxes, SLOT - 1, [1])
    for number, damaged in ((6, record._replace(inboxes=broken)), (2, record._replace(states=bytes(3)))):
        history = History("a list, %d before 19 and 20" % number, PLAN, damaged._replace(summary=bytes(3)), GIVEN)
        history.run(events, number)
        history.run(events[:-1], number)


def opened():
    """A dirty summary is zeroed, so that nothing is decided before votes are received; then it follows them."""
    for summary in ([3, 3, 3, 3], [255, 4, 1, 2], [1, 1, 0, 0]):
        history = History("opened with a dirty summary", PLAN, record_of(summary, room=6), OPENED)
        assert history.record.summary == bytes(4)
        history.event(other(7, 0), 12)
        history.event(other(8, 1), 12)
        for event in (other(0, 0), other(0, 1), *(reading(3, a, slot) for slot in (0, 1) for a in (0, 1)), *(reading(4, 1, k) for k in range(2, 6))):
            history.event(event, 0)
        assert history.record.summary == bytes([0, 0, 1, 1])
        history.event(other(7, 0), 12)
        history.event(other(7, 1), 0)


def declined():
    """From an opened record: weight 1 declines, no acceptor votes, and the order is aborted once a leader hears it. In two lists, cut at each
    place; and with inboxes of one slot, where it is not heard by a leader that took the other 2a before."""
    told = [(other(0, 0), 0), (other(8, 0), 12), (other(1, 1), 0), (take(0, 0), 0), (other(8, 0), 12), (take(0, 1), 0), (other(7, 0), 12),
            (other(8, 1), 12), (other(8, 0), 0), (reading(2, 0, 2), 0), (reading(2, 1, 2), 0), (take(1, 2), 9), (take(1, 1), 0), (other(8, 1), 0)]
    for cut in range(len(told) + 1):
        history = History("a list that declines, cut at %d" % cut, PLAN, zeros(PLAN, 4, 2), shown=cut == 0)
        for part in (told[:cut], told[cut:]):
            events, answers = joined(part)
            history.run(events, 0, answers)
        assert (history.record.states, history.record.summary) == (bytes([3, 3]), bytes([0, 2, 0, 2]))
    history = History("one slot for a decline", PLAN, zeros(PLAN, 4, 1))
    for event, number in ((other(0, 0), 0), (other(1, 1), 0), (take(0, 0), 0), (take(0, 1), 14), (other(8, 0), 12), (take(1, 1), 0),
                          (take(1, 0), 14), (take(1, 1), 0), (other(8, 1), 0), (reading(2, 0, 2), 0)):
        history.event(event, number)


SECTIONS = [marks, declines, reads, refused, lists, opened, declined]
