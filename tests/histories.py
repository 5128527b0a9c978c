"""The histories of the program crates/histories: how a history and its lines are written, and which are chosen.

A history in the file stdin begins with a byte that says how the record begins (0 zeros and opened, 1 given tables and opened, 2 given
tables; 4 more where the tables are not shown at the end), then n, A, L, the order number, and the lengths of W, Q, N, I and the summary. The
order number and lengths are two bytes each, the higher first. Then come the five tables, where they are given: each after its length without
the zeros at its end, which are left out. Last how many calls follow, in two bytes, and the calls:

    SIZE EVENT                  an event call: a byte with the event's length, at most 254, and the event
    255 ROOM LENGTH EVENTS      a list call: the lengths of the answers and of the events' bytes, and these

Every byte of the answers is AA before a list call. The lines in the file stdout:

    open NUMBER DIGEST          the opening: 0 or the refusal
    0 SLOT DIGEST               an accepted event: the slot of N where the sent message stands, or - for quiet
    NUMBER DIGEST               a refused one
    run NUMBER [BYTES] DIGEST   a list: 0 or the refusal of the whole call, and the answers after it in hexadecimal
    [BYTES]                     five lines, W, Q, N, I and the summary at the end, in hexadecimal, without the zeros at the end

The digest is of the five tables after the call, so it shows a byte that a refused call changed: their bytes one after the
other, as a number with the lowest byte first, modulo a prime.
"""

import itertools
import random

from calls import decision, m1a, m1b, m2a, m2b, other, proposing, reading, slots
from cases_random import next_event, random_message
from model import (
    COMMITTED,
    EVENT,
    LEADER,
    RM_ABORTED,
    SLOT,
    Plan,
    Record,
    decode,
    event_call,
    leader_tables,
    open_record,
    owner,
    plan_bytes,
    role_of,
    run_call,
    set_bytes,
    standing,
    takes,
    zeros,
)

PRIME = 4294967291
FRESH, OPENED, GIVEN = 0, 1, 2
NOT_SHOWN = 4
LIST = 255
ANSWER = 0xAA                                           # what each byte of the answers is before a list call; no number

HISTORIES = []


def digest(record):
    return "%08x" % (int.from_bytes(b"".join(record), "little") % PRIME)


def two_bytes(number):
    return number.to_bytes(2, "big")


class History:
    """A history as it is written down: every call is made on the model, and gives the next line."""

    def __init__(self, label, plan, record, mode=FRESH, shown=True):
        self.label, self.mode, self.plan, self.record, self.shown = label, mode, Plan(*plan), record, shown
        self.given, self.calls, self.lines = record, [], []
        self.events, self.numbers = [], []              # of the event calls
        self.lists, self.listed = [], []                # the list calls' numbers, and those of the events in accepted ones
        self.opening = None
        if mode != GIVEN:
            outcome = open_record(self.plan, record)
            self.opening = outcome[0]
            self.record = outcome[1] if outcome[0] == 0 else record
            self.lines.append("open %d %s" % (outcome[0], digest(self.record)))
        HISTORIES.append(self)

    def event(self, event, number=None):
        """One more event call. Where its number is known beforehand, the model has to give it."""
        outcome = event_call(self.plan, self.record, bytes(event))
        self.compare(outcome, event_call, bytes(event))
        assert number in (None, outcome[0]), (self.label, self.plan, self.record, event, outcome, number)
        assert len(event) < LIST
        self.calls.append(bytes([len(event)]) + bytes(event))
        self.events.append(bytes(event))
        self.numbers.append(outcome[0])
        if outcome[0] == 0:
            self.record = outcome[2]
            slot = "-" if outcome[1] is None else outcome[1]
            self.lines.append("0 %s %s" % (slot, digest(self.record)))
        else:
            self.lines.append("%d %s" % (outcome[0], digest(self.record)))
        self.judge([outcome[0]])
        if outcome[0] == 0 and role_of(event[0]) == LEADER:
            self.judge_summary([event[1]])
        return outcome

    def run(self, events, number=None, answers=None, room=None):
        """One more list call, on as many answers as there are events, or on `room`. Where its number or the answers are known beforehand, the
        model has to give them."""
        lent = bytes([ANSWER]) * (len(events) // EVENT if room is None else room)
        outcome = run_call(self.plan, self.record, bytes(events), lent)
        self.compare(outcome, run_call, bytes(events), lent)
        self.calls.append(bytes([LIST]) + two_bytes(len(lent)) + two_bytes(len(events)) + bytes(events))
        self.lists.append(outcome[0])
        if outcome[0] == 0:
            _, lent, self.record = outcome
            self.listed += lent
            self.judge(lent)
            self.judge_summary(range(self.plan.leaders))
        assert number in (None, outcome[0]), (self.label, self.plan, self.record, events, outcome, number)
        assert answers in (None, list(lent)), (self.label, self.plan, self.record, events, outcome, answers)
        self.lines.append("run %d [%s] %s" % (outcome[0], lent.hex(), digest(self.record)))
        return outcome

    def judge(self, numbers):
        """Document 01, demand 3."""
        if self.opening == 0:
            assert 11 not in numbers and not {COMMITTED, RM_ABORTED} <= set(self.record.states)

    def compare(self, outcome, call, *arguments):
        """Document 02, Paper 5: from an opened record answers and four tables are those without a summary."""
        if self.opening == 0:
            without = call(self.plan, self.record._replace(summary=None), *arguments)
            assert without[:2] == outcome[:2], (self.label, self.record, arguments, without, outcome)
            assert outcome[0] != 0 or without[2] == outcome[2]._replace(summary=None), (self.label, self.record, arguments)

    def judge_summary(self, leaders):
        """The same: each byte of these leaders says what its inbox does."""
        for leader in leaders if self.opening == 0 else ():
            inbox, summary = leader_tables(self.plan, self.record, leader)
            assert summary == standing(self.plan, inbox), (self.label, self.record, leader)

    def text(self):
        head = bytes([self.mode + (0 if self.shown else NOT_SHOWN)]) + plan_bytes(self.plan)
        lengths = [two_bytes(len(table)) for table in self.given]
        tables = [] if self.mode == FRESH else [table.rstrip(b"\0") for table in self.given]
        given = [two_bytes(len(table)) + table for table in tables]
        return b"".join([head, *lengths, *given, two_bytes(len(self.calls)), *self.calls])

    def output(self):
        tables = ["[%s]" % table.rstrip(b"\0").hex() for table in self.record] if self.shown else []
        return "".join(line + "\n" for line in self.lines + tables)


# ---- Histories from an opened record ----

def schedules():
    """Mostly events that change something, with late and repeated messages and competing ballots, up to the decision and past it."""
    rng = random.Random(11)
    for plan, network_slots, inbox_slots, length in (
            ((1, 1, 1), 8, 6, 40), ((2, 3, 2), 40, 24, 120), ((1, 5, 4), 40, 20, 100), ((3, 3, 3), 60, 30, 150),
            ((2, 7, 4), 50, 24, 110), ((2, 2, 4), 30, 8, 90), ((4, 1, 1), 20, 10, 70), ((3, 2, 2), 24, 14, 90)):
        history = History("schedule under %d %d %d" % plan[:3], plan, zeros(plan, network_slots, inbox_slots))
        for _ in range(length):
            history.event(next_event(rng, history.plan, history.record))


def quick_event(rng, plan, sent, ballots):
    """An event of any kind; `sent` are the messages in N."""
    n, a, l = plan[:3]
    kind = rng.choices(range(9), (1, 0.3, 2, 9, 9, 3, 3, 0.2, 0.2))[0]
    if kind in (2, 3, 4):
        who = rng.randrange((n, a, l)[kind - 2])
        places = [k for k, m in enumerate(sent) if takes(kind, m)]
        recent = places[-30:] if rng.random() < 0.6 else places
        return reading(kind, who, rng.choice(recent) if recent and rng.random() < 0.95 else rng.randrange(len(sent) + 2))
    if kind in (5, 6):
        ballot = rng.randint(1, ballots)
        return proposing(kind, owner(plan, ballot) if rng.random() < 0.95 else rng.randrange(l), rng.randrange(n), ballot)
    return other(kind, rng.randrange(n if kind < 2 else l))


class Quick:
    """Random events on a history; the messages in N are kept, so that a slot is chosen quickly."""

    def __init__(self, rng, history, ballots):
        self.rng, self.history, self.ballots, self.sent = rng, history, ballots, []

    def make(self, event, number=None):
        outcome = self.history.event(event, number)
        if outcome[0] == 0 and outcome[1] == len(self.sent):
            self.sent.append(decode(self.history.record.network[SLOT * outcome[1]:][:SLOT]))
        return outcome

    def make_any(self, count):
        for _ in range(count):
            self.make(quick_event(self.rng, self.history.plan, self.sent, self.ballots))

    def gather(self, leader):
        """Every vote in N into the inbox of a leader."""
        for slot, m in enumerate(self.sent):
            if m.kind == "2b":
                self.make(reading(4, leader, slot), 0)

    def end(self, leader, kind):
        """The leader decides by kind 7 or 8, every weight takes the decision, and events go on."""
        slot = self.make(other(kind, leader), 0)[1]
        for i in range(self.history.plan.rms):
            self.make(reading(2, i, slot), 0)
        assert set(self.history.record.states) == {COMMITTED if kind == 7 else RM_ABORTED}
        self.make_any(100)


def commits():
    """Every weight prepares and a majority votes for it; then leaders compete, with late and repeated messages. All the same the order
    commits: whichever leader gathers the votes decides Commit."""
    rng = random.Random(17)
    for plan in ((2, 7, 4), (3, 3, 2), (1, 4, 3), (4, 5, 4), (2, 2, 1)):
        n, a, l = plan[:3]
        history = History("commit under %d %d %d" % plan[:3], plan, zeros(plan, 400, 300))
        quick = Quick(rng, history, 12)
        votes = []
        for i in range(n):
            slot = quick.make(other(0, i), 0)[1]
            votes += [(slot, acc) for acc in rng.sample(range(a), a // 2 + 1)]
        rng.shuffle(votes)
        for slot, acc in votes:
            quick.make(reading(3, acc, slot), 0)
        quick.make_any(400)
        leader = rng.randrange(l)
        quick.gather(leader)
        quick.make(other(8, leader), 12)
        quick.end(leader, 7)


def declines():
    """One weight declines and the others prepare; then leaders compete, with late and repeated messages. Whatever was voted for it, no leader
    can decide Commit, and whichever takes the decline decides Abort (document 02, Paper 6)."""
    rng = random.Random(19)
    for plan in ((2, 7, 4), (3, 3, 2), (1, 4, 3)):
        n, _, l = plan
        history = History("decline under %d %d %d" % plan, plan, zeros(plan, 400, 300))
        quick = Quick(rng, history, 12)
        weight = rng.randrange(n)
        said = [quick.make(other(1 if i == weight else 0, i), 0)[1] for i in range(n)]
        quick.make_any(300)
        leader = rng.randrange(l)
        quick.gather(leader)
        quick.make(other(7, leader), 12)
        quick.make(reading(4, leader, said[weight]), 0)
        quick.end(leader, 8)


def long_histories():
    """8,192 events. The first fills N with 1,024 messages of four leaders, seven acceptors and up to 255 ballots; the second fills
    its inboxes and N; the third has one weight, whose order is decided, and everything is repeated. The third has some more: 8,192 is the
    rehearsal's limit, and no call's."""
    rng = random.Random(12)
    for plan, network_slots, inbox_slots, ballots, count in (
            ((16, 7, 4), 1024, 1024, 255, 8192), ((2, 3, 2), 70, 16, 24, 8192), ((1, 3, 2), 40, 30, 3, 8200)):
        history = History("%d events under %d %d %d" % (count, *plan[:3]), plan, zeros(plan, network_slots, inbox_slots))
        Quick(rng, history, ballots).make_any(count)


def small_tables():
    """0 to 3 slots in N, and 0 to 2 in each inbox."""
    rng = random.Random(13)
    for plan in ((1, 1, 1), (2, 3, 2), (1, 2, 4)):
        for network_slots in range(4):
            for inbox_slots in range(3):
                history = History("%d and %d slots" % (network_slots, inbox_slots), plan, zeros(plan, network_slots, inbox_slots))
                for _ in range(25):
                    history.event(next_event(rng, history.plan, history.record))


def junk():
    """Bytes of every length from 0 to 254 between events; and random events, most of them refused."""
    rng = random.Random(14)
    plan = (2, 3, 2)
    history = History("junk of every length", plan, zeros(plan, 40, 24))
    for length in range(LIST):
        event = bytes(rng.choice((0, 0, 1, 2, 3, rng.randrange(256))) for _ in range(length))
        history.event(event, 7 if length != 4 else None)
        history.event(next_event(rng, history.plan, history.record))
    history = History("random bytes", plan, zeros(plan, 40, 24))
    for _ in range(600):
        history.event(bytes([rng.randrange(11), rng.randrange(5), rng.choice((0, 0, 0, 1, 2, 255)), rng.randrange(8)]))


# ---- Opening ----

def openings():
    """Whatever the tables hold is zeroed; a refused opening keeps every byte."""
    rng = random.Random(15)
    plan = n, a, l = 2, 3, 2
    lengths = n, 3 * n * a, SLOT * 5, SLOT * 4 * l, n * l
    def filled(counts):
        return Record(*(bytes(rng.randrange(256) for _ in range(count)) for count in counts))
    for _ in range(3):
        History("opening, sound", plan, filled(lengths), OPENED).event(other(0, 1), 0)
    for table in range(4):
        for change in (-1, 1, 6, -lengths[table]):
            # with a sound summary, one that is too short, and one that is too long: 2 comes before 20
            for more in (0, -1, 1):
                counts = list(lengths)
                counts[table], counts[4] = max(0, counts[table] + change), n * l + more
                history = History("opening, another length", plan, filled(counts), OPENED)
                fits = (counts[2] % SLOT, counts[3] % (SLOT * l), counts[0] - n, counts[1] - 3 * n * a) == (0, 0, 0, 0)
                assert history.opening == (2 if not fits else 20 if more else 0)
                history.event(other(0, 1))
    for count in (0, 1, n, n * l - 1, n * l + 1, n * l * l, 256 + n * l):
        assert History("opening, another summary", plan, filled((*lengths[:4], count)), OPENED).opening == 20
    for over in ((n, 3 * n * a, SLOT * 1025, 0, n * l), (n, 3 * n * a, 0, SLOT * 1025 * l, n * l)):
        assert History("opening, over 1,024 slots", plan, filled(over), OPENED).opening == 2
    for bad in ((0, 3, 2), (17, 3, 2), (2, 0, 2), (2, 8, 2), (2, 3, 0), (2, 3, 5), (255, 255, 255)):
        for counts in (lengths, (1, 2, 3, 4, 5)):
            history = History("opening, bad plan", bad, filled(counts), OPENED)
            assert history.opening == 1
            history.event(other(0, 0), 1)


# ---- Given tables, also such as no list of calls leads to ----

PLAN = Plan(2, 3, 2)
NETWORK = slots(6, m2a(0, 0, 1), m1a(1, 2), m2b(0, 1, 0, 1), decision(1), decision(2))
INBOXES = slots(3, m1b(0, 0, 1), m1b(0, 1, 1, (0, 1))) + slots(3, m1b(1, 2, 2), m2b(0, 0, 0, 1))
SOUND = Record(bytes([1, 0]), bytes([0, 0, 0, 1, 0, 1, 2, 0, 0, 0, 0, 0, 4, 3, 2, 0, 0, 0]), NETWORK, INBOXES, bytes([0, 1, 2, 1]))
GOOD = [other(0, 1), other(1, 1), reading(2, 0, 3), reading(3, 0, 0), reading(4, 1, 2), proposing(5, 1, 0, 4), proposing(6, 0, 0, 1)]
BAD = [b"", b"\0", bytes([9, 0, 0, 0]), bytes([0, 2, 0, 0]), bytes([3, 3, 0, 0]), bytes([4, 2, 0, 0]), bytes([5, 1, 2, 1]),
       bytes([7, 0, 0, 1]), bytes([0, 0, 1, 0]), bytes([0, 0, 0, 0, 0])]


def damages():
    """For each of the numbers 2 to 6, and then 20, tables that it applies to: a function of the tables."""
    def change(table, at, *values):
        return lambda r: r._replace(**{table: set_bytes(getattr(r, table), at, values)})
    def resize(table, count):
        return lambda r: r._replace(**{table: (getattr(r, table) + bytes(SLOT * 1025 * 2))[:count]})
    return {
        2: [resize("states", 1), resize("states", 3), resize("votes", 17), resize("votes", 0), resize("network", SLOT * 6 + 1),
            resize("network", SLOT * 1025), resize("inboxes", SLOT * 3), resize("inboxes", SLOT * 7), resize("inboxes", SLOT * 1025 * 2)],
        3: [change("states", 0, 4), change("states", 1, 255)],
        4: [change("votes", 2, 3), change("votes", 1, 1), change("votes", 17, 255), change("votes", 16, 9)],
        5: [change("network", 0, 0, 0, 0, 0), change("network", SLOT * 6 - 1, 1), change("network", 1, 2), change("network", 6, 7),
            change("network", SLOT * 5, 0x39, 0, 0, 3, 1, 2), change("network", SLOT * 5, 0x20), change("network", SLOT, 0x29, 0, 0),
            change("network", 4, 2), change("network", 5, 1)],
        6: [change("inboxes", 0, 0, 0, 0, 0), change("inboxes", SLOT * 3 - 1, 1), change("inboxes", SLOT * 3, 0x3B, 0, 3, 1, 1, 1, 2),
            change("inboxes", SLOT * 6 - 1, 1), change("inboxes", SLOT * 5, 0x29, 0, 0, 1, 2), change("inboxes", SLOT * 3, 0, 0, 0, 0),
            change("inboxes", 4, 0), change("inboxes", 5, 3)],
        20: [resize("summary", 3), resize("summary", 5), resize("summary", 0), resize("summary", 2), resize("summary", 260),
             change("summary", 0, 4), change("summary", 3, 255), change("summary", 3, 4), change("summary", 1, 128), change("summary", 2, 7)],
    }


def damaged():
    """Each number from 1 to 6, and 20, whatever the event's role is and where it is none (7 comes after 20); each two of them at once, and 7."""
    faults = damages()
    for number, changes in faults.items():
        for k, change in enumerate(changes):
            history = History("damaged, %d" % number, PLAN, change(SOUND), GIVEN)
            for event in GOOD + [BAD[k % len(BAD)]]:
                history.event(event, number)
    rows = list(faults)
    for first, changes in faults.items():
        for second in rows[rows.index(first) + 1:]:
            for change, also in zip(changes, faults[second] * 9):
                record = also(change(SOUND)) if first != 2 else change(also(SOUND))
                History("damaged, %d and %d" % (first, second), PLAN, record, GIVEN).event(GOOD[0], first)
    for bad in ((0, 3, 2), (17, 3, 2), (2, 0, 2), (2, 8, 2), (2, 3, 0), (2, 3, 5)):
        for record in (SOUND, faults[2][0](SOUND), faults[3][0](SOUND), faults[6][0](SOUND), faults[20][0](SOUND)):
            history = History("bad plan", bad, record, GIVEN)
            history.event(GOOD[0], 1)
            history.event(BAD[0], 1)
    history = History("no events", PLAN, SOUND, GIVEN)
    for event in BAD:
        history.event(event, 7)


def later_rows():
    """Numbers 8 to 14, also two of them at once."""
    def with_(**tables):
        return SOUND._replace(**tables)
    def given(label, record, *calls):
        for event, number in calls:
            History(label, PLAN, record, GIVEN).event(event, number)
    full = with_(network=NETWORK[:-SLOT])
    closed = with_(inboxes=INBOXES[:SLOT * 2] + INBOXES[SLOT * 3:SLOT * 5])
    given("8", SOUND, *((reading(kind, 0, slot), 8) for kind in (2, 3, 4) for slot in (5, 6, 256, 65535)))
    given("9", SOUND, (reading(2, 0, 0), 9), (reading(2, 0, 1), 9), (reading(3, 0, 2), 9), (reading(3, 0, 3), 9),
          (reading(4, 0, 1), 9), (reading(4, 0, 4), 9))
    for ballot, value in itertools.product((0, 1, 3, 255), (1, 2)):
        proposed = slots(1, m2a(0, ballot, value))
        given("9 for a 2a from ballot 1 on", with_(network=proposed), *((reading(4, who, 0), 9 if ballot else 0) for who in (0, 1)))
        given("9 and 14", with_(network=proposed, inboxes=closed.inboxes), (reading(4, 0, 0), 9 if ballot else 14))
    given("10", SOUND, *((proposing(kind, who, 0, ballot), 10) for kind in (5, 6) for who, ballot in ((0, 0), (0, 2), (1, 1), (1, 0))))
    for first, second in ((x, y) for x in range(4) for y in range(4)):
        for who, state in enumerate((first, second)):
            given("11", with_(states=bytes([first, second])), (reading(2, who, 3), 11 if state in (0, 3) else 0),
                  (reading(2, who, 4), 11 if state == 2 else 0))
    given("12", SOUND, (other(0, 0), 12), (other(1, 0), 12), (proposing(6, 1, 1, 2), 12), (other(7, 0), 12), (other(8, 0), 12))
    given("13", full, (other(0, 1), 13), (other(1, 1), 13), (proposing(5, 0, 0, 3), 13), (proposing(5, 1, 1, 2), 0))
    given("14", closed, (reading(4, 0, 2), 14), (reading(4, 1, 2), 14))
    # two numbers at once: the lowest
    given("12 and 13", full, (other(0, 0), 12), (other(7, 0), 12), (proposing(6, 1, 1, 2), 12))
    given("10 and 12", SOUND, (proposing(6, 1, 1, 1), 10), (proposing(6, 0, 1, 2), 10))
    given("10 and 13", full, (proposing(5, 1, 0, 3), 10))
    given("9 and 14", closed, (reading(4, 0, 1), 9))
    # Phase2a of leader 1: its inbox is the second part of I
    ready = slots(2, m1b(0, 0, 2), m1b(0, 1, 2, (0, 1)))
    for network, room, number in ((NETWORK, 1, 0), (NETWORK, 0, 14), (full.network, 1, 13), (full.network, 0, 13),
                                  (full.network + m2a(0, 2, 1), 1, 0), (full.network + m2a(0, 2, 1), 0, 14)):
        inboxes = slots(2 + room) + ready + slots(room)
        given("13 and 14", with_(network=network, inboxes=inboxes), (proposing(6, 1, 0, 2), number))


def given_tables():
    """Random sound tables, and random events on them; 11 too."""
    rng = random.Random(16)
    for _ in range(60):
        plan = Plan(rng.choice((1, 2, 3)), rng.randint(1, 4), rng.randint(1, 4))
        n, a, l = plan[:3]
        used = [random_message(rng, plan) for _ in range(rng.randint(0, 10))]
        room = rng.randint(2, 9)
        inboxes = b"".join(slots(room, *(random_message(rng, plan) for _ in range(rng.randint(0, room)))) for _ in range(l))
        votes = bytes(x for _ in range(n * a) for x in (rng.randrange(4), *rng.choice(((0, 0), (0, 1), (1, 2), (2, 1)))))
        # half of the summaries say what the inboxes do
        said = [standing(plan, inboxes[SLOT * room * leader:][:SLOT * room]) for leader in range(l)]
        summary = b"".join(said) if rng.random() < 0.5 else bytes(rng.randrange(4) for _ in range(n * l))
        record = Record(bytes(rng.randrange(4) for _ in range(n)), votes, slots(len(used) + rng.randrange(4), *used), inboxes, summary)
        history = History("given tables", plan, record, GIVEN)
        for _ in range(12):
            history.event(next_event(rng, plan, history.record))


def orders():
    """Document 02, Paper 1: document 01's rehearsal under other order numbers; tables of one order lent under another number, in which every
    message counts as 5, or where N is unused as 6; a fresh record holds no message, and so is any order's."""
    rehearsal = [(other(0, 0), 0), (reading(3, 0, 0), 0), (reading(4, 0, 1), 0), (other(7, 0), 0), (reading(2, 0, 2), 0), (other(1, 0), 12)]
    for order in (0, 1, 255, 256, 0x0201, 65280, 65535):
        plan = Plan(1, 1, 1, order)
        history = History("order %d" % order, plan, zeros(plan, 4, 2))
        for event, number in rehearsal:
            history.event(event, number)
    for order in (0, 0x0103, 0x0202, 0x0201, 0xFFFF):
        history = History("under another number", PLAN._replace(order=order), SOUND, GIVEN)
        for event in GOOD + BAD:
            history.event(event, 5)
        history = History("an inbox under another number", PLAN._replace(order=order), SOUND._replace(network=bytes(len(NETWORK))), GIVEN)
        for event in GOOD + BAD:
            history.event(event, 6)
        fresh = SOUND._replace(network=bytes(len(NETWORK)), inboxes=bytes(len(INBOXES)))
        History("no message under another number", PLAN._replace(order=order), fresh, GIVEN).event(other(0, 1), 0)


# ---- Lists (document 02, Paper 2) ----

def again():
    """Each history above a second time: its whole events as one list, on the record as it began. Answers and tables are the same; what is no
    whole event was refused before and has changed nothing."""
    for history in list(HISTORIES):
        whole = [(event, number) for event, number in zip(history.events, history.numbers) if len(event) == EVENT]
        if whole:
            refused = next((number for _, number in whole if number in (*range(1, 7), 20)), 0)
            answers = [number for _, number in whole] if refused == 0 else [ANSWER] * len(whole)
            list_of = History(history.label + ", as one list", history.plan, history.given, history.mode, shown=False)
            list_of.run(b"".join(event for event, _ in whole), refused, answers)
            assert list_of.record == history.record and list_of.opening == history.opening


NONE = bytes([9, 0, 0, 0])                              # no event: 7
# On the tables SOUND each number that an event of a sound record can be answered with; N and the inbox of leader 0 get full on the way.
MIXED = [
    (reading(4, 0, 2), 0), (NONE, 7), (reading(2, 0, 5), 8), (reading(2, 0, 0), 9), (proposing(5, 1, 0, 1), 10), (reading(2, 1, 3), 11),
    (other(0, 0), 12), (reading(3, 0, 0), 0), (reading(4, 0, 5), 14), (other(0, 1), 13), (reading(2, 0, 3), 0), (reading(2, 0, 4), 11),
    (other(1, 0), 12), (bytes([0, 2, 0, 0]), 7), (reading(2, 0, 3), 0),
]


def joined(pairs):
    """The bytes of a list, and its answers."""
    return b"".join(event for event, _ in pairs), [number for _, number in pairs]


def bad_lists(events):
    """Lists that 19 applies to, each with the length of its answers: cut ones, answers too many or too few, both, and some without an event
    or without an answer."""
    count = len(events) // EVENT
    cut = [(events + bytes(over), count + more) for over in (1, 2, 3) for more in (0, 1, -1)]
    cut += [(events[:-over], count - less) for over in (1, 2, 3) for less in (0, 1)]
    short = [(events[:size], room) for size in (1, 2, 3) for room in (0, 1)]
    rooms = [(events, room) for room in (count + 1, count - 1, 0, len(events))]
    return cut + short + rooms + [(b"", 1)]


# Lengths that would be right if a multiple of 256 were left out.
LONG_LISTS = [(b"", 256), (NONE * 64, 0), (NONE * 65, 1), (NONE * 256, 0), (NONE * 260, 4), (GOOD[0] * 4, 260)]


def refused_lists():
    """19, also where an event of the list is none (7) or would change tables; then the same events as a list, and refused lists after it."""
    events, answers = joined(MIXED)
    history = History("bad lists", PLAN, SOUND, GIVEN)
    for bad, room in bad_lists(events) + bad_lists(NONE) + bad_lists(GOOD[0]) + LONG_LISTS:
        history.run(bad, 19, room=room)
    history.run(events, 0, answers)
    for bad, room in bad_lists(events):
        history.run(bad, 19, room=room)
    history = History("bad lists on an opened record", PLAN, SOUND, OPENED)
    for event in (other(0, 0), other(0, 1)):
        for bad, room in bad_lists(event):
            history.run(bad, 19, room=room)
        history.run(event, 0, [0])


def damaged_lists():
    """1 to 6 and 20 for a list and for an empty one; together with 19 the lower, so that 19 comes before 20."""
    events, _ = joined(MIXED)
    bad = ((events + b"\0", None), (events, 1), (events[:-1], 7), (b"", 1), (b"\0\0\0", None), (NONE + NONE, 3))
    def refused(label, plan, record, number):
        history = History(label, plan, record, GIVEN, shown=False)
        history.run(events, number)
        history.run(b"", number)
        for some, room in bad:
            history.run(some, min(number, 19), room=room)
    for number, changes in damages().items():
        for change in changes:
            refused("a damaged list, %d" % number, PLAN, change(SOUND), number)
    for plan in ((0, 3, 2), (17, 3, 2), (2, 0, 2), (2, 8, 2), (2, 3, 0), (2, 3, 5), (255, 255, 255)):
        for record in (SOUND, damages()[2][0](SOUND), damages()[5][0](SOUND)):
            refused("a list under a bad plan", plan, record, 1)
    refused("a list under another number", PLAN._replace(order=0), SOUND, 5)


def empty_lists():
    """Accepted where 1 to 6 and 20 pass."""
    for plan, network_slots, inbox_slots in (((2, 3, 2), 6, 3), ((1, 1, 1), 0, 0), ((16, 7, 4), 1024, 1024)):
        history = History("an empty list", plan, zeros(plan, network_slots, inbox_slots), shown=False)
        history.run(b"", 0, [])
        history.event(other(0, 0))
        history.run(b"", 0, [])
        history.run(b"", 19, room=1)
    History("an empty list", PLAN, SOUND, GIVEN).run(b"", 0, [])


def mixed_lists():
    """Each number from 7 to 14 within one list; the same events in two lists, in lists of one event, and as event calls with a list after them;
    then all of them once more on what they left. And what is no event (7) at each place of a list."""
    events, answers = joined(MIXED)
    for cuts in ([], *([cut] for cut in range(len(MIXED) + 1)), range(1, len(MIXED))):
        history = History("a mixed list, cut at %s" % list(cuts), PLAN, SOUND, GIVEN, shown=not cuts)
        for begin, end in zip([0, *cuts], [*cuts, len(MIXED)]):
            history.run(events[EVENT * begin:EVENT * end], 0, answers[begin:end])
        history.run(events, 0)
    history = History("a mixed list after event calls", PLAN, SOUND, GIVEN)
    for event, number in MIXED[:8]:
        history.event(event, number)
    history.run(events[EVENT * 8:], 0, answers[8:])
    history.run(events, 0)
    for place in range(len(GOOD) + 1):
        History("no event in a list", PLAN, SOUND, GIVEN, shown=False).run(b"".join(GOOD[:place] + [NONE] + GOOD[place:]), 0)


def lists_between():
    """Lists of 0 to 12 events between event calls on one record, some with a cut one after them. Each event of a list is chosen for the record
    that some of those before it lead to, so that many build on each other, and many come late or again."""
    rng = random.Random(18)
    for plan, network_slots, inbox_slots, count in (
            ((1, 1, 1), 8, 6, 12), ((2, 3, 2), 40, 24, 30), ((3, 3, 3), 60, 30, 20), ((1, 5, 4), 40, 20, 20), ((2, 2, 4), 20, 6, 30)):
        history = History("lists between events under %d %d %d" % plan[:3], plan, zeros(plan, network_slots, inbox_slots))
        for _ in range(count):
            events, ahead = b"", history.record
            for _ in range(rng.randrange(13)):
                event = next_event(rng, history.plan, ahead)
                events += event
                outcome = event_call(history.plan, ahead, event)
                if outcome[0] == 0 and rng.random() < 0.5:
                    ahead = outcome[2]
            history.run(events, 0)
            if rng.random() < 0.5:
                history.run(events + bytes(rng.randint(1, 3)), 19)
            history.event(next_event(rng, history.plan, history.record))


SECTIONS = [schedules, commits, declines, long_histories, small_tables, junk, openings, damaged, later_rows, given_tables, orders,
            again, refused_lists, damaged_lists, empty_lists, mixed_lists, lists_between]


def choose(further):
    """Writes down every history, those of the further sections first; sees that event calls answer each number from 0 to 14 and 20 at least
    twice, list calls each from 0 to 6, 19 and 20, and events in lists 0 and each from 7 to 14."""
    for section in further + SECTIONS:
        section()
    events, lists, listed = counted()
    assert set(events) == {*range(15), 20}, events
    assert set(lists) == {*range(7), 19, 20}, lists
    assert set(listed) == {0, *range(7, 15)}, listed
    assert all(count >= 2 for counts in (events, lists, listed) for count in counts.values())


def counted():
    """How often each number is answered by an event call, by a list call, and to an event of a list."""
    def count(numbers_of):
        answers = [number for history in HISTORIES for number in numbers_of(history)]
        return {number: answers.count(number) for number in sorted(set(answers))}
    return count(lambda history: history.numbers), count(lambda history: history.lists), count(lambda history: history.listed)


def stdin():
    return b"".join(history.text() for history in HISTORIES)


def stdout():
    return "".join(history.output() for history in HISTORIES).encode()
