"""Calls of the role steps for each role's rules: the states of a resource manager, ballots against an acceptor's, and a
leader's ownership, Phase2a and Decide.
"""

from calls import call, decision, m1a, m1b, m2a, m2b, other, proposing, reading, slots, true_summary, twice
from model import ABORT, ABORTED, ACCEPTOR, COMMIT, LEADER, PREPARED, RM, SLOT, decode, set_bytes, takes


def rm_states():
    """Every state and every event of a resource manager, also among others in other states."""
    network = slots(6, m2a(0, 0, PREPARED), decision(COMMIT), m1b(0, 0, 0, (0, ABORTED)), decision(ABORT))
    for n, i in ((1, 0), (2, 0), (2, 1), (16, 0), (16, 9), (16, 15)):
        for state in range(4):
            states = bytes(state if x == i else (state + 1 + x) % 4 for x in range(n))
            for event in (other(0, i), other(1, i), reading(2, i, 1), reading(2, i, 3)):
                twice("rm state %d" % state, RM, (n, 1, 1), states, network, event)
        for bad in (4, 128):
            call("rm bad state", RM, (n, 1, 1), set_bytes(bytes(n), n - 1 - i, [bad]), network, other(1, i), 3)


def acceptor_ballots():
    """An acceptor's mbal and vote against the ballot of a 1a or a 2a, at one place of Q among others; then at many places."""
    plan = (2, 3, 1)
    around = bytes([7, 3, 1, 200, 0, 2, 0, 0, 0, 255, 255, 1, 1, 0, 0, 4, 4, 2])
    for mbal in (0, 1, 2, 254, 255):
        for bal in (0, 1, 2, 3, 255):
            for turn, vote in enumerate(((0, 0), (0, PREPARED), (1, ABORTED), (255, PREPARED))):
                at = (mbal + bal + turn) % 6
                i, a = divmod(at, 3)
                votes = set_bytes(around, 3 * at, [mbal, *vote])
                if bal > 0:
                    call("1a", ACCEPTOR, plan, votes, slots(2, m1a(i, bal)), reading(3, a, 0), 0 if mbal < bal else 12)
                if turn < 2:
                    network = slots(3, m2a(1 - i, 9, 1), m2a(i, bal, 1 + turn))
                    twice("2a", ACCEPTOR, plan, votes, network, reading(3, a, 1), 0 if mbal <= bal else 12)
    for n, acceptors in ((1, 7), (3, 2), (16, 7)):
        votes = bytes(y for k in range(n * acceptors) for y in (k, k // 2, 1 + k % 2))
        for i in sorted({0, n // 2, n - 1}):
            for a in (0, acceptors - 1):
                for m in (m1a(i, 200), m2a(i, 200, ABORTED)):
                    call("place of Q", ACCEPTOR, (n, acceptors, 1), votes, slots(2, m), reading(3, a, 0), 0)
    for bad in ([0, 0, 3], [5, 5, 255], [5, 1, 0], [255, 255, 0], [0, 255, 4]):
        for at in (0, 9, 15):
            call("bad vote", ACCEPTOR, plan, set_bytes(around, at, bad), slots(2, m2a(1, 9, 1)), reading(3, 1, 0), 4)


def ownership():
    """Each leader of each number of leaders against many ballots, kinds 5 and 6."""
    for l in range(1, 5):
        for who in range(l):
            for b in (0, 1, 2, 3, 4, 5, 6, 7, 12, 254, 255):
                number = 0 if b > 0 and (b - 1) % l == who else 10
                call("ownership", LEADER, (1, 1, l), slots(0), slots(1), proposing(5, who, 0, b), number)
                # kind 6 with a majority, without one, and with its 2a in the inbox already: 10 comes before 12
                disabled = 12 if number == 0 else 10
                for inbox, expected in (([m1b(0, 0, b)], number), ([], disabled), ([m1b(0, 0, b), m2a(0, b, 2)], disabled)):
                    call("ownership", LEADER, (1, 1, l), slots(2, *inbox), slots(1), proposing(6, who, 0, b), expected)


def proposals():
    """Phase2a: majorities, the value, and what else an inbox may hold."""
    for a in range(1, 8):
        for count in range(a + 1):
            quorum = [m1b(0, (3 + x) % a, 6) for x in range(count)]
            repeated = quorum + [m1b(0, 3 % a, 6, (2, PREPARED))] * (count > 0) + quorum[:1]
            for inbox in (quorum, repeated):
                call("%d of %d acceptors" % (count, a), LEADER, (2, a, 2), slots(len(inbox) + 1, *inbox), slots(1),
                     proposing(6, 1, 0, 6), 0 if 2 * count > a else 12)

    # instance 1, ballot 9, three acceptors: the inbox, and the value that is proposed (0: not enabled)
    none = lambda a: m1b(1, a, 9)
    vote = lambda a, b, v: m1b(1, a, 9, (b, v))
    for inbox, value in [
            ([], 0),
            ([none(2)], 0),
            ([none(0), none(1)], 2),
            ([none(0), none(1), none(2)], 2),
            ([none(0), none(0), none(0)], 0),
            # a vote at ballot 0 is a vote
            ([none(0), vote(1, 0, 1)], 1),
            ([vote(0, 0, 2), none(2)], 2),
            # the highest ballot, and not the most reports; of several the first
            ([vote(0, 1, 1), vote(1, 0, 2)], 1),
            ([vote(0, 0, 2), vote(1, 1, 1)], 1),
            ([vote(0, 3, 2), vote(1, 5, 1), vote(2, 4, 2)], 1),
            ([vote(0, 3, 1), vote(1, 5, 2), vote(2, 4, 1)], 2),
            ([vote(2, 8, 1), vote(1, 3, 2), vote(0, 3, 2)], 1),
            ([vote(0, 255, 1), vote(1, 254, 2)], 1),
            ([vote(0, 254, 2), vote(1, 255, 1)], 1),
            ([vote(0, 9, 1), vote(1, 200, 2)], 2),
            ([vote(0, 0, 1), vote(1, 0, 2)], 1),
            ([vote(1, 0, 2), vote(0, 0, 1)], 2),
            ([vote(0, 5, 1), vote(1, 3, 2), vote(2, 5, 2)], 1),
            ([vote(0, 3, 2), vote(1, 5, 2), vote(2, 5, 1)], 2),
            # several reports of one acceptor
            ([vote(0, 0, 2), vote(0, 0, 1), none(1)], 2),
            ([vote(0, 0, 1), vote(0, 1, 2), none(1)], 2),
            ([vote(0, 0, 1), vote(0, 1, 2), none(0)], 0),
            ([none(0), vote(0, 7, 1), none(1)], 1),
            ([vote(1, 1, 2)] * 4 + [none(2)], 2),
            # other instances and ballots
            ([none(0), m1b(0, 1, 9)], 0),
            ([none(0), m1b(1, 1, 8), m1b(1, 2, 10)], 0),
            ([none(0), none(1), m1b(1, 2, 8, (7, 1))], 2),
            ([none(0), none(1), m1b(0, 2, 9, (7, 1))], 2),
            ([m1b(1, 0, 0, (9, 1)), none(0), none(1)], 2),
            # a 2a for (1, 9), and for others
            ([none(0), none(1), m2a(1, 9, 1)], 0),
            ([m2a(1, 9, 2), none(0), none(1)], 0),
            ([none(0), none(1), m2a(1, 8, 1), m2a(0, 9, 1)], 2),
            # a 2a at ballot 0 neither hinders nor reports
            ([m2a(1, 0, 1), none(0), none(1)], 2),
            ([m2a(1, 0, 2), none(0), vote(1, 0, 1)], 1),
            # messages that are no 1b
            ([none(0), none(1), m2b(1, 2, 9, 1)], 2),
            ([none(0), m2b(1, 1, 9, 1), m2b(1, 2, 9, 1)], 0),
            ([m1a(1, 9)] * 3, 0),
            ([m1a(1, 9), decision(1), none(0), none(1)], 2),
            ([decision(2), none(0), m1a(1, 9), vote(2, 0, 1), m2b(1, 0, 0, 2), m2a(1, 0, 1)], 1)]:
        for spare in (0, 2):
            network = slots(2, m2a(1, 9, 3 - value) if value else m1a(1, 9))
            outcome = call("proposal", LEADER, (2, 3, 2), slots(len(inbox) + spare, *inbox), network, proposing(6, 0, 1, 9),
                           12 if value == 0 else 0 if spare else 14)
            if outcome[0] == 0:
                sent, after = m2a(1, 9, value), slots(len(inbox) + spare, *inbox, m2a(1, 9, value))
                assert outcome[1:] == (1, after, true_summary((2, 3, 2), after), network[:SLOT] + sent)


def received(label, plan, who, used):
    """The messages in an inbox of 12 slots: those that a receipt takes are received one by one from N, beginning with a zero summary; the
    others stand there before. The inbox and the summary, which says what the inbox does."""
    here = [m for m in used if not takes(4, decode(m))]
    inbox, summary = slots(12, *here), bytes(plan[0])
    for m in used:
        if m not in here:
            _, _, inbox, summary, _ = call(label + ", received", LEADER, plan, inbox, slots(2, m1a(0, 1), m), reading(4, who, 1), 0, summary)
    assert summary == true_summary(plan, inbox)
    return inbox, summary


def decisions():
    """Decide: majorities by ballot and by value, for all instances (Commit) and for some instance (Abort). The messages are received first, so
    that the summary says what the inbox does."""
    for kind, v in ((7, PREPARED), (8, ABORTED)):
        w, some = 3 - v, 0 if kind == 8 else 12
        for a in range(1, 8):
            for count in range(a + 1):
                quorum = [m2b(0, (5 + x) % a, 3 * a, v) for x in range(count)]
                odd = [m2b(0, a - 1, 3 * a, w), m1b(0, a - 1, 3 * a, (3 * a, v)), m2a(0, 3 * a, v)]
                for used in (quorum, quorum + quorum[:1] + odd):
                    label = "%d of %d votes" % (count, a)
                    inbox, summary = received(label, (1, a, 1), 0, used)
                    call(label, LEADER, (1, a, 1), inbox, slots(1), other(kind, 0), 0 if 2 * count > a else 12, summary)
            call("the other value", LEADER, (1, a, 1), slots(a, *quorum), slots(1), other(15 - kind, 0), 12)

        # three acceptors: instances, the inbox, and the number
        for n, inbox, number in [
                (1, [], 12),
                (1, [m2b(0, 2, 0, v), m2b(0, 1, 0, v)], 0),
                (1, [m2b(0, 2, 255, v), m2b(0, 1, 255, v)], 0),
                (1, [m2b(0, 0, 3, v)] * 3, 12),
                # ballots are not added up
                (1, [m2b(0, 0, 0, v), m2b(0, 1, 3, v)], 12),
                (1, [m2b(0, 0, 0, v), m2b(0, 1, 1, v), m2b(0, 2, 2, v)], 12),
                (1, [m2b(0, 0, 0, v), m2b(0, 1, 1, v), m2b(0, 2, 0, v)], 0),
                # values are not added up
                (1, [m2b(0, 0, 3, v), m2b(0, 1, 3, w)], 12),
                (1, [m2b(0, 0, 1, w), m2b(0, 1, 1, w)], 12),
                (1, [m2b(0, 0, 1, v), m2b(0, 0, 1, w), m2b(0, 1, 1, w)], 12),
                (1, [m2b(0, 0, 1, w), m2b(0, 1, 1, w), m2b(0, 1, 2, v), m2b(0, 2, 2, v)], 0),
                # messages that are no 2b
                (1, [m1b(0, 0, 1, (1, v)), m1b(0, 1, 1, (1, v))], 12),
                (1, [m2a(0, 1, v), decision(v), m1a(0, 1)], 12),
                (1, [decision(w), m2b(0, 0, 1, v), m2a(0, 1, w), m2b(0, 1, 1, v)], 0),
                # a 2a at ballot 0 (document 02, Paper 6): aborted is enough for Abort, and prepared for nothing
                (1, [m2a(0, 0, v)], some),
                (1, [m2a(0, 0, w)], 12),
                (1, [m2a(0, 0, w), m2a(0, 0, v)], some),
                (1, [m2b(0, 1, 0, v), m2a(0, 0, v), m2b(0, 1, 3, v)], some),
                (1, [m2b(0, 1, 4, v), m2a(0, 0, w), m2b(0, 2, 4, v)], 0),
                (1, [m2b(0, 1, 0, w), m2b(0, 2, 0, w), m2a(0, 0, v)], some),
                (2, [m2a(1, 0, v)], some),
                (2, [m2a(1, 0, v), m2a(0, 0, v)], some),
                (3, [m2a(1, 0, w), m1b(0, 0, 1), m2a(2, 0, w)], 12),
                (3, [m2b(0, 0, 0, w), m2b(0, 1, 0, w), m2a(2, 0, v), m1b(1, 0, 1)], some),
                # several instances
                (2, [m2b(0, 0, 1, v), m2b(0, 1, 1, v)], some),
                (2, [m2b(1, 0, 1, v), m2b(1, 1, 1, v)], some),
                (2, [m2b(0, 0, 1, v), m2b(1, 1, 1, v)], 12),
                (2, [m2b(0, 0, 1, v), m2b(0, 1, 1, v), m2b(1, 0, 1, w), m2b(1, 1, 1, w)], some),
                (2, [m2b(0, 0, 1, v), m2b(0, 1, 1, v), m2b(1, 2, 4, v), m2b(1, 1, 4, v)], 0),
                (2, [m2b(1, 0, 1, v), m2b(0, 1, 2, v), m2b(1, 2, 1, v), m2b(0, 2, 2, v), m2b(0, 0, 3, v)], 0),
                (2, [m2b(1, 0, 1, v), m2b(0, 1, 2, v), m2b(1, 2, 2, v), m2b(0, 2, 3, v), m2b(0, 0, 1, v)], 12),
                (3, [m2b(2, 0, 0, v), m2b(2, 1, 0, v)], some),
                (3, [m2b(i, a, 0, v) for i, a in ((0, 0), (0, 1), (1, 0), (1, 1), (2, 0))], some),
                (3, [m2b(i, a, i, v) for a in (2, 0) for i in range(3)], 0)]:
            for who in (0, 1):
                table, summary = received("decide", (n, 3, 2), who, inbox)
                call("decide", LEADER, (n, 3, 2), table, slots(2, decision(w)), other(kind, who), number, summary)

        for a in (1, 7):
            inbox = [m2b(i, (i + x) % a, i, v) for i in range(16) for x in range(a // 2 + 1)]
            call("16 instances", LEADER, (16, a, 4), slots(len(inbox), *inbox), slots(1), other(kind, 3), 0)
            for missing in (0, len(inbox) // 2, len(inbox) - 1):
                fewer = inbox[:missing] + inbox[missing + 1:]
                table = slots(len(inbox), *fewer)
                call("a vote missing", LEADER, (16, a, 4), table, slots(1), other(kind, 3), some)
                network = slots(2, inbox[missing])
                outcome = call("the vote received", LEADER, (16, a, 4), table, network, reading(4, 3, 0), 0)
                call("the vote received", LEADER, (16, a, 4), outcome[2], network, other(kind, 3), 0, outcome[3])


SECTIONS = [rm_states, acceptor_ballots, ownership, proposals, decisions]
