//! The plan of an order, the sizes of its tables, and a weight's states.

use core::ops::Range;

/// The bytes of a slot.
pub const SLOT: usize = 8;

/// The most slots that the network or one inbox may have.
pub const MAX_SLOTS: usize = 1024;

/// The bytes of so many slots: the length of a network, or of one inbox.
pub const fn slots_len(slots: usize) -> usize {
    slots.saturating_mul(SLOT)
}

/// The counts of an order, each numbered from 0, and the order's number. All calls on a record are given the plan that
/// it was opened with: the tables do not keep it. A plan out of range is no error of the caller: every call refuses it
/// with [`Refusal::BadPlan`](crate::Refusal::BadPlan).
#[derive(Clone, Copy, Debug, PartialEq, Eq, Hash)]
pub struct Plan {
    /// Resource managers (document 01: weights), 1 to 16.
    pub rms: u8,
    /// Acceptors, 1 to 7.
    pub acceptors: u8,
    /// Leaders, 1 to 4.
    pub leaders: u8,
    /// The order's number, which stands in each of its messages. Orders that share a link have different ones; none is
    /// out of range.
    pub order: u16,
}

impl Plan {
    /// The length of W, the states: a byte for each weight.
    pub const fn states_len(self) -> usize {
        self.rms as usize
    }

    /// The length of Q, the votes: three bytes for each instance and acceptor.
    pub const fn votes_len(self) -> usize {
        3 * self.rms as usize * self.acceptors as usize
    }

    /// The length of I, the inboxes, with so many slots in each.
    pub const fn inboxes_len(self, slots: usize) -> usize {
        slots_len(slots).saturating_mul(self.leaders as usize)
    }

    /// Where leader `leader`'s inbox stands in inboxes of this length; `None` for a number that is no leader's.
    pub const fn inbox_range(self, inboxes_len: usize, leader: u8) -> Option<Range<usize>> {
        if leader >= self.leaders {
            return None;
        }
        let len = inboxes_len / self.leaders as usize;
        let from = leader as usize * len;
        Some(from..from + len)
    }

    /// The length of the summary: a byte for each leader and instance.
    pub const fn summary_len(self) -> usize {
        self.rms as usize * self.leaders as usize
    }

    /// The length of a leader's part of the summary, which its own call is lent: a byte for each instance.
    pub const fn leader_summary_len(self) -> usize {
        self.rms as usize
    }

    /// Where leader `leader`'s part of the summary stands; `None` for a number that is no leader's.
    pub const fn summary_range(self, leader: u8) -> Option<Range<usize>> {
        if leader >= self.leaders {
            return None;
        }
        let from = leader as usize * self.rms as usize;
        Some(from..from + self.rms as usize)
    }

    /// Where mbal, bal and val of an acceptor for an instance stand in Q; `None` outside the plan.
    pub const fn vote_range(self, ins: u8, acceptor: u8) -> Option<Range<usize>> {
        if ins >= self.rms || acceptor >= self.acceptors {
            return None;
        }
        let from = 3 * (ins as usize * self.acceptors as usize + acceptor as usize);
        Some(from..from + 3)
    }

    /// The leader that owns a ballot, by turns from leader 0 at ballot 1: kinds 5 and 6 are refused to the others with
    /// [`Refusal::NotOwned`](crate::Refusal::NotOwned). None owns ballot 0, which is the weights' own.
    pub const fn owner(self, ballot: u8) -> Option<u8> {
        if ballot == 0 || self.leaders == 0 {
            return None;
        }
        Some((ballot - 1) % self.leaders)
    }

    /// Whether a leader owns a ballot.
    pub const fn owns(self, leader: u8, ballot: u8) -> bool {
        matches!(self.owner(ballot), Some(owner) if owner == leader)
    }

    /// The ballot that a leader begins with, its number plus one; `None` for a number that is no leader's.
    pub const fn first_ballot(self, leader: u8) -> Option<u8> {
        self.next_ballot(leader, 0)
    }

    /// The lowest ballot above `ballot` that a leader owns, with which it goes on when it has heard of `ballot`. `None`
    /// where there is none up to 255, and for a number that is no leader's.
    ///
    /// ```
    /// # use paxos_commit::Plan;
    /// let plan = Plan { rms: 2, acceptors: 3, leaders: 2, order: 0 };
    /// assert_eq!((plan.first_ballot(0), plan.first_ballot(1), plan.first_ballot(2)), (Some(1), Some(2), None));
    /// assert_eq!((plan.next_ballot(0, 4), plan.next_ballot(0, 5)), (Some(5), Some(7)));
    /// assert_eq!((plan.next_ballot(0, 254), plan.next_ballot(1, 254)), (Some(255), None));
    /// assert!(plan.owns(0, 5) && !plan.owns(1, 5) && plan.owner(0).is_none());
    /// ```
    pub const fn next_ballot(self, leader: u8, ballot: u8) -> Option<u8> {
        if leader >= self.leaders {
            return None;
        }
        // The ballots up to `ballot` that are this leader's, each `leaders` after the one before.
        let turns = (ballot as u32 + (self.leaders - 1 - leader) as u32) / self.leaders as u32;
        let next = leader as u32 + 1 + turns * self.leaders as u32;
        if next <= u8::MAX as u32 { Some(next as u8) } else { None }
    }
}

/// The state of a weight, a byte of W.
#[derive(Clone, Copy, Debug, PartialEq, Eq, Hash)]
#[repr(u8)]
pub enum State {
    /// It has neither prepared nor chosen to abort.
    Working = 0,
    /// It is ready for either decision.
    Prepared = 1,
    /// It is activated.
    Committed = 2,
    /// It is not, and never will be.
    Aborted = 3,
}

impl State {
    /// The state that a byte of W is; `None` for a byte above 3, which no call stores.
    pub const fn from_byte(byte: u8) -> Option<State> {
        match byte {
            0 => Some(State::Working),
            1 => Some(State::Prepared),
            2 => Some(State::Committed),
            3 => Some(State::Aborted),
            _ => None,
        }
    }
}
