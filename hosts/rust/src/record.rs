//! The record: the five tables together, opening them, the event call of all nine kinds, how the order stands, and with the
//! feature `batch` the list call.

use crate::answer::refused;
use crate::plan::slots_len;
use crate::{Answer, Event, Plan, Refusal, SLOT, ffi};

#[cfg(feature = "batch")]
mod list;
#[cfg(feature = "batch")]
pub use list::Answers;

/// Opens a record on lent tables: every byte becomes 0. It refuses `BadPlan`, `BadLengths` and, for the summary's length,
/// `BadSummary`, and looks at nothing else.
#[inline]
pub fn open(
    plan: Plan,
    states: &mut [u8],
    votes: &mut [u8],
    network: &mut [u8],
    inboxes: &mut [u8],
    summary: &mut [u8],
) -> Result<(), Refusal> {
    match ffi::open(plan, states, votes, network, inboxes, summary) {
        0 => Ok(()),
        number => Err(refused(number.into())),
    }
}

/// The event call on lent tables. Refusals: all up to `InboxFull`, and `BadSummary`, which comes after `BadInbox`.
#[inline]
pub fn step(
    plan: Plan,
    states: &mut [u8],
    votes: &mut [u8],
    network: &mut [u8],
    inboxes: &mut [u8],
    summary: &mut [u8],
    event: &[u8],
) -> Result<Answer, Refusal> {
    Answer::of(ffi::step(plan, states, votes, network, inboxes, summary, event))
}

/// How an order stands. Numbered as a [`Decision`](crate::Decision) is.
#[derive(Clone, Copy, Debug, PartialEq, Eq, Hash)]
#[repr(u8)]
pub enum Ending {
    /// 0: neither of the two.
    Open = 0,
    /// 1: all weights are committed.
    Committed = 1,
    /// 2: all weights are aborted.
    Aborted = 2,
}

/// How the order with this W stands.
///
/// Refusals: `BadPlan`, `BadLengths`, `BadStates`.
///
/// ```
/// use paxos_commit::{ending, Ending, Plan, Refusal};
///
/// let plan = Plan { rms: 3, acceptors: 3, leaders: 1, order: 0 };
/// assert_eq!(ending(plan, &[2, 2, 2]), Ok(Ending::Committed));
/// assert_eq!(ending(plan, &[3, 3, 3]), Ok(Ending::Aborted));
/// assert_eq!(ending(plan, &[2, 2, 1]), Ok(Ending::Open));
/// assert_eq!(ending(plan, &[2, 2]), Err(Refusal::BadLengths));
/// assert_eq!(ending(plan, &[2, 2, 4]), Err(Refusal::BadStates));
/// ```
#[inline]
pub fn ending(plan: Plan, states: &[u8]) -> Result<Ending, Refusal> {
    match ffi::ending(plan, states) {
        0 => Ok(Ending::Open),
        1 => Ok(Ending::Committed),
        2 => Ok(Ending::Aborted),
        code => Err(refused(code.wrapping_sub(65536))),
    }
}

/// A plan and the five tables of its record, owned (`Record<Vec<u8>>`) or borrowed (`Record<&mut [u8]>`).
///
/// ```
/// use paxos_commit::{slots_len, Answer, Event, Plan, Record, Refusal};
///
/// let plan = Plan { rms: 3, acceptors: 3, leaders: 2, order: 0 };
/// let slots = slots_len(32) + plan.inboxes_len(16);
/// let mut buffer = vec![0xAA; plan.states_len() + plan.votes_len() + slots + plan.summary_len()];
/// let (states, rest) = buffer.split_at_mut(plan.states_len());
/// let (votes, rest) = rest.split_at_mut(plan.votes_len());
/// let (network, rest) = rest.split_at_mut(slots_len(32));
/// let (inboxes, summary) = rest.split_at_mut(plan.inboxes_len(16));
///
/// let mut record = Record::of(plan, states, votes, network, inboxes, summary);
/// assert_eq!(record.step(Event::Prepare { rm: 2 }), Err(Refusal::BadStates)); // not opened: 0xAA is no state
/// record.open()?;
/// assert_eq!(record.step(Event::Prepare { rm: 2 }), Ok(Answer::Slot(0)));
/// assert_eq!(record.states(), [0, 0, 1]);
/// # Ok::<(), Refusal>(())
/// ```
#[derive(Clone, Debug, PartialEq, Eq, Hash)]
pub struct Record<T = Vec<u8>> {
    plan: Plan,
    states: T,
    votes: T,
    network: T,
    inboxes: T,
    summary: T,
}

impl Record {
    /// An opened record with so many slots in the network and in each inbox, at most 1,024.
    ///
    /// ```
    /// # use paxos_commit::{Plan, Record, Refusal};
    /// assert_eq!(Record::fresh(Plan { rms: 17, acceptors: 1, leaders: 1, order: 0 }, 8, 8), Err(Refusal::BadPlan));
    /// assert_eq!(Record::fresh(Plan { rms: 16, acceptors: 1, leaders: 1, order: 0 }, 1025, 8), Err(Refusal::BadLengths));
    /// ```
    pub fn fresh(plan: Plan, network_slots: usize, inbox_slots: usize) -> Result<Record, Refusal> {
        // No more than one slot over the limit, so that a count from anywhere takes no memory before it is refused.
        let most = crate::MAX_SLOTS + 1;
        let mut record = Record::of(
            plan,
            vec![0; plan.states_len()],
            vec![0; plan.votes_len()],
            vec![0; slots_len(network_slots.min(most))],
            vec![0; plan.inboxes_len(inbox_slots.min(most))],
            vec![0; plan.summary_len()],
        );
        record.open()?;
        Ok(record)
    }
}

impl<T: AsRef<[u8]> + AsMut<[u8]>> Record<T> {
    /// A record on tables as they are, for instance as they were kept on disk. Nothing is looked at here: each step
    /// judges all five tables.
    pub const fn of(plan: Plan, states: T, votes: T, network: T, inboxes: T, summary: T) -> Record<T> {
        Record { plan, states, votes, network, inboxes, summary }
    }

    /// Opens the record: every byte becomes 0, or it refuses `BadPlan`, `BadLengths` or `BadSummary`.
    pub fn open(&mut self) -> Result<(), Refusal> {
        open(
            self.plan,
            self.states.as_mut(),
            self.votes.as_mut(),
            self.network.as_mut(),
            self.inboxes.as_mut(),
            self.summary.as_mut(),
        )
    }

    /// The event call.
    #[inline]
    pub fn step(&mut self, event: Event) -> Result<Answer, Refusal> {
        self.step_bytes(&event.bytes())
    }

    /// The event call on any bytes.
    #[inline]
    pub fn step_bytes(&mut self, event: &[u8]) -> Result<Answer, Refusal> {
        step(
            self.plan,
            self.states.as_mut(),
            self.votes.as_mut(),
            self.network.as_mut(),
            self.inboxes.as_mut(),
            self.summary.as_mut(),
            event,
        )
    }

    /// The plan that each call is given.
    pub const fn plan(&self) -> Plan {
        self.plan
    }

    /// W: a byte for each weight, [`State::from_byte`](crate::State::from_byte).
    pub fn states(&self) -> &[u8] {
        self.states.as_ref()
    }

    /// Q: mbal, bal and val for each instance and acceptor, [`Plan::vote_range`].
    pub fn votes(&self) -> &[u8] {
        self.votes.as_ref()
    }

    /// N: slots of eight bytes.
    pub fn network(&self) -> &[u8] {
        self.network.as_ref()
    }

    /// I: the leaders' inboxes, one after another, [`Plan::inbox_range`].
    pub fn inboxes(&self) -> &[u8] {
        self.inboxes.as_ref()
    }

    /// The summary: a byte for each leader and instance, [`Plan::summary_range`]. It has the bit
    /// [`Value::Prepared`](crate::Value::Prepared), 1, where that leader's inbox decides prepared for the instance, and
    /// the bit [`Value::Aborted`](crate::Value::Aborted), 2, where it decides aborted or has the weight's own 2a for
    /// aborted, at ballot 0: so it is from opening on.
    pub fn summary(&self) -> &[u8] {
        self.summary.as_ref()
    }

    /// The eight bytes of a slot of N: a message followed by zeros, or eight zeros; `None` beyond N.
    pub fn slot(&self, slot: u16) -> Option<[u8; SLOT]> {
        self.network().as_chunks().0.get(usize::from(slot)).copied()
    }

    /// How the order stands; it refuses `BadPlan`, `BadLengths` and `BadStates`.
    #[inline]
    pub fn ending(&self) -> Result<Ending, Refusal> {
        ending(self.plan, self.states())
    }

    /// W, Q, N, I and the summary.
    pub fn into_tables(self) -> [T; 5] {
        [self.states, self.votes, self.network, self.inboxes, self.summary]
    }
}
