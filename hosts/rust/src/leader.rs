//! A leader's host: its inbox, its part of the summary and its network together, and the leader's own call on them.

use crate::answer::outside;
use crate::plan::slots_len;
use crate::{Answer, Event, Plan, Refusal, SLOT, leader_step};

/// A plan and the tables of one leader's host, owned (`Leader<Vec<u8>>`) or borrowed (`Leader<&mut [u8]>`). The leader's
/// number is in its events, and is not kept here: a host makes events with its own number alone.
///
/// After each accepted step, and before the message that it sent leaves, inbox, summary and N are written to disk in one
/// piece, the summary always with its inbox and never newer; docs/HOSTS.md, section 8, has it for each kind. A host that
/// works on a clone drops it where a call is refused.
///
/// ```
/// # #[cfg(all(feature = "deliver", feature = "message"))] {
/// use paxos_commit::{Answer, Event, Leader, Message, Plan, Refusal};
///
/// let plan = Plan { rms: 1, acceptors: 3, leaders: 2, order: 7 };
/// let mut leader = Leader::fresh(plan, 64, 64)?;
/// // From the wire, the 2b of acceptors 0 and 2: prepared at ballot 0.
/// for bytes in [[0x3B, 0, 0, 0, 1, 0, 7], [0x3B, 0, 2, 0, 1, 0, 7]] {
///     assert_eq!(leader.step(Event::Commit { leader: 1 }), Err(Refusal::NotEnabled));
///     let slot = leader.deliver(&bytes)?;
///     assert_eq!(leader.step(Event::Receipt { leader: 1, slot }), Ok(Answer::Quiet));
/// }
/// assert_eq!(leader.summary(), [1]); // a majority: prepared is decided
/// assert_eq!(leader.step(Event::Commit { leader: 1 }), Ok(Answer::Slot(2)));
/// // To the wire, once the tables are on disk:
/// let sent = Message::in_slot(plan, leader.network(), 2)?.write(plan)?;
/// assert_eq!(*sent, [0x30, 1, 0, 7]);
///
/// let kept = leader.clone();
/// assert_eq!(leader.step(Event::Abort { leader: 1 }), Err(Refusal::NotEnabled));
/// assert_eq!(leader.deliver(b"anything"), Err(Refusal::UnknownMap));
/// assert_eq!(leader, kept);
/// # }
/// # Ok::<(), paxos_commit::Refusal>(())
/// ```
///
/// A weight that declines is heard without an acceptor: its own 2a, at ballot 0, is enough to abort.
///
/// ```
/// # #[cfg(feature = "deliver")] {
/// # use paxos_commit::{Answer, Event, Leader, Plan};
/// let mut leader = Leader::fresh(Plan { rms: 2, acceptors: 3, leaders: 1, order: 7 }, 64, 64)?;
/// let slot = leader.deliver(&[0x39, 1, 0, 2, 0, 7])?; // from weight 1: 2a(1, 0, aborted)
/// assert_eq!(leader.step(Event::Receipt { leader: 0, slot }), Ok(Answer::Quiet));
/// assert_eq!(leader.summary(), [0, 2]);
/// assert_eq!(leader.step(Event::Abort { leader: 0 }), Ok(Answer::Slot(1)));
/// # }
/// # Ok::<(), paxos_commit::Refusal>(())
/// ```
#[derive(Clone, Debug, PartialEq, Eq, Hash)]
pub struct Leader<T = Vec<u8>> {
    plan: Plan,
    inbox: T,
    summary: T,
    network: T,
}

impl Leader {
    /// A leader at the start of its order, all zeros, with so many slots in its network and in its inbox, at most 1,024: N's
    /// count first, as in `Record::fresh`.
    /// It refuses `BadPlan` and `BadLengths`.
    ///
    /// ```
    /// # use paxos_commit::{Leader, Plan, Refusal};
    /// assert_eq!(Leader::fresh(Plan { rms: 17, acceptors: 1, leaders: 1, order: 0 }, 8, 8), Err(Refusal::BadPlan));
    /// assert_eq!(Leader::fresh(Plan { rms: 16, acceptors: 1, leaders: 1, order: 0 }, 8, 1025), Err(Refusal::BadLengths));
    /// ```
    pub fn fresh(plan: Plan, network_slots: usize, inbox_slots: usize) -> Result<Leader, Refusal> {
        // No more than one slot over the limit, so that a count from anywhere takes no memory before it is refused.
        let most = crate::MAX_SLOTS + 1;
        let mut leader = Leader::of(
            plan,
            vec![0; slots_len(inbox_slots.min(most))],
            vec![0; plan.leader_summary_len()],
            vec![0; slots_len(network_slots.min(most))],
        );
        // No call opens a leader. Its step judges plan and tables before the event, and no bytes are no event.
        match leader.step_bytes(&[]) {
            Err(Refusal::BadEvent) => Ok(leader),
            Err(refusal) => Err(refusal),
            Ok(_) => outside(),
        }
    }
}

impl<T: AsRef<[u8]> + AsMut<[u8]>> Leader<T> {
    /// A leader on tables as they are, for instance as they were kept on disk. Nothing is looked at here: each step
    /// judges all three tables.
    pub const fn of(plan: Plan, inbox: T, summary: T, network: T) -> Leader<T> {
        Leader { plan, inbox, summary, network }
    }

    /// The leader's own call, [`leader_step`]. An event of another role is refused with `BadEvent`.
    #[inline]
    pub fn step(&mut self, event: Event) -> Result<Answer, Refusal> {
        self.step_bytes(&event.bytes())
    }

    /// The leader's own call on any bytes.
    #[inline]
    pub fn step_bytes(&mut self, event: &[u8]) -> Result<Answer, Refusal> {
        leader_step(self.plan, self.inbox.as_mut(), self.summary.as_mut(), self.network.as_mut(), event)
    }

    /// Puts what came from the wire into N, [`deliver`](crate::deliver): the answer is the slot that
    /// [`Event::Receipt`] names.
    #[cfg(feature = "deliver")]
    #[inline]
    pub fn deliver(&mut self, bytes: &[u8]) -> Result<u16, Refusal> {
        crate::deliver(self.plan, self.network.as_mut(), bytes)
    }

    /// The plan that each call is given.
    pub const fn plan(&self) -> Plan {
        self.plan
    }

    /// This leader's inbox: slots of eight bytes.
    pub fn inbox(&self) -> &[u8] {
        self.inbox.as_ref()
    }

    /// This leader's part of the summary: a byte for each instance. It has the bit
    /// [`Value::Prepared`](crate::Value::Prepared), 1, where the inbox decides prepared for the instance, and the bit
    /// [`Value::Aborted`](crate::Value::Aborted), 2, where it decides aborted or has the weight's own 2a for aborted, at
    /// ballot 0; so this bit does not say that a majority has voted. This holds where the tables began as zeros.
    pub fn summary(&self) -> &[u8] {
        self.summary.as_ref()
    }

    /// N, this host's own: slots of eight bytes.
    pub fn network(&self) -> &[u8] {
        self.network.as_ref()
    }

    /// The eight bytes of a slot of N, in an N that the calls made a message followed by zeros, or eight zeros; `None` beyond N.
    pub fn slot(&self, slot: u16) -> Option<[u8; SLOT]> {
        self.network().as_chunks().0.get(usize::from(slot)).copied()
    }

    /// The inbox, the summary and N. Where the inbox or N is full, put zeros after it, in whole slots, and go on
    /// [`of`](Leader::of) the three.
    pub fn into_tables(self) -> [T; 3] {
        [self.inbox, self.summary, self.network]
    }
}
