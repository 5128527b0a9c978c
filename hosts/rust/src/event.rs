//! The nine kinds of events.

/// An event, which [`bytes`](Event::bytes) makes the four bytes of. The calls take any bytes: this type is for a host
/// that makes events itself.
#[derive(Clone, Copy, Debug, PartialEq, Eq, Hash)]
pub enum Event {
    /// Kind 0: weight `rm` prepares, and sends 2a(rm, 0, prepared).
    Prepare {
        /// The weight.
        rm: u8,
    },
    /// Kind 1: weight `rm` chooses to abort: it declines, and sends 2a(rm, 0, aborted). A leader that takes this message
    /// needs no other to abort.
    ChooseToAbort {
        /// The weight.
        rm: u8,
    },
    /// Kind 2: weight `rm` takes the decision in a slot of N. Quiet.
    TakeDecision {
        /// The weight.
        rm: u8,
        /// The slot.
        slot: u16,
    },
    /// Kind 3: an acceptor answers the 1a in a slot of N by a 1b (Phase1b), or the 2a there by its vote, a 2b
    /// (Phase2b).
    Vote {
        /// The acceptor.
        acceptor: u8,
        /// The slot.
        slot: u16,
    },
    /// Kind 4: a leader takes the 1b, the 2b or the 2a at ballot 0 in a slot of N into its inbox. Quiet. A 2b for a value
    /// that the inbox then decides sets that value's bit in its summary, and a 2a for aborted, which is from the weight
    /// itself, that of aborted. Other 2a messages, a leader's, are refused with
    /// [`Refusal::WrongRole`](crate::Refusal::WrongRole).
    Receipt {
        /// The leader.
        leader: u8,
        /// The slot.
        slot: u16,
    },
    /// Kind 5: a leader begins a ballot that it owns for an instance, by a 1a.
    Phase1a {
        /// The leader.
        leader: u8,
        /// The instance.
        ins: u8,
        /// The ballot.
        bal: u8,
    },
    /// Kind 6: a leader proposes at its ballot for an instance, by a 2a, when its inbox has 1b messages of a majority.
    Phase2a {
        /// The leader.
        leader: u8,
        /// The instance.
        ins: u8,
        /// The ballot.
        bal: u8,
    },
    /// Kind 7: a leader sends Commit, when its summary has all instances as prepared.
    Commit {
        /// The leader.
        leader: u8,
    },
    /// Kind 8: a leader sends Abort, when its summary has some instance as aborted.
    Abort {
        /// The leader.
        leader: u8,
    },
}

impl Event {
    /// Kind, who, high, low.
    ///
    /// ```
    /// # use paxos_commit::Event;
    /// assert_eq!(Event::Vote { acceptor: 2, slot: 259 }.bytes(), [3, 2, 1, 3]);
    /// assert_eq!(Event::Phase1a { leader: 1, ins: 4, bal: 9 }.bytes(), [5, 1, 4, 9]);
    /// ```
    pub const fn bytes(self) -> [u8; 4] {
        const fn of_slot(kind: u8, who: u8, slot: u16) -> [u8; 4] {
            let [high, low] = slot.to_be_bytes();
            [kind, who, high, low]
        }
        match self {
            Event::Prepare { rm } => [0, rm, 0, 0],
            Event::ChooseToAbort { rm } => [1, rm, 0, 0],
            Event::TakeDecision { rm, slot } => of_slot(2, rm, slot),
            Event::Vote { acceptor, slot } => of_slot(3, acceptor, slot),
            Event::Receipt { leader, slot } => of_slot(4, leader, slot),
            Event::Phase1a { leader, ins, bal } => [5, leader, ins, bal],
            Event::Phase2a { leader, ins, bal } => [6, leader, ins, bal],
            Event::Commit { leader } => [7, leader, 0, 0],
            Event::Abort { leader } => [8, leader, 0, 0],
        }
    }
}

impl From<Event> for [u8; 4] {
    fn from(event: Event) -> [u8; 4] {
        event.bytes()
    }
}
