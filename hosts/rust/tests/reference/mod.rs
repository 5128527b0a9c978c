//! Document 01 in Rust by hand, with the order number, the list, the lengths,
//! the owners of ballots, the summary and the early abort of document 02, Papers
//! 1 to 6, for the tests and the benchmark of the crate above; it is no part of
//! it.
//! Document 01's part was written from the document alone, by someone who had
//! not seen the proved source; the delivery and the ending, which the document
//! has not as calls, from their description (see `host`). The order number was
//! added from Paper 1's text, by someone who had seen the proved byte form, and
//! the list from Paper 2's, without sight of the proved list call; Phase2a got
//! its blocks of slots then. Lengths are counted and ballots owned as the text
//! of Papers 3 and 4 says. The summary and the early abort are from the text of
//! Papers 5 and 6 and the readings of their open points, without sight of the
//! proved ones; with Paper 6 a receipt came to copy its slot, where it had
//! written the message anew. The tests use its public functions only.
//!
//! A record is five byte tables, lent to every call:
//!
//! * `states` (W): a byte for each weight;
//! * `votes` (Q): mbal, bal and val for each instance and acceptor;
//! * `network` (N): slots of eight bytes, the used ones first;
//! * `inboxes` (I): one such row of slots for each leader;
//! * `summary`: a byte for each leader and instance, bit 0 when that inbox
//!   decides prepared, bit 1 when it decides aborted or has the weight's own 2a
//!   for aborted, at ballot 0.
//!
//! Tables and events may be any bytes of any length. A call that refuses
//! returns the number of its refusal (see [`refusal`]) and changes no byte.
#![forbid(unsafe_code)]
#![allow(dead_code, unused_imports)]

mod acceptor;
mod host;
mod leader;
mod message;
mod record;
mod rehearsal;
mod slots;
mod weight;

pub use acceptor::acceptor_step;
pub use host::{Ending, deliver, ending};
pub use leader::leader_step;
pub use message::{Message, Vote, length, read, write};
pub use record::{event, open, run};
pub use rehearsal::{rehearse, rehearse_by_calls};
pub use weight::{State, rm_step};

/// Numbers of the refusals; of several that apply, the first in the order 1 to
/// 6, 19, 20, 7 to 18 is returned.
pub mod refusal {
    /// The plan is out of range.
    pub const PLAN: u8 = 1;
    /// A table has a wrong length.
    pub const LENGTH: u8 = 2;
    /// A state above 3.
    pub const STATES: u8 = 3;
    /// A vote that is none of the three values, or a ballot without a vote.
    pub const VOTES: u8 = 4;
    /// A bad slot in the network.
    pub const NETWORK: u8 = 5;
    /// A bad slot in an inbox.
    pub const INBOXES: u8 = 6;
    /// Not an event (of this role).
    pub const EVENT: u8 = 7;
    /// The slot is unused or beyond the network.
    pub const SLOT: u8 = 8;
    /// The slot's message is not one for this role.
    pub const KIND: u8 = 9;
    /// The leader does not own the ballot.
    pub const BALLOT: u8 = 10;
    /// The decision contradicts the weight's state.
    pub const DECISION: u8 = 11;
    /// The action is not enabled.
    pub const GUARD: u8 = 12;
    /// No room in the network.
    pub const NETWORK_FULL: u8 = 13;
    /// No room in the inbox.
    pub const INBOX_FULL: u8 = 14;
    /// Empty slice or unknown map.
    pub const MAP: u8 = 15;
    /// The length is not the map's.
    pub const SIZE: u8 = 16;
    /// A field is out of range.
    pub const FIELD: u8 = 17;
    /// Another order number.
    pub const ORDER: u8 = 18;
    /// A list that isn't whole events, or answers that aren't one each.
    pub const LIST: u8 = 19;
    /// A summary of another length, or a byte of it above 3.
    pub const SUMMARY: u8 = 20;
}

/// The parties of a transaction.
#[derive(Clone, Copy, Debug, PartialEq, Eq)]
pub struct Plan {
    /// Weights (resource managers), 1 to 16.
    pub rms: u8,
    /// Acceptors, 1 to 7.
    pub acceptors: u8,
    /// Leaders, 1 to 4.
    pub leaders: u8,
    /// The order number.
    pub order: u16,
}

impl Plan {
    pub(crate) fn check(self) -> Result<(), u8> {
        let ok = matches!(self.rms, 1..=16) && matches!(self.acceptors, 1..=7) && matches!(self.leaders, 1..=4);
        if ok { Ok(()) } else { Err(refusal::PLAN) }
    }

    /// Whether the acceptors of this mask (bit a for acceptor a) are a majority.
    #[inline]
    pub(crate) fn majority(self, mask: u8) -> bool {
        // Counted by table: the baseline x86-64 has no popcount.
        const ONES: [u8; 256] = {
            let mut ones = [0; 256];
            let mut mask = 0;
            while mask < 256 {
                ones[mask] = (mask as u8).count_ones() as u8;
                mask += 1;
            }
            ones
        };
        2 * ONES[mask as usize] > self.acceptors
    }
}

/// What an accepted event did to the network.
#[derive(Clone, Copy, Debug, PartialEq, Eq)]
pub enum Sent {
    /// The first slot of the network where the sent message stands.
    Slot(usize),
    /// Nothing was sent (kinds 2 and 4).
    Quiet,
}

/// An event that has passed row 7.
#[derive(Clone, Copy)]
pub(crate) struct Event {
    pub kind: u8,
    pub who: u8,
    pub high: u8,
    pub low: u8,
}

impl Event {
    /// Reads an event of one of the kinds in `first..=last`.
    pub fn read(plan: Plan, bytes: &[u8], first: u8, last: u8) -> Result<Event, u8> {
        let &[kind, who, high, low] = bytes else {
            return Err(refusal::EVENT);
        };
        let parties = match kind {
            0..=2 => plan.rms,
            3 => plan.acceptors,
            _ => plan.leaders,
        };
        let rest = match kind {
            2..=4 => true,
            5 | 6 => high < plan.rms,
            _ => high == 0 && low == 0,
        };
        if (first..=last).contains(&kind) && who < parties && rest {
            Ok(Event { kind, who, high, low })
        } else {
            Err(refusal::EVENT)
        }
    }

    /// The slot of the network that kinds 2, 3 and 4 name.
    pub fn slot(self) -> usize {
        usize::from(u16::from_be_bytes([self.high, self.low]))
    }
}
