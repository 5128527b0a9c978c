//! The list call: a backlog of events on the five tables of a record.

use crate::answer::refused;
use crate::{Plan, Refusal, ffi};

/// The list call on lent tables: it judges them once, then runs the events, four bytes each, in order, and goes on after
/// one that is refused. Byte k of `answers` becomes 0 where event k was accepted, and else the number of its refusal.
/// Answers and tables are those of [`step`](crate::step) for one event after the other; what a step would answer beside
/// it, the slot, is not told.
///
/// The whole list is refused, and no byte of tables or answers changes, with any up to `BadInbox`, with `BadList` where
/// the events are not whole or `answers` has not a byte for each, or with `BadSummary`. A list may be empty, and of any
/// length.
///
/// ```
/// use paxos_commit::{Plan, Refusal, run};
///
/// let plan = Plan { rms: 1, acceptors: 1, leaders: 1, order: 0 };
/// let (mut w, mut q, mut n, mut i, mut s) = ([0; 1], [0; 3], [0; 64], [0; 64], [0; 1]);
/// let events = [[0, 0, 0, 0], [1, 0, 0, 0], [3, 0, 0, 0]];
/// let mut answers = [0xAA; 3];
/// let mut list = |events: &[u8], answers: &mut [u8]| run(plan, &mut w, &mut q, &mut n, &mut i, &mut s, events, answers);
/// assert_eq!(list(events.as_flattened(), &mut answers), Ok(()));
/// assert_eq!(answers, [0, 12, 0]);
/// assert_eq!(answers.map(Refusal::from_number), [None, Some(Refusal::NotEnabled), None]);
///
/// // A cut list: nothing happens.
/// let cut = &events.as_flattened()[..11];
/// assert_eq!(list(cut, &mut answers), Err(Refusal::BadList));
/// assert_eq!(answers, [0, 12, 0]);
/// ```
#[allow(clippy::too_many_arguments)]
#[inline]
pub fn run(
    plan: Plan,
    states: &mut [u8],
    votes: &mut [u8],
    network: &mut [u8],
    inboxes: &mut [u8],
    summary: &mut [u8],
    events: &[u8],
    answers: &mut [u8],
) -> Result<(), Refusal> {
    match ffi::run(plan, states, votes, network, inboxes, summary, events, answers) {
        0 => Ok(()),
        number => Err(refused(number.into())),
    }
}
