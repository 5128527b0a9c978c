//! The step of each role, as a call by itself. A host of one role keeps that role's table and its own network table,
//! and links no other role's code.
#![cfg_attr(not(any(feature = "rm", feature = "acceptor", feature = "leader")), allow(unused_imports))]

use crate::{Answer, Plan, Refusal, ffi};

/// The step of a resource manager (document 01: a weight): events of kinds 0, 1 and 2. `states` is W, a byte for each
/// weight of the plan.
///
/// Refusals: `BadPlan`, `BadLengths`, `BadStates`, `BadNetwork`, `BadEvent`, `NoMessage`, `WrongRole`, `Contradiction`,
/// `NotEnabled`, `NetworkFull`.
///
/// ```
/// use paxos_commit::{rm_step, slots_len, Answer, Event, Plan, Refusal};
///
/// let plan = Plan { rms: 2, acceptors: 3, leaders: 1, order: 7 };
/// let (mut states, mut network) = (vec![0; plan.states_len()], vec![0; slots_len(64)]);
/// let event = Event::Prepare { rm: 1 }.bytes();
/// assert_eq!(rm_step(plan, &mut states, &mut network, &event), Ok(Answer::Slot(0)));
/// assert_eq!(states, [0, 1]);
/// assert_eq!(network[..8], [0x39, 1, 0, 1, 0, 7, 0, 0]); // a 2a of order 7
/// assert_eq!(rm_step(plan, &mut states, &mut network, &event), Err(Refusal::NotEnabled));
/// ```
#[cfg(feature = "rm")]
#[inline]
pub fn rm_step(plan: Plan, states: &mut [u8], network: &mut [u8], event: &[u8]) -> Result<Answer, Refusal> {
    Answer::of(ffi::rm_step(plan, states, network, event))
}

/// The step of an acceptor: events of kind 3. `votes` is Q, three bytes for each instance and acceptor of the plan. It
/// is never quiet.
///
/// Refusals: `BadPlan`, `BadLengths`, `BadVotes`, `BadNetwork`, `BadEvent`, `NoMessage`, `WrongRole`, `NotEnabled`,
/// `NetworkFull`.
///
/// ```
/// use paxos_commit::{acceptor_step, slots_len, Answer, Event, Plan};
///
/// let plan = Plan { rms: 1, acceptors: 3, leaders: 1, order: 7 };
/// let (mut votes, mut network) = (vec![0; plan.votes_len()], vec![0; slots_len(64)]);
/// network[..5].copy_from_slice(&[0x29, 0, 4, 0, 7]); // 1a: a leader begins ballot 4 for instance 0
/// let event = Event::Vote { acceptor: 2, slot: 0 }.bytes();
/// assert_eq!(acceptor_step(plan, &mut votes, &mut network, &event), Ok(Answer::Slot(1)));
/// assert_eq!(network[8..16], [0x27, 0, 2, 4, 0, 7, 0, 0]); // 1b of acceptor 2: ballot 4, no vote so far
/// assert_eq!(votes[plan.vote_range(0, 2).unwrap()], [4, 0, 0]);
/// ```
#[cfg(feature = "acceptor")]
#[inline]
pub fn acceptor_step(plan: Plan, votes: &mut [u8], network: &mut [u8], event: &[u8]) -> Result<Answer, Refusal> {
    Answer::of(ffi::acceptor_step(plan, votes, network, event))
}

/// The step of a leader: events of kinds 4 to 8. `inbox` is this leader's inbox alone, and `summary` its part of the
/// summary, a byte for each instance; nothing ties them to the leader that the event names, nor to each other, which is
/// the host's to see to. `Commit` and `Abort` read the summary alone, as it is. [`Leader`](crate::Leader) holds these
/// tables together.
///
/// Refusals, in this order: `BadPlan`, `BadLengths`, `BadNetwork`, `BadInbox`, `BadSummary`, `BadEvent`, `NoMessage`,
/// `WrongRole`, `NotOwned`, `NotEnabled`, `NetworkFull`, `InboxFull`.
///
/// ```
/// use paxos_commit::{leader_step, slots_len, Answer, Event, Plan, Refusal};
///
/// let plan = Plan { rms: 1, acceptors: 1, leaders: 2, order: 7 };
/// let (mut inbox, mut summary) = (vec![0; slots_len(64)], vec![0; plan.leader_summary_len()]);
/// let mut network = vec![0; slots_len(64)];
/// network[..7].copy_from_slice(&[0x3B, 0, 0, 0, 1, 0, 7]); // 2b: acceptor 0 votes prepared at ballot 0
/// let mut step = |event: Event| leader_step(plan, &mut inbox, &mut summary, &mut network, &event.bytes());
/// assert_eq!(step(Event::Commit { leader: 1 }), Err(Refusal::NotEnabled));
/// assert_eq!(step(Event::Receipt { leader: 1, slot: 0 }), Ok(Answer::Quiet)); // sets bit 0 of byte 0
/// assert_eq!(step(Event::Commit { leader: 1 }), Ok(Answer::Slot(1)));
/// assert_eq!(step(Event::Phase1a { leader: 1, ins: 0, bal: 1 }), Err(Refusal::NotOwned));
/// assert_eq!(summary, [1]);
/// ```
#[cfg(feature = "leader")]
#[inline]
pub fn leader_step(
    plan: Plan,
    inbox: &mut [u8],
    summary: &mut [u8],
    network: &mut [u8],
    event: &[u8],
) -> Result<Answer, Refusal> {
    Answer::of(ffi::leader_step(plan, inbox, summary, network, event))
}
