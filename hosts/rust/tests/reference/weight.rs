//! A weight's step: kinds 0, 1 and 2.

use super::message::{ABORTED, Message, PREPARED, Rules};
use super::slots::{Row, fits};
use super::{Event, Plan, Sent, refusal};

/// The states of a weight, as the bytes of W.
pub struct State;

impl State {
    pub const WORKING: u8 = 0;
    pub const PREPARED: u8 = 1;
    pub const COMMITTED: u8 = 2;
    pub const ABORTED: u8 = 3;
}

/// A weight's step by itself, on W and N.
pub fn rm_step(plan: Plan, states: &mut [u8], network: &mut [u8], event: &[u8]) -> Result<Sent, u8> {
    plan.check()?;
    if states.len() != usize::from(plan.rms) || !fits(network.len()) {
        return Err(refusal::LENGTH);
    }
    judge(states)?;
    let rules = Rules::new(plan);
    let mut network = Row::judge(&rules, network).ok_or(refusal::NETWORK)?;
    step(plan, states, &mut network, Event::read(plan, event, 0, 2)?)
}

pub(crate) fn judge(states: &[u8]) -> Result<(), u8> {
    // The four states are the numbers of two bits.
    if states.iter().fold(0, |any, state| any | state) <= State::ABORTED { Ok(()) } else { Err(refusal::STATES) }
}

pub(crate) fn step(plan: Plan, states: &mut [u8], network: &mut Row, event: Event) -> Result<Sent, u8> {
    let state = &mut states[usize::from(event.who)];
    if event.kind == 2 {
        let Message::Decision { val } = network.message(event.slot()).ok_or(refusal::SLOT)? else {
            return Err(refusal::KIND);
        };
        *state = match (val, *state) {
            (PREPARED, State::PREPARED | State::COMMITTED) => State::COMMITTED,
            (ABORTED, State::WORKING | State::PREPARED | State::ABORTED) => State::ABORTED,
            _ => return Err(refusal::DECISION),
        };
        return Ok(Sent::Quiet);
    }
    if *state != State::WORKING {
        return Err(refusal::GUARD);
    }
    let (next, val) = match event.kind {
        0 => (State::PREPARED, PREPARED),
        _ => (State::ABORTED, ABORTED),
    };
    let slot = Message::Phase2a { ins: event.who, bal: 0, val }.slot(plan);
    let at = network.place(&slot).ok_or(refusal::NETWORK_FULL)?;
    network.put(at, slot);
    *state = next;
    Ok(Sent::Slot(at))
}
