//! What document 01 leaves to the host and the static libraries have: putting
//! what came into N, and how the order with a given W stands. Written from the
//! description of these two calls in docs/HOSTS.md and the document's rows.

use super::message::{Rules, read};
use super::slots::{Row, fits};
use super::{Plan, State, refusal, weight};

/// How an order stands.
#[derive(Clone, Copy, Debug, PartialEq, Eq)]
pub enum Ending {
    Open,
    Committed,
    Aborted,
}

/// Puts the message that these bytes are into N, unless it is there, and
/// returns the first slot where it stands. Refuses 1, 2, 5, 13, 15, 16, 17
/// and 18.
pub fn deliver(plan: Plan, network: &mut [u8], bytes: &[u8]) -> Result<usize, u8> {
    plan.check()?;
    if !fits(network.len()) {
        return Err(refusal::LENGTH);
    }
    let rules = Rules::new(plan);
    let mut network = Row::judge(&rules, network).ok_or(refusal::NETWORK)?;
    let slot = read(plan, bytes)?.slot(plan);
    let at = network.place(&slot).ok_or(refusal::NETWORK_FULL)?;
    network.put(at, slot);
    Ok(at)
}

/// How the order with this W stands. Refuses 1, 2 and 3.
pub fn ending(plan: Plan, states: &[u8]) -> Result<Ending, u8> {
    plan.check()?;
    if states.len() != usize::from(plan.rms) {
        return Err(refusal::LENGTH);
    }
    weight::judge(states)?;
    let all = |state| states.iter().all(|&other| other == state);
    Ok(if all(State::COMMITTED) {
        Ending::Committed
    } else if all(State::ABORTED) {
        Ending::Aborted
    } else {
        Ending::Open
    })
}
