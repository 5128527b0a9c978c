//! An acceptor's step: kind 3.

use super::message::{Message, Rules, Vote};
use super::slots::{Row, fits};
use super::{Event, Plan, Sent, refusal};

/// An acceptor's step by itself, on Q and N.
pub fn acceptor_step(plan: Plan, votes: &mut [u8], network: &mut [u8], event: &[u8]) -> Result<Sent, u8> {
    plan.check()?;
    if votes.len() != length(plan) || !fits(network.len()) {
        return Err(refusal::LENGTH);
    }
    judge(votes)?;
    let rules = Rules::new(plan);
    let mut network = Row::judge(&rules, network).ok_or(refusal::NETWORK)?;
    step(plan, votes, &mut network, Event::read(plan, event, 3, 3)?)
}

/// The length of Q.
pub(crate) fn length(plan: Plan) -> usize {
    3 * usize::from(plan.rms) * usize::from(plan.acceptors)
}

/// The most bytes that Q may have.
const MOST: usize = 3 * 16 * 7;

/// A byte for each byte of Q, of these three in turn.
const fn thrice(triple: [u8; 3]) -> [u8; MOST] {
    let mut bytes = [0; MOST];
    let mut at = 0;
    while at < MOST {
        bytes[at] = triple[at % 3];
        at += 1;
    }
    bytes
}

/// Judges Q byte by byte, so that it vectorises: a val is at most 2, and a
/// bal that isn't 0 has a val after it that isn't.
pub(crate) fn judge(votes: &[u8]) -> Result<(), u8> {
    static HIGHEST: [u8; MOST] = thrice([255, 255, 2]);
    static BAL: [u8; MOST] = thrice([0, 1, 0]);
    let val = votes.iter().zip(&HIGHEST).fold(0, |bad, (val, &highest)| bad | val.saturating_sub(highest));
    let bal = votes
        .iter()
        .zip(&votes[1..])
        .zip(&BAL)
        .fold(0, |bad, ((&bal, &val), &one)| bad | bal.min(one).saturating_sub(val));
    if val | bal == 0 { Ok(()) } else { Err(refusal::VOTES) }
}

pub(crate) fn step(plan: Plan, votes: &mut [u8], network: &mut Row, event: Event) -> Result<Sent, u8> {
    let acc = event.who;
    let message = network.message(event.slot()).ok_or(refusal::SLOT)?;
    let (Message::Phase1a { ins, .. } | Message::Phase2a { ins, .. }) = message else {
        return Err(refusal::KIND);
    };
    let (votes, _) = votes.as_chunks_mut();
    let own = &mut votes[usize::from(ins) * usize::from(plan.acceptors) + usize::from(acc)];
    let [old_mbal, old_bal, old_val] = *own;
    let (new, reply) = match message {
        Message::Phase1a { bal, .. } if old_mbal < bal => {
            let vote = (old_val != 0).then_some(Vote { bal: old_bal, val: old_val });
            ([bal, old_bal, old_val], Message::Phase1b { ins, acc, mbal: bal, vote })
        }
        Message::Phase2a { bal, val, .. } if old_mbal <= bal => {
            ([bal, bal, val], Message::Phase2b { ins, acc, bal, val })
        }
        _ => return Err(refusal::GUARD),
    };
    let slot = reply.slot(plan);
    let at = network.place(&slot).ok_or(refusal::NETWORK_FULL)?;
    network.put(at, slot);
    *own = new;
    Ok(Sent::Slot(at))
}
