//! A leader's step: kinds 4 to 8.

use super::message::{ABORTED, MAP_1B, MAP_1B_VOTE, MAP_2A, MAP_2B, Message, PREPARED, Rules, Slot, Vote};
use super::slots::{Row, fits, words};
use super::{Event, Plan, Sent, refusal};

/// A leader's step by itself, on one inbox, its part of the summary, and N.
pub fn leader_step(
    plan: Plan,
    inbox: &mut [u8],
    summary: &mut [u8],
    network: &mut [u8],
    event: &[u8],
) -> Result<Sent, u8> {
    plan.check()?;
    if !fits(inbox.len()) || !fits(network.len()) {
        return Err(refusal::LENGTH);
    }
    let rules = Rules::new(plan);
    let mut network = Row::judge(&rules, network).ok_or(refusal::NETWORK)?;
    let mut inbox = Row::judge(&rules, inbox).ok_or(refusal::INBOXES)?;
    judge(summary, plan.rms.into())?;
    step(plan, &mut inbox, summary, &mut network, Event::read(plan, event, 4, 8)?)
}

/// Judges a summary that should have so many bytes.
pub(crate) fn judge(summary: &[u8], length: usize) -> Result<(), u8> {
    let any = summary.iter().fold(0, |any, standing| any | standing);
    if summary.len() == length && any <= PREPARED | ABORTED { Ok(()) } else { Err(refusal::SUMMARY) }
}

pub(crate) fn step(
    plan: Plan,
    inbox: &mut Row,
    summary: &mut [u8],
    network: &mut Row,
    event: Event,
) -> Result<Sent, u8> {
    let Event { kind, high: ins, low: bal, .. } = event;
    if kind == 4 {
        let &slot = network.used().get(event.slot()).ok_or(refusal::SLOT)?;
        let message = Message::of(&slot);
        let (Message::Phase1b { .. } | Message::Phase2b { .. } | Message::Phase2a { bal: 0, .. }) = message else {
            return Err(refusal::KIND);
        };
        let at = inbox.place(&slot).ok_or(refusal::INBOX_FULL)?;
        inbox.put(at, slot);
        // A value is its own bit.
        match message {
            Message::Phase2b { ins, val, .. } => {
                let standing = &mut summary[usize::from(ins)];
                if *standing & val == 0 && decided(plan, inbox.used(), ins, val) {
                    *standing |= val;
                }
            }
            // The weight has declined: its instance can choose nothing else.
            Message::Phase2a { ins, val: ABORTED, .. } => summary[usize::from(ins)] |= ABORTED,
            _ => {}
        }
        return Ok(Sent::Quiet);
    }
    if (kind == 5 || kind == 6) && (bal == 0 || (bal - 1) % plan.leaders != event.who) {
        return Err(refusal::BALLOT);
    }
    let message = match kind {
        5 => Message::Phase1a { ins, bal },
        6 => {
            let val = proposal(plan, inbox.used(), ins, bal).ok_or(refusal::GUARD)?;
            Message::Phase2a { ins, bal, val }
        }
        7 if all_prepared(summary) => Message::Decision { val: PREPARED },
        8 if any_aborted(summary) => Message::Decision { val: ABORTED },
        _ => return Err(refusal::GUARD),
    };
    let slot = message.slot(plan);
    let at = network.place(&slot).ok_or(refusal::NETWORK_FULL)?;
    if kind == 6 {
        // The guard has found no such 2a in the inbox.
        let room = inbox.room().ok_or(refusal::INBOX_FULL)?;
        inbox.put(room, slot);
    }
    network.put(at, slot);
    Ok(Sent::Slot(at))
}

/// The value of the 2a that Phase2a sends, if it is enabled.
fn proposal(plan: Plan, inbox: &[Slot], ins: u8, bal: u8) -> Option<u8> {
    // A 2a has its ballot in byte 2, a 1b its mbal in byte 3.
    let own_2a = u32::from_le_bytes([MAP_2A, ins, bal, 0]);
    let own_1b = u32::from_le_bytes([0, ins, 0, bal]);
    let mut promises = Promises { acceptors: 0, best: None };
    // Sixteen slots are looked at together, so that it vectorises, and singly
    // where one of them may be the 2a or such a 1b.
    let own = |low: u32| (low & 0xFF00_FF00 == own_1b) | (low & 0x00FF_FFFF == own_2a);
    let mut blocks = inbox.chunks(16).filter(|block| words(block).fold(false, |any, word| any | own(word as u32)));
    let sent = blocks.any(|block| {
        words(block).any(|word| {
            if word as u32 & 0xFF00_FF00 == own_1b {
                promises.add(word);
            }
            word as u32 & 0x00FF_FFFF == own_2a
        })
    });
    let value = promises.best.map_or(ABORTED, |vote| vote.val);
    (!sent && plan.majority(promises.acceptors)).then_some(value)
}

/// What the 1b messages for one instance and ballot say.
struct Promises {
    /// Their acceptors, bit a for acceptor a.
    acceptors: u8,
    /// The reported vote with the highest ballot, the first of several.
    best: Option<Vote>,
}

impl Promises {
    /// Adds a message, if it is a 1b. Out of line: few slots come here.
    #[cold]
    fn add(&mut self, word: u64) {
        let [map, _, acc, _, bal, val, ..] = word.to_le_bytes();
        if map == MAP_1B || map == MAP_1B_VOTE {
            self.acceptors |= 1 << (acc & 7);
        }
        if map == MAP_1B_VOTE && self.best.is_none_or(|best| best.bal < bal) {
            self.best = Some(Vote { bal, val });
        }
    }
}

/// Whether each instance stands as prepared.
fn all_prepared(summary: &[u8]) -> bool {
    summary.iter().fold(PREPARED, |all, standing| all & standing) != 0
}

/// Whether some instance stands as aborted.
fn any_aborted(summary: &[u8]) -> bool {
    summary.iter().fold(0, |any, standing| any | standing) & ABORTED != 0
}

/// Decided(ins, val): a majority's 2b messages at some ballot.
fn decided(plan: Plan, inbox: &[Slot], ins: u8, val: u8) -> bool {
    let mask = u64::from_le_bytes([0xFF, 0xFF, 0, 0, 0xFF, 0, 0, 0]);
    let sought = u64::from_le_bytes([MAP_2B, ins, 0, 0, val, 0, 0, 0]);
    // Their acceptors by ballot.
    let mut voters = [0u8; 256];
    // Sixteen slots are looked at together, so that it vectorises, and singly
    // where one of them may be such a 2b.
    let own = |word: u64| word & mask == sought;
    let mut blocks = inbox.chunks(16).filter(|block| words(block).fold(false, |any, word| any | own(word)));
    blocks.any(|block| {
        words(block).filter(|&word| own(word)).any(|word| {
            let [_, _, acc, bal, ..] = word.to_le_bytes();
            let voters = &mut voters[usize::from(bal)];
            *voters |= 1 << (acc & 7);
            plan.majority(*voters)
        })
    })
}
