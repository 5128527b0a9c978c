//! Message bytes: a bit map, then one byte for each field whose bit stands,
//! then the order number, high byte first, for bit 5, which always stands.

use super::{Plan, refusal};

/// A message followed by zeros, or eight zeros.
pub(crate) type Slot = [u8; 8];

pub(crate) const PREPARED: u8 = 1;
pub(crate) const ABORTED: u8 = 2;

const INS: u8 = 1;
const ACC: u8 = 2;
const VAL: u8 = 16;

pub(crate) const MAP_1A: u8 = 0x29;
pub(crate) const MAP_1B: u8 = 0x27;
pub(crate) const MAP_1B_VOTE: u8 = 0x3F;
pub(crate) const MAP_2A: u8 = 0x39;
pub(crate) const MAP_2B: u8 = 0x3B;
pub(crate) const MAP_DECISION: u8 = 0x30;

/// The length of a message by its map: 2 and the count of its ones; 0 for an
/// unknown map.
pub const fn length(map: u8) -> usize {
    match map {
        MAP_1A | MAP_1B | MAP_1B_VOTE | MAP_2A | MAP_2B | MAP_DECISION => 2 + map.count_ones() as usize,
        _ => 0,
    }
}

/// A message; its fields are raw bytes.
#[derive(Clone, Copy, Debug, PartialEq, Eq)]
pub enum Message {
    Phase1a { ins: u8, bal: u8 },
    Phase1b { ins: u8, acc: u8, mbal: u8, vote: Option<Vote> },
    Phase2a { ins: u8, bal: u8, val: u8 },
    Phase2b { ins: u8, acc: u8, bal: u8, val: u8 },
    Decision { val: u8 },
}

/// The vote that a 1b reports.
#[derive(Clone, Copy, Debug, PartialEq, Eq)]
pub struct Vote {
    pub bal: u8,
    pub val: u8,
}

impl Message {
    /// Whether all fields are in range.
    fn allowed(self, plan: Plan) -> bool {
        let value = |val| val == PREPARED || val == ABORTED;
        match self {
            Message::Phase1a { ins, bal } => ins < plan.rms && bal != 0,
            Message::Phase1b { ins, acc, vote, .. } => {
                ins < plan.rms && acc < plan.acceptors && vote.is_none_or(|vote| value(vote.val))
            }
            Message::Phase2a { ins, val, .. } => ins < plan.rms && value(val),
            Message::Phase2b { ins, acc, val, .. } => ins < plan.rms && acc < plan.acceptors && value(val),
            Message::Decision { val } => value(val),
        }
    }

    /// The message's slot in the plan's order; no field is judged.
    pub(crate) fn slot(self, plan: Plan) -> Slot {
        let [high, low] = plan.order.to_be_bytes();
        match self {
            Message::Phase1a { ins, bal } => [MAP_1A, ins, bal, high, low, 0, 0, 0],
            Message::Phase1b { ins, acc, mbal, vote: None } => [MAP_1B, ins, acc, mbal, high, low, 0, 0],
            Message::Phase1b { ins, acc, mbal, vote: Some(Vote { bal, val }) } => {
                [MAP_1B_VOTE, ins, acc, mbal, bal, val, high, low]
            }
            Message::Phase2a { ins, bal, val } => [MAP_2A, ins, bal, val, high, low, 0, 0],
            Message::Phase2b { ins, acc, bal, val } => [MAP_2B, ins, acc, bal, val, high, low, 0],
            Message::Decision { val } => [MAP_DECISION, val, high, low, 0, 0, 0, 0],
        }
    }

    /// The message of a slot that has been found readable.
    pub(crate) fn of(slot: &Slot) -> Message {
        match *slot {
            [MAP_1A, ins, bal, ..] => Message::Phase1a { ins, bal },
            [MAP_1B, ins, acc, mbal, ..] => Message::Phase1b { ins, acc, mbal, vote: None },
            [MAP_1B_VOTE, ins, acc, mbal, bal, val, ..] => {
                Message::Phase1b { ins, acc, mbal, vote: Some(Vote { bal, val }) }
            }
            [MAP_2A, ins, bal, val, ..] => Message::Phase2a { ins, bal, val },
            [MAP_2B, ins, acc, bal, val, ..] => Message::Phase2b { ins, acc, bal, val },
            [_, val, ..] => Message::Decision { val },
        }
    }
}

/// Reads a slice that is exactly one message; refuses 1, 15, 16, 17 and 18.
pub fn read(plan: Plan, bytes: &[u8]) -> Result<Message, u8> {
    plan.check()?;
    let message = match *bytes {
        [MAP_1A, ins, bal, _, _] => Message::Phase1a { ins, bal },
        [MAP_1B, ins, acc, mbal, _, _] => Message::Phase1b { ins, acc, mbal, vote: None },
        [MAP_1B_VOTE, ins, acc, mbal, bal, val, _, _] => {
            Message::Phase1b { ins, acc, mbal, vote: Some(Vote { bal, val }) }
        }
        [MAP_2A, ins, bal, val, _, _] => Message::Phase2a { ins, bal, val },
        [MAP_2B, ins, acc, bal, val, _, _] => Message::Phase2b { ins, acc, bal, val },
        [MAP_DECISION, val, _, _] => Message::Decision { val },
        [map, ..] if length(map) != 0 => return Err(refusal::SIZE),
        _ => return Err(refusal::MAP),
    };
    if !message.allowed(plan) {
        return Err(refusal::FIELD);
    }
    // The order number is the last two bytes of every message.
    match bytes.last_chunk() {
        Some(&order) if u16::from_be_bytes(order) == plan.order => Ok(message),
        _ => Err(refusal::ORDER),
    }
}

/// Writes a message of the plan's order: 0, its eight bytes and its length;
/// or 1 or 17, eight zeros and 0.
pub fn write(plan: Plan, message: Message) -> (u8, Slot, usize) {
    if let Err(number) = plan.check() {
        return (number, [0; 8], 0);
    }
    if !message.allowed(plan) {
        return (refusal::FIELD, [0; 8], 0);
    }
    let slot = message.slot(plan);
    (0, slot, length(slot[0]))
}

/// A slot as a number, its first byte the lowest.
#[inline]
pub(crate) fn word(slot: &Slot) -> u64 {
    u64::from_le_bytes(*slot)
}

/// The allowed bytes of a slot, by the lower five bits of its map and under
/// one plan: the least value of each byte, and how far it may exceed that.
#[derive(Clone, Copy)]
pub(crate) struct Rules {
    least: [[u8; 8]; 32],
    span: [[u8; 8]; 32],
}

/// The place of a map's rules.
const fn place(map: u8) -> usize {
    (map & 31) as usize
}

/// The rules for one weight, one acceptor and order 0.
static LEAST_PLAN: Rules = {
    let mut rules = Rules { least: [[0; 8]; 32], span: [[0; 8]; 32] };
    let mut map = 32;
    while map < 64 {
        let (least, span) = (&mut rules.least[place(map)], &mut rules.span[place(map)]);
        let length = length(map);
        // The map itself, all eight bits. A byte whose five bits are those
        // of an unknown map is never one more than that.
        least[0] = if length == 0 { map + 1 } else { map };
        let mut at = 1 + (map & INS != 0) as usize + (map & ACC != 0) as usize;
        while at + 2 < length {
            let last = at + 2 == length - 1;
            (least[at], span[at]) = if last && map & VAL != 0 {
                (1, 1)
            } else if last && map == MAP_1A {
                (1, 254)
            } else {
                (0, 255)
            };
            at += 1;
        }
        map += 1;
    }
    rules
};

impl Rules {
    pub fn new(plan: Plan) -> Rules {
        let mut rules = LEAST_PLAN;
        for map in [MAP_1A, MAP_1B, MAP_1B_VOTE, MAP_2A, MAP_2B] {
            rules.span[place(map)][1] = plan.rms - 1;
        }
        for map in [MAP_1B, MAP_1B_VOTE, MAP_2B] {
            rules.span[place(map)][2] = plan.acceptors - 1;
        }
        let [high, low] = plan.order.to_be_bytes();
        for map in [MAP_1A, MAP_1B, MAP_1B_VOTE, MAP_2A, MAP_2B, MAP_DECISION] {
            let length = length(map);
            rules.least[place(map)][length - 2] = high;
            rules.least[place(map)][length - 1] = low;
        }
        rules
    }

    /// Whether each slot is a readable message with zeros after it. There is
    /// no branch, and all bytes of all slots take the same steps, so that it
    /// vectorises.
    #[inline(always)]
    pub fn readable<const SLOTS: usize>(&self, words: [u64; SLOTS]) -> bool {
        let least = words.map(|word| self.least[(word & 31) as usize]);
        let span = words.map(|word| self.span[(word & 31) as usize]);
        let bytes = words.map(u64::to_le_bytes);
        let ranges = least.as_flattened().iter().zip(span.as_flattened());
        let excess = bytes
            .as_flattened()
            .iter()
            .zip(ranges)
            .fold(0, |excess, (byte, (&least, &span))| excess | byte.wrapping_sub(least).saturating_sub(span));
        excess == 0
    }
}

#[cfg(test)]
mod tests {
    use super::*;

    /// The rules judge a slot as the reader does, with zeros after it.
    #[test]
    fn rules_are_the_reader() {
        let bytes = [0, 1, 2, 3, 6, 7, 15, 16, 128, 255];
        for plan in [(1, 1, 0), (2, 7, 0x0102), (16, 7, 0xFF00), (16, 1, 0x0080), (7, 3, 0x0303)] {
            let plan = Plan { rms: plan.0, acceptors: plan.1, leaders: 1, order: plan.2 };
            let rules = Rules::new(plan);
            for map in 0..=255u8 {
                let length = length(map);
                let known = length != 0;
                // The fields are any of these bytes; what follows them is right, or one byte of it is another.
                let fields = if known { length - 3 } else { 2 };
                let mut right = [0; 8];
                if known {
                    right[length - 2..length].copy_from_slice(&plan.order.to_be_bytes());
                }
                for number in 0..bytes.len().pow(fields as u32) {
                    let mut slot = right;
                    slot[0] = map;
                    let mut code = number;
                    for byte in &mut slot[1..=fields] {
                        *byte = bytes[code % bytes.len()];
                        code /= bytes.len();
                    }
                    for at in fields..8 {
                        let mut slot = slot;
                        slot[at] ^= u8::from(at > fields) << (number % 8);
                        let literal = read(plan, &slot[..length]).is_ok() && slot[length..] == [0; 8][length..];
                        assert_eq!(rules.readable([word(&slot); 3]), literal, "{slot:02X?} {plan:?}");
                    }
                }
            }
        }
    }
}
