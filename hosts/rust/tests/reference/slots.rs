//! Rows of slots: the network and each inbox.

use super::message::{Message, Rules, Slot, word};

/// The most slots that a row may have.
pub(crate) const MOST: usize = 1024;

/// Whether a row of this many bytes is whole slots, and not too many.
pub(crate) fn fits(bytes: usize) -> bool {
    bytes.is_multiple_of(8) && bytes <= 8 * MOST
}

/// A row that has been judged: `used` messages, then unused slots.
pub(crate) struct Row<'a> {
    slots: &'a mut [Slot],
    used: usize,
}

impl<'a> Row<'a> {
    /// Judges a row; none if a slot is bad or out of order.
    pub fn judge(rules: &Rules, bytes: &'a mut [u8]) -> Option<Row<'a>> {
        // An unused slot isn't readable: it and all after it must be zeros.
        let used = readable(rules, bytes);
        let ok = zeros(&bytes[8 * used..]);
        let (slots, _) = bytes.as_chunks_mut();
        ok.then_some(Row { slots, used })
    }

    /// The used slots.
    pub fn used(&self) -> &[Slot] {
        &self.slots[..self.used]
    }

    /// The message at a slot, if it is used.
    pub fn message(&self, at: usize) -> Option<Message> {
        self.used().get(at).map(Message::of)
    }

    /// The first unused slot.
    pub fn room(&self) -> Option<usize> {
        (self.used < self.slots.len()).then_some(self.used)
    }

    /// Where a message stands first, or else the first unused slot.
    pub fn place(&self, slot: &Slot) -> Option<usize> {
        let sought = word(slot);
        position(self.used(), sought).or_else(|| self.room())
    }

    /// Stores a message at a place that `place` or `room` gave.
    pub fn put(&mut self, at: usize, slot: Slot) {
        self.slots[at] = slot;
        self.used = self.used.max(at + 1);
    }
}

/// How many slots from the first on are readable. Eight slots are judged
/// together while they are all readable, then each by itself.
#[inline(never)]
fn readable(rules: &Rules, bytes: &[u8]) -> usize {
    let (slots, _) = bytes.as_chunks();
    let (blocks, _) = slots.as_chunks::<8>();
    let whole = blocks.iter().take_while(|block| rules.readable(block.each_ref().map(word))).count();
    let alone = slots[8 * whole..].iter().take_while(|slot| rules.readable([word(slot)])).count();
    8 * whole + alone
}

/// The first slot that is this number. Sixteen slots are compared together
/// while none of them is, so that it vectorises.
fn position(slots: &[Slot], sought: u64) -> Option<usize> {
    let (blocks, _) = slots.as_chunks::<16>();
    let other = |block: &&[Slot; 16]| !block.iter().fold(false, |any, slot| any | (word(slot) == sought));
    let passed = 16 * blocks.iter().take_while(other).count();
    words(&slots[passed..]).position(|word| word == sought).map(|at| passed + at)
}

/// Slots as numbers, a single load each.
#[inline]
pub(crate) fn words(slots: &[Slot]) -> impl Iterator<Item = u64> + '_ {
    slots.iter().map(word)
}

/// Whether all bytes are zero; without an early end, so that it vectorises.
fn zeros(bytes: &[u8]) -> bool {
    let (blocks, rest) = bytes.as_chunks::<128>();
    let mut any = [0; 128];
    for block in blocks {
        for (any, byte) in any.iter_mut().zip(block) {
            *any |= byte;
        }
    }
    any.iter().chain(rest).fold(0, |any, byte| any | byte) == 0
}
