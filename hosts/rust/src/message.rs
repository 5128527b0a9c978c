//! Messages, their byte form, and the delivery of what came from another host.

#[cfg(feature = "message")]
use crate::answer::outside;
#[cfg(any(feature = "message", feature = "deliver"))]
use crate::answer::refused;
use crate::plan::SLOT;
#[cfg(any(feature = "message", feature = "deliver"))]
use crate::{Plan, Refusal, ffi};
use core::num::NonZeroU8;
use core::ops::Deref;

/// A value of an instance: what a 2a proposes, and what a 1b or 2b says was voted for. No weight's [`State`], in which 2
/// is committed; and no [`Decision`].
///
/// [`State`]: crate::State
#[derive(Clone, Copy, Debug, PartialEq, Eq, Hash)]
#[repr(u8)]
pub enum Value {
    /// 1: prepared.
    Prepared = 1,
    /// 2: aborted.
    Aborted = 2,
}

/// What a leader decided: the `val` of a decision's message.
#[derive(Clone, Copy, Debug, PartialEq, Eq, Hash)]
#[repr(u8)]
pub enum Decision {
    /// 1: all instances are decided as prepared.
    Commit = 1,
    /// 2: some instance is decided as aborted, or its weight chose to abort.
    Abort = 2,
}

/// The last vote of an acceptor, as a 1b reports it.
#[derive(Clone, Copy, Debug, PartialEq, Eq, Hash)]
pub struct Vote {
    /// The ballot of the vote.
    pub bal: u8,
    /// What was voted for.
    pub val: Value,
}

/// A message. `ins` is the instance, which is the weight's number; `acc` the acceptor; `bal` the ballot.
#[derive(Clone, Copy, Debug, PartialEq, Eq, Hash)]
#[allow(missing_docs)]
pub enum Message {
    /// 1a: a leader begins a ballot. Its ballot is from 1.
    Phase1a { ins: u8, bal: u8 },
    /// 1b: an acceptor promises to take part in no ballot below `mbal`, and reports its last vote.
    Phase1b { ins: u8, acc: u8, mbal: u8, vote: Option<Vote> },
    /// 2a: a value is proposed, at ballot 0 by the weight itself.
    Phase2a { ins: u8, bal: u8, val: Value },
    /// 2b: an acceptor votes.
    Phase2b { ins: u8, acc: u8, bal: u8, val: Value },
    /// Commit or Abort.
    Decision { val: Decision },
}

/// A message as its bit map and raw fields. Fields that the map does not name are not looked at by the writer, and 0
/// from the reader.
// At an even address, so that the reader's `Result` takes eight bytes and is stored at once, as the call's number came.
#[derive(Clone, Copy, Debug, Default, PartialEq, Eq, Hash)]
#[repr(align(2))]
pub struct Fields {
    /// The bit map: 29 (1a), 27 (1b without a vote), 3F (1b with a vote), 39 (2a), 3B (2b) or 30 (decision),
    /// hexadecimal. Bit 5, for the order number, always stands; the number itself is the plan's.
    pub map: u8,
    /// The instance, bit 0 of the map.
    pub ins: u8,
    /// The acceptor, bit 1.
    pub acc: u8,
    /// The promised ballot, bit 2.
    pub mbal: u8,
    /// The ballot, bit 3.
    pub bal: u8,
    /// The value, or in a decision Commit or Abort, bit 4: the number of a [`Value`] or a [`Decision`].
    pub val: u8,
}

/// The six bit maps.
mod map {
    pub const PHASE_1A: u8 = 0x29;
    pub const PHASE_1B: u8 = 0x27;
    pub const PHASE_1B_VOTE: u8 = 0x3F;
    pub const PHASE_2A: u8 = 0x39;
    pub const PHASE_2B: u8 = 0x3B;
    pub const DECISION: u8 = 0x30;
}

impl From<Message> for Fields {
    fn from(message: Message) -> Fields {
        let none = Fields::default();
        match message {
            Message::Phase1a { ins, bal } => Fields { map: map::PHASE_1A, ins, bal, ..none },
            Message::Phase1b { ins, acc, mbal, vote: None } => Fields { map: map::PHASE_1B, ins, acc, mbal, ..none },
            Message::Phase1b { ins, acc, mbal, vote: Some(Vote { bal, val }) } => {
                Fields { map: map::PHASE_1B_VOTE, ins, acc, mbal, bal, val: val as u8 }
            }
            Message::Phase2a { ins, bal, val } => Fields { map: map::PHASE_2A, ins, bal, val: val as u8, ..none },
            Message::Phase2b { ins, acc, bal, val } => {
                Fields { map: map::PHASE_2B, ins, acc, bal, val: val as u8, ..none }
            }
            Message::Decision { val } => Fields { map: map::DECISION, val: val as u8, ..none },
        }
    }
}

/// The byte form of a message. It derefs to the message's bytes, four to eight; as a slot it is followed by zeros.
// Since the length is never 0, a `Result` of it has no tag of its own and is copied as it was stored.
#[derive(Clone, Copy, Debug, PartialEq, Eq, Hash)]
pub struct Written {
    slot: [u8; SLOT],
    len: NonZeroU8,
}

impl Written {
    /// Eight bytes: the message, then zeros, as it stands in a table.
    pub const fn slot(self) -> [u8; SLOT] {
        self.slot
    }
}

impl Deref for Written {
    type Target = [u8];
    fn deref(&self) -> &[u8] {
        &self.slot[..usize::from(self.len.get())]
    }
}

impl AsRef<[u8]> for Written {
    fn as_ref(&self) -> &[u8] {
        self
    }
}

#[cfg(feature = "message")]
impl Fields {
    /// The proved reader, with raw fields. It refuses [`Refusal::BadPlan`], [`UnknownMap`](Refusal::UnknownMap),
    /// [`WrongLength`](Refusal::WrongLength), [`OutOfRange`](Refusal::OutOfRange) and
    /// [`OtherOrder`](Refusal::OtherOrder).
    #[inline]
    pub fn read(plan: Plan, bytes: &[u8]) -> Result<Fields, Refusal> {
        let [number, map, ins, acc, mbal, bal, val, _] = ffi::read(plan, bytes).to_le_bytes();
        match number {
            0 => Ok(Fields { map, ins, acc, mbal, bal, val }),
            number => Err(refused(number.into())),
        }
    }

    /// The proved writer, with raw fields. It refuses [`Refusal::BadPlan`], [`UnknownMap`](Refusal::UnknownMap) for a
    /// map that is no message's, and [`OutOfRange`](Refusal::OutOfRange).
    #[inline]
    pub fn write(self, plan: Plan) -> Result<Written, Refusal> {
        let Fields { map, ins, acc, mbal, bal, val } = self;
        match ffi::write(plan, [map, ins, acc, mbal, bal, val]) {
            [0, number, ..] => Err(refused(number.into())),
            // The slot begins with this map; the length is 2 and the count of its ones.
            slot => Ok(Written { slot, len: NonZeroU8::MIN.saturating_add(1 + map.count_ones() as u8) }),
        }
    }
}

#[cfg(feature = "message")]
impl Message {
    /// The message that these bytes are: exactly one, with nothing after it.
    ///
    /// ```
    /// use paxos_commit::{Message, Plan, Refusal, Value};
    ///
    /// let plan = Plan { rms: 1, acceptors: 1, leaders: 1, order: 0x0102 };
    /// let read = |bytes: &[u8]| Message::read(plan, bytes);
    /// assert_eq!(read(&[0x39, 0, 0, 1, 1, 2]), Ok(Message::Phase2a { ins: 0, bal: 0, val: Value::Prepared }));
    /// assert_eq!(read(&[0x27, 0, 0, 1, 1, 2]), Ok(Message::Phase1b { ins: 0, acc: 0, mbal: 1, vote: None }));
    /// assert_eq!(read(&[0x39, 0, 0, 1, 1]), Err(Refusal::WrongLength));
    /// assert_eq!(read(&[0x39, 0, 0, 1, 1, 3]), Err(Refusal::OtherOrder));
    /// assert_eq!(read(b"junk"), Err(Refusal::UnknownMap));
    /// ```
    pub fn read(plan: Plan, bytes: &[u8]) -> Result<Message, Refusal> {
        let Fields { map, ins, acc, mbal, bal, val } = Fields::read(plan, bytes)?;
        let value = || match val {
            1 => Value::Prepared,
            2 => Value::Aborted,
            _ => outside(),
        };
        Ok(match map {
            map::PHASE_1A => Message::Phase1a { ins, bal },
            map::PHASE_1B => Message::Phase1b { ins, acc, mbal, vote: None },
            map::PHASE_1B_VOTE => Message::Phase1b { ins, acc, mbal, vote: Some(Vote { bal, val: value() }) },
            map::PHASE_2A => Message::Phase2a { ins, bal, val: value() },
            map::PHASE_2B => Message::Phase2b { ins, acc, bal, val: value() },
            map::DECISION => Message::Decision {
                val: match val {
                    1 => Decision::Commit,
                    2 => Decision::Abort,
                    _ => outside(),
                },
            },
            _ => outside(),
        })
    }

    /// The byte form of a message whose instance and acceptor are in the plan.
    ///
    /// ```
    /// use paxos_commit::{Message, Plan, Refusal, Value};
    ///
    /// let plan = Plan { rms: 2, acceptors: 3, leaders: 1, order: 0x0102 };
    /// let vote = Message::Phase2b { ins: 1, acc: 2, bal: 7, val: Value::Aborted };
    /// let written = vote.write(plan)?;
    /// assert_eq!(*written, [0x3B, 1, 2, 7, 2, 1, 2]);
    /// assert_eq!(written.slot(), [0x3B, 1, 2, 7, 2, 1, 2, 0]);
    /// assert_eq!(Message::read(plan, &written), Ok(vote));
    /// assert_eq!(Message::Phase1a { ins: 0, bal: 0 }.write(plan), Err(Refusal::OutOfRange));
    /// # Ok::<(), Refusal>(())
    /// ```
    pub fn write(self, plan: Plan) -> Result<Written, Refusal> {
        Fields::from(self).write(plan)
    }

    /// How many bytes the message has that begins with this map; 0 for a byte that is no message's map. So much is to be
    /// taken from a stream of messages.
    ///
    /// ```
    /// # use paxos_commit::Message;
    /// assert_eq!([0x29, 0x27, 0x3F, 0x39, 0x3B, 0x30, 0, 0x19].map(Message::length), [5, 6, 8, 6, 7, 4, 0, 0]);
    /// ```
    #[inline]
    pub fn length(map: u8) -> usize {
        ffi::length(map) as usize
    }

    /// The message in a slot of a network or an inbox; [`Refusal::NoMessage`] where the slot is unused or beyond the
    /// table. It judges this slot alone, as the reader does.
    pub fn in_slot(plan: Plan, table: &[u8], slot: u16) -> Result<Message, Refusal> {
        let Some(bytes) = table.chunks_exact(SLOT).nth(slot.into()) else {
            return Err(Refusal::NoMessage);
        };
        // The map's length; what is no map, the reader refuses.
        let len = match bytes[0] {
            0 if bytes.iter().all(|&byte| byte == 0) => return Err(Refusal::NoMessage),
            map => Message::length(map).clamp(1, SLOT),
        };
        let message = Message::read(plan, &bytes[..len])?;
        if bytes[len..].iter().any(|&byte| byte != 0) {
            return Err(Refusal::WrongLength);
        }
        Ok(message)
    }
}

/// The proved delivery: what another host sent, or any other bytes, came to the host whose network table is lent. The
/// message goes into the first unused slot unless it stands in the table; the answer is the first slot where it stands,
/// which events of kinds 2, 3 and 4 name.
///
/// Refusals: `BadPlan`, `BadLengths`, `BadNetwork`, `NetworkFull`, `UnknownMap`, `WrongLength`, `OutOfRange`,
/// `OtherOrder`.
///
/// ```
/// use paxos_commit::{deliver, slots_len, Plan, Refusal};
///
/// let plan = Plan { rms: 1, acceptors: 3, leaders: 1, order: 7 };
/// let mut network = vec![0; slots_len(1)];
/// assert_eq!(deliver(plan, &mut network, &[0x29, 0, 1, 0, 7]), Ok(0));
/// assert_eq!(deliver(plan, &mut network, &[0x29, 0, 1, 0, 7]), Ok(0));
/// assert_eq!(deliver(plan, &mut network, &[0x29, 0, 2, 0, 7]), Err(Refusal::NetworkFull));
/// assert_eq!(deliver(plan, &mut network, &[0x29, 0, 1, 0, 8]), Err(Refusal::OtherOrder));
/// assert_eq!(deliver(plan, &mut network, b"!"), Err(Refusal::UnknownMap));
/// network[5] = 1;
/// assert_eq!(deliver(plan, &mut network, &[0x29, 0, 1, 0, 7]), Err(Refusal::BadNetwork));
/// ```
#[cfg(feature = "deliver")]
#[inline]
pub fn deliver(plan: Plan, network: &mut [u8], bytes: &[u8]) -> Result<u16, Refusal> {
    match ffi::deliver(plan, network, bytes) {
        slot @ 0..1024 => Ok(slot as u16),
        code => Err(refused(code.wrapping_sub(65536))),
    }
}
