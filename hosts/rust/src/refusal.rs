//! The refusals by name.

use core::fmt;

/// Why a call was refused: of the reasons that apply, the first in the order 1 to 6, 19, 20, 7 to 18. A refused call has
/// changed no byte. The C header has the same names; docs/HOSTS.md says what a host does about each.
#[derive(Clone, Copy, Debug, PartialEq, Eq, PartialOrd, Ord, Hash)]
#[repr(u8)]
pub enum Refusal {
    /// 1: resource managers, acceptors or leaders out of range.
    BadPlan = 1,
    /// 2: a table whose length does not fit the plan, is not whole slots, or is over 1,024 slots.
    BadLengths = 2,
    /// 3: a byte of W above 3.
    BadStates = 3,
    /// 4: in Q a value above 2, or a ballot without a vote.
    BadVotes = 4,
    /// 5: in N a slot that is neither unused nor a readable message of this order with zeros after it, or a used slot
    /// after an unused one.
    BadNetwork = 5,
    /// 6: the same in an inbox.
    BadInbox = 6,
    /// 7: not four bytes, a kind above 8 or of another role, a process or instance outside the plan, or a byte that
    /// should be 0.
    BadEvent = 7,
    /// 8: the slot that the event names is unused or beyond N.
    NoMessage = 8,
    /// 9: the message in the slot is not one that this role takes: a decision for a weight, a 1a or 2a for an acceptor, a
    /// 1b, a 2b or a 2a at ballot 0 for a leader.
    WrongRole = 9,
    /// 10: the leader does not own the ballot.
    NotOwned = 10,
    /// 11: the decision contradicts the weight's state. Proved never to happen on a record that was opened fresh.
    Contradiction = 11,
    /// 12: the action is not enabled.
    NotEnabled = 12,
    /// 13: the message to send or deliver is not in N, and N has no unused slot.
    NetworkFull = 13,
    /// 14: likewise for the inbox.
    InboxFull = 14,
    /// 15: no bytes, or a first byte that is no message's map.
    UnknownMap = 15,
    /// 16: the length is not the one that the map says.
    WrongLength = 16,
    /// 17: an instance, acceptor or value out of range, or a 1a at ballot 0.
    OutOfRange = 17,
    /// 18: nothing else is wrong, but the message has another order number.
    OtherOrder = 18,
    /// 19: a list that is not whole events, or has not one byte of answers for each.
    BadList = 19,
    /// 20: a summary whose length is not the plan's, or, except at opening, a byte of it above 3. It comes before 7.
    BadSummary = 20,
}

impl Refusal {
    /// All refusals, by number.
    pub const ALL: [Refusal; 20] = [
        Refusal::BadPlan,
        Refusal::BadLengths,
        Refusal::BadStates,
        Refusal::BadVotes,
        Refusal::BadNetwork,
        Refusal::BadInbox,
        Refusal::BadEvent,
        Refusal::NoMessage,
        Refusal::WrongRole,
        Refusal::NotOwned,
        Refusal::Contradiction,
        Refusal::NotEnabled,
        Refusal::NetworkFull,
        Refusal::InboxFull,
        Refusal::UnknownMap,
        Refusal::WrongLength,
        Refusal::OutOfRange,
        Refusal::OtherOrder,
        Refusal::BadList,
        Refusal::BadSummary,
    ];

    /// The number in documents 01 and 02, 1 to 20.
    pub const fn number(self) -> u8 {
        self as u8
    }

    /// The refusal with this number; `None` for 0 and for numbers above 20.
    #[inline]
    pub const fn from_number(number: u8) -> Option<Refusal> {
        // One arm for each, since the compiler sees then that a refusal is its number.
        Some(match number {
            1 => Refusal::BadPlan,
            2 => Refusal::BadLengths,
            3 => Refusal::BadStates,
            4 => Refusal::BadVotes,
            5 => Refusal::BadNetwork,
            6 => Refusal::BadInbox,
            7 => Refusal::BadEvent,
            8 => Refusal::NoMessage,
            9 => Refusal::WrongRole,
            10 => Refusal::NotOwned,
            11 => Refusal::Contradiction,
            12 => Refusal::NotEnabled,
            13 => Refusal::NetworkFull,
            14 => Refusal::InboxFull,
            15 => Refusal::UnknownMap,
            16 => Refusal::WrongLength,
            17 => Refusal::OutOfRange,
            18 => Refusal::OtherOrder,
            19 => Refusal::BadList,
            20 => Refusal::BadSummary,
            _ => return None,
        })
    }
}

impl fmt::Display for Refusal {
    fn fmt(&self, f: &mut fmt::Formatter) -> fmt::Result {
        let words = match self {
            Refusal::BadPlan => "plan out of range",
            Refusal::BadLengths => "lengths of the tables do not fit the plan",
            Refusal::BadStates => "W holds a byte that is no state",
            Refusal::BadVotes => "Q holds a vote that is none",
            Refusal::BadNetwork => "N is damaged",
            Refusal::BadInbox => "an inbox is damaged",
            Refusal::BadEvent => "no event",
            Refusal::NoMessage => "the slot is unused or beyond N",
            Refusal::WrongRole => "the message is not for this role",
            Refusal::NotOwned => "ballot not owned",
            Refusal::Contradiction => "the decision contradicts the state",
            Refusal::NotEnabled => "not enabled",
            Refusal::NetworkFull => "N is full",
            Refusal::InboxFull => "the inbox is full",
            Refusal::UnknownMap => "no message, or an unknown one",
            Refusal::WrongLength => "the length is not the message's",
            Refusal::OutOfRange => "a field of the message is out of range",
            Refusal::OtherOrder => "the message is of another order",
            Refusal::BadList => "the list is not whole events with an answer each",
            Refusal::BadSummary => "the summary does not fit the plan, or holds a byte above 3",
        };
        write!(f, "{words} ({})", self.number())
    }
}

impl core::error::Error for Refusal {}
