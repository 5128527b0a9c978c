//! A history of calls, the two engines that it is run on, and running it on both.

use crate::reference;
use paxos_commit::{Answer, Ending, Fields, Plan, Refusal, SLOT};
use std::ops::Range;

/// W, Q, N, I and the summary.
pub type Tables = [Vec<u8>; 5];
pub const W: usize = 0;
pub const Q: usize = 1;
pub const N: usize = 2;
pub const I: usize = 3;
pub const S: usize = 4;

#[derive(Clone, Debug, PartialEq)]
pub enum Call {
    Read(Vec<u8>),
    Write([u8; 6]),
    Open,
    Step(Vec<u8>),
    Rm(Vec<u8>),
    Acceptor(Vec<u8>),
    /// It is lent this part of I, and this part of the summary.
    Leader([usize; 2], [usize; 2], Vec<u8>),
    Deliver(Vec<u8>),
    Ending,
    /// A list, and the answers as they are lent.
    Run(Vec<u8>, Vec<u8>),
}

pub const CALLS: [&str; 10] =
    ["read", "write", "open", "step", "rm_step", "acceptor_step", "leader_step", "deliver", "ending", "run"];

impl Call {
    pub fn number(&self) -> usize {
        match self {
            Call::Read(_) => 0,
            Call::Write(_) => 1,
            Call::Open => 2,
            Call::Step(_) => 3,
            Call::Rm(_) => 4,
            Call::Acceptor(_) => 5,
            Call::Leader(..) => 6,
            Call::Deliver(_) => 7,
            Call::Ending => 8,
            Call::Run(..) => 9,
        }
    }

    /// The answers as they are lent; no other call than the list has any.
    pub fn answers(&self) -> &[u8] {
        match self {
            Call::Run(_, answers) => answers,
            _ => &[],
        }
    }

    pub fn event(&self) -> Option<&Vec<u8>> {
        match self {
            Call::Step(event) | Call::Rm(event) | Call::Acceptor(event) | Call::Leader(_, _, event) => Some(event),
            _ => None,
        }
    }

    pub fn event_mut(&mut self) -> Option<&mut Vec<u8>> {
        match self {
            Call::Step(event) | Call::Rm(event) | Call::Acceptor(event) | Call::Leader(_, _, event) => Some(event),
            _ => None,
        }
    }

    /// What the call is lent beside the tables: an event, a list, or what may be a message.
    pub fn slice_mut(&mut self) -> Option<&mut Vec<u8>> {
        match self {
            Call::Read(bytes) | Call::Deliver(bytes) | Call::Run(bytes, _) => Some(bytes),
            call => call.event_mut(),
        }
    }
}

/// A call with its plan. Damage is done before it and undone after it: first new lengths of the tables, then bytes
/// (table, place, byte).
#[derive(Clone, Debug, PartialEq)]
pub struct Op {
    pub plan: Plan,
    pub lengths: Option<[usize; 5]>,
    pub bytes: Vec<(usize, usize, u8)>,
    /// What the call does is undone after it too: it would damage tables that the history goes on with.
    pub undone: bool,
    pub call: Call,
}

impl Op {
    pub fn plain(plan: Plan, call: Call) -> Op {
        Op { plan, lengths: None, bytes: Vec::new(), undone: false, call }
    }

    pub fn damages(&self) -> bool {
        self.undone || self.lengths.is_some() || !self.bytes.is_empty()
    }

    pub fn damage(&self, tables: &mut Tables) {
        if let Some(lengths) = self.lengths {
            for (table, length) in tables.iter_mut().zip(lengths) {
                table.resize(length, 0);
            }
        }
        for &(table, at, byte) in &self.bytes {
            if let Some(place) = tables[table].get_mut(at) {
                *place = byte;
            }
        }
    }
}

/// What a call answered, as the number that the static library answers.
pub type Code = u64;

/// The refusal that a code is, 0 for an acceptance.
pub fn refusal(call: &Call, code: Code) -> u8 {
    match call {
        Call::Read(_) | Call::Open | Call::Run(..) => code as u8,
        // The first byte is a map, or 0 and then the refusal.
        Call::Write(_) if code as u8 == 0 => (code >> 8) as u8,
        Call::Write(_) => 0,
        _ if code >= 65536 => (code - 65536) as u8,
        _ => 0,
    }
}

pub trait Engine {
    /// A list writes its answers; other calls are lent none.
    fn call(&self, plan: Plan, tables: &mut Tables, answers: &mut [u8], call: &Call) -> Code;
}

/// The calls of the static libraries, through this crate.
pub struct Linked;

fn code(answer: Result<Answer, Refusal>) -> Code {
    match answer {
        Ok(Answer::Slot(slot)) => slot.into(),
        Ok(Answer::Quiet) => 65535,
        Err(refusal) => 65536 + Code::from(refusal.number()),
    }
}

impl Engine for Linked {
    fn call(&self, plan: Plan, tables: &mut Tables, answers: &mut [u8], call: &Call) -> Code {
        let [states, votes, network, inboxes, summary] = tables;
        match call {
            Call::Read(bytes) => match Fields::read(plan, bytes) {
                Ok(Fields { map, ins, acc, mbal, bal, val }) => {
                    Code::from_le_bytes([0, map, ins, acc, mbal, bal, val, 0])
                }
                Err(refusal) => refusal.number().into(),
            },
            Call::Write([map, ins, acc, mbal, bal, val]) => {
                let fields = Fields { map: *map, ins: *ins, acc: *acc, mbal: *mbal, bal: *bal, val: *val };
                match fields.write(plan) {
                    Ok(written) => {
                        assert_eq!(written.len(), reference::length(written[0]));
                        Code::from_le_bytes(written.slot())
                    }
                    Err(refusal) => 256 * Code::from(refusal.number()),
                }
            }
            Call::Open => match paxos_commit::open(plan, states, votes, network, inboxes, summary) {
                Ok(()) => 0,
                Err(refusal) => refusal.number().into(),
            },
            Call::Step(event) => code(paxos_commit::step(plan, states, votes, network, inboxes, summary, event)),
            Call::Rm(event) => code(paxos_commit::rm_step(plan, states, network, event)),
            Call::Acceptor(event) => code(paxos_commit::acceptor_step(plan, votes, network, event)),
            Call::Leader(inbox, own, event) => {
                code(paxos_commit::leader_step(plan, part(inboxes, *inbox), part(summary, *own), network, event))
            }
            Call::Deliver(bytes) => code(paxos_commit::deliver(plan, network, bytes).map(Answer::Slot)),
            Call::Ending => match paxos_commit::ending(plan, states) {
                Ok(Ending::Open) => 0,
                Ok(Ending::Committed) => 1,
                Ok(Ending::Aborted) => 2,
                Err(refusal) => 65536 + Code::from(refusal.number()),
            },
            Call::Run(events, _) => {
                match paxos_commit::run(plan, states, votes, network, inboxes, summary, events, answers) {
                    Ok(()) => 0,
                    Err(refusal) => refusal.number().into(),
                }
            }
        }
    }
}

/// The same with a list by its single calls, one after the other.
pub struct Singles;

impl Engine for Singles {
    fn call(&self, plan: Plan, tables: &mut Tables, answers: &mut [u8], call: &Call) -> Code {
        let Call::Run(events, _) = call else { return Linked.call(plan, tables, answers, call) };
        let mut step = |event: &[u8]| {
            let [states, votes, network, inboxes, summary] = &mut *tables;
            paxos_commit::step(plan, states, votes, network, inboxes, summary, event).err().map_or(0, Refusal::number)
        };
        // Bytes that are no event are refused after the tables; a list before the summary.
        match step(&[]) {
            7 | 20 if events.len() != 4 * answers.len() => 19,
            7 => {
                for (event, answer) in events.chunks(4).zip(answers) {
                    *answer = step(event);
                }
                0
            }
            number => number.into(),
        }
    }
}

/// The part of I, or of the summary, that is lent; where the table was shortened, what is left of it.
pub fn part(table: &mut [u8], bounds: [usize; 2]) -> &mut [u8] {
    let range = range(table, bounds);
    &mut table[range]
}

/// Where that part stands.
pub fn range(table: &[u8], [from, to]: [usize; 2]) -> Range<usize> {
    let to = to.min(table.len());
    from.min(to)..to
}

/// Whether an inbox has 2b messages of a majority for this instance, ballot and value.
pub fn voted(plan: Plan, inbox: &[u8], ins: u8, bal: u8, val: u8) -> bool {
    let has = |acc| inbox.chunks(SLOT).any(|slot| slot.starts_with(&[0x3B, ins, acc, bal, val]));
    2 * (0..plan.acceptors).filter(|&acc| has(acc)).count() > plan.acceptors.into()
}

/// Decided: those of a majority at some ballot.
pub fn decided(plan: Plan, inbox: &[u8], ins: u8, val: u8) -> bool {
    inbox
        .chunks(SLOT)
        .any(|slot| slot.starts_with(&[0x3B, ins]) && slot[4] == val && voted(plan, inbox, ins, slot[3], val))
}

/// Whether an inbox has the 2a by which a weight chooses to abort.
pub fn declined(inbox: &[u8], ins: u8) -> bool {
    inbox.chunks(SLOT).any(|slot| slot.starts_with(&[0x39, ins, 0, 2]))
}

/// The summary as the inboxes say it.
pub fn standing(plan: Plan, inboxes: &[u8]) -> Vec<u8> {
    let prepared = |inbox: &[u8], ins| decided(plan, inbox, ins, 1);
    let aborted = |inbox: &[u8], ins| decided(plan, inbox, ins, 2) || declined(inbox, ins);
    (0..plan.leaders)
        .map(|leader| &inboxes[plan.inbox_range(inboxes.len(), leader).unwrap()])
        .flat_map(|inbox| (0..plan.rms).map(move |ins| (inbox, ins)))
        .map(|(inbox, ins)| u8::from(prepared(inbox, ins)) + 2 * u8::from(aborted(inbox, ins)))
        .collect()
}

/// The hand-written Rust.
pub struct Reference;

fn reference_code(answer: Result<reference::Sent, u8>) -> Code {
    match answer {
        Ok(reference::Sent::Slot(slot)) => slot as Code,
        Ok(reference::Sent::Quiet) => 65535,
        Err(number) => 65536 + Code::from(number),
    }
}

impl Engine for Reference {
    fn call(&self, plan: Plan, tables: &mut Tables, answers: &mut [u8], call: &Call) -> Code {
        use reference::{Message, Vote};
        let Plan { rms, acceptors, leaders, order } = plan;
        let plan = reference::Plan { rms, acceptors, leaders, order };
        let [states, votes, network, inboxes, summary] = tables;
        match call {
            Call::Read(bytes) => match reference::read(plan, bytes) {
                Ok(message) => Code::from_le_bytes(match message {
                    Message::Phase1a { ins, bal } => [0, 0x29, ins, 0, 0, bal, 0, 0],
                    Message::Phase1b { ins, acc, mbal, vote: None } => [0, 0x27, ins, acc, mbal, 0, 0, 0],
                    Message::Phase1b { ins, acc, mbal, vote: Some(Vote { bal, val }) } => {
                        [0, 0x3F, ins, acc, mbal, bal, val, 0]
                    }
                    Message::Phase2a { ins, bal, val } => [0, 0x39, ins, 0, 0, bal, val, 0],
                    Message::Phase2b { ins, acc, bal, val } => [0, 0x3B, ins, acc, 0, bal, val, 0],
                    Message::Decision { val } => [0, 0x30, 0, 0, 0, 0, val, 0],
                }),
                Err(number) => number.into(),
            },
            Call::Write([map, ins, acc, mbal, bal, val]) => {
                let (ins, acc, mbal, bal, val) = (*ins, *acc, *mbal, *bal, *val);
                let message = match map {
                    0x29 => Some(Message::Phase1a { ins, bal }),
                    0x27 => Some(Message::Phase1b { ins, acc, mbal, vote: None }),
                    0x3F => Some(Message::Phase1b { ins, acc, mbal, vote: Some(Vote { bal, val }) }),
                    0x39 => Some(Message::Phase2a { ins, bal, val }),
                    0x3B => Some(Message::Phase2b { ins, acc, bal, val }),
                    0x30 => Some(Message::Decision { val }),
                    _ => None,
                };
                // Of a map that is no message's only the plan is asked, of a message that is in every plan; then the
                // number is 15.
                let asked = message.unwrap_or(Message::Decision { val: 1 });
                match (reference::write(plan, asked), message) {
                    ((0, _, _), None) => 256 * 15,
                    ((0, slot, len), Some(_)) => {
                        assert_eq!(len, reference::length(slot[0]));
                        Code::from_le_bytes(slot)
                    }
                    ((number, slot, len), _) => {
                        assert_eq!((slot, len), ([0; 8], 0));
                        256 * Code::from(number)
                    }
                }
            }
            Call::Open => match reference::open(plan, states, votes, network, inboxes, summary) {
                Ok(()) => 0,
                Err(number) => number.into(),
            },
            Call::Step(event) => {
                reference_code(reference::event(plan, states, votes, network, inboxes, summary, event))
            }
            Call::Rm(event) => reference_code(reference::rm_step(plan, states, network, event)),
            Call::Acceptor(event) => reference_code(reference::acceptor_step(plan, votes, network, event)),
            Call::Leader(inbox, own, event) => {
                let (inbox, own) = (part(inboxes, *inbox), part(summary, *own));
                reference_code(reference::leader_step(plan, inbox, own, network, event))
            }
            Call::Deliver(bytes) => reference_code(reference::deliver(plan, network, bytes).map(reference::Sent::Slot)),
            Call::Ending => match reference::ending(plan, states) {
                Ok(reference::Ending::Open) => 0,
                Ok(reference::Ending::Committed) => 1,
                Ok(reference::Ending::Aborted) => 2,
                Err(number) => 65536 + Code::from(number),
            },
            Call::Run(events, _) => {
                match reference::run(plan, states, votes, network, inboxes, summary, events, answers) {
                    Ok(()) => 0,
                    Err(number) => number.into(),
                }
            }
        }
    }
}

/// Tables, and calls on them one after another.
#[derive(Clone, Debug)]
pub struct Case {
    pub tables: Tables,
    pub ops: Vec<Op>,
}

/// A call that did not do the same on both engines.
#[derive(Clone, Debug)]
pub struct Mismatch {
    /// The call, by its number in the history.
    pub at: usize,
    /// The tables as the call was lent them.
    pub lent: Tables,
    pub answers: [Code; 2],
    pub left: [Tables; 2],
    /// The answers of a list.
    pub listed: [Vec<u8>; 2],
}

/// Two engines, each with its tables, and with the answers of the last list.
pub struct Pair<'a> {
    pub engines: [&'a dyn Engine; 2],
    pub tables: [Tables; 2],
    pub listed: [Vec<u8>; 2],
    /// The tables as the last call was lent them.
    pub lent: Tables,
    saved: Tables,
}

impl<'a> Pair<'a> {
    pub fn new(engines: [&'a dyn Engine; 2], tables: &Tables) -> Pair<'a> {
        Pair {
            engines,
            tables: [tables.clone(), tables.clone()],
            listed: [Vec::new(), Vec::new()],
            lent: tables.clone(),
            saved: tables.clone(),
        }
    }

    /// One call on both: its answer, the same from both, or how they differ. A refusal must change no byte.
    pub fn run(&mut self, op: &Op, at: usize) -> Result<Code, Box<Mismatch>> {
        if op.damages() {
            self.saved.clone_from(&self.tables[0]);
            for tables in &mut self.tables {
                op.damage(tables);
            }
        }
        self.lent.clone_from(&self.tables[0]);
        let [first, second] = &mut self.tables;
        for listed in &mut self.listed {
            listed.clear();
            listed.extend_from_slice(op.call.answers());
        }
        let [told, said] = &mut self.listed;
        let answers = [
            self.engines[0].call(op.plan, first, told, &op.call),
            self.engines[1].call(op.plan, second, said, &op.call),
        ];
        let refused = refusal(&op.call, answers[0]) != 0;
        let same = answers[0] == answers[1] && self.tables[0] == self.tables[1] && self.listed[0] == self.listed[1];
        let kept = self.tables[0] == self.lent && self.listed[0] == op.call.answers();
        if !same || refused && !kept {
            return Err(Box::new(Mismatch {
                at,
                lent: self.lent.clone(),
                answers,
                left: self.tables.clone(),
                listed: self.listed.clone(),
            }));
        }
        if op.damages() {
            for tables in &mut self.tables {
                tables.clone_from(&self.saved);
            }
        }
        Ok(answers[0])
    }
}

impl Case {
    /// The first mismatch, if there is one.
    pub fn run(&self, engines: [&dyn Engine; 2]) -> Option<Box<Mismatch>> {
        let mut pair = Pair::new(engines, &self.tables);
        self.ops.iter().enumerate().find_map(|(at, op)| pair.run(op, at).err())
    }
}
