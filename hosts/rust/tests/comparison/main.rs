//! The linked calls beside the hand-written Rust of documents 01 and 02 on random histories: answers and all five tables after
//! each call, byte by byte, and the answers that a list was lent.
//!
//!     PAXOS_COMMIT_SEED     another seed (a number; the same seed makes the same calls)
//!     PAXOS_COMMIT_CALLS    how many calls

mod case;
mod generator;
#[path = "../reference/mod.rs"]
mod reference;
mod shrink;

use case::{CALLS, Call, Case, Code, Engine, Linked, Mismatch, Op, Pair, Reference, Singles, Tables};
use case::{I, N, S, decided, declined, range, refusal, standing, voted};
use generator::Generator;
use paxos_commit::Plan;
use std::ops::Range;

const SEED: u64 = 1;

fn number(variable: &str, otherwise: u64) -> u64 {
    match std::env::var(variable) {
        Ok(text) => text.parse().unwrap_or_else(|_| panic!("{variable} is no number: {text}")),
        Err(_) => otherwise,
    }
}

/// What is counted: the calls, and the events in lists.
const ROWS: usize = CALLS.len() + 1;

/// Receipts outside of lists of a weight's own 2a, at ballot 0, and of what must not be taken for it.
const RECEIPTS: [&str; 7] = [
    "a 2a at ballot 0 for prepared",
    "a 2a at ballot 0 for aborted, bit clear",
    "the same, in the inbox already",
    "a 2a at ballot 0 for aborted, bit set",
    "a 2a at ballot 0, no room (14)",
    "a 2a of another ballot (9)",
    "a 2b for aborted beside that 2a, no majority, bit clear",
];

/// How often each call answered what: acceptances by kind (for the ending by its number, 0 for other calls without an
/// event), and refusals; so each event in a list; and the receipts above.
#[derive(Default)]
struct Seen {
    calls: usize,
    histories: usize,
    longest: usize,
    accepted: [[usize; 9]; ROWS],
    refused: [[usize; 21]; ROWS],
    receipts: [usize; RECEIPTS.len()],
}

impl Seen {
    fn count(&mut self, call: &Call, code: Code, listed: &[u8]) {
        let kind = match call {
            Call::Ending => code as usize,
            call => call.event().and_then(|event| event.first()).map_or(0, |&kind| usize::from(kind)),
        };
        self.calls += 1;
        let number = refusal(call, code);
        self.answer(call.number(), kind, number);
        if let Call::Run(events, _) = call
            && number == 0
        {
            for (event, &number) in events.chunks(4).zip(listed) {
                self.answer(CALLS.len(), event[0].into(), number);
            }
        }
    }

    fn answer(&mut self, row: usize, kind: usize, number: u8) {
        match number {
            0 => self.accepted[row][kind] += 1,
            number => self.refused[row][usize::from(number)] += 1,
        }
    }

    fn count_receipt(&mut self, plan: Plan, lent: &Tables, call: &Call, code: Code) {
        let row = Receipt::of(plan, lent, call).and_then(|receipt| receipt.row(plan, lent, refusal(call, code)));
        if let Some(row) = row {
            self.receipts[row] += 1;
        }
    }
}

/// A receipt, whatever it is answered: the message in its slot, and the parts of I and of the summary that it is lent.
struct Receipt {
    message: [u8; 8],
    inbox: Range<usize>,
    own: Range<usize>,
}

impl Receipt {
    fn of(plan: Plan, tables: &Tables, call: &Call) -> Option<Receipt> {
        let (inbox, own) = match call {
            Call::Step(event) => {
                let who = *event.get(1)?;
                let (inbox, own) = (plan.inbox_range(tables[I].len(), who)?, plan.summary_range(who)?);
                ([inbox.start, inbox.end], [own.start, own.end])
            }
            Call::Leader(inbox, own, _) => (*inbox, *own),
            _ => return None,
        };
        let &[4, _, high, low] = &call.event()?[..] else { return None };
        let message = *tables[N].as_chunks().0.get(usize::from(u16::from_be_bytes([high, low])))?;
        Some(Receipt { message, inbox: range(&tables[I], inbox), own: range(&tables[S], own) })
    }

    /// Whether the leader's part of the summary has no bit for aborted.
    fn clear(&self, tables: &Tables, ins: u8) -> bool {
        tables[S][self.own.clone()][usize::from(ins)] & 2 == 0
    }

    /// The row of `RECEIPTS` that it counts for, by its answer.
    fn row(&self, plan: Plan, lent: &Tables, number: u8) -> Option<usize> {
        match (self.message, number) {
            ([0x39, _, 0, 1, ..], 0) => Some(0),
            ([0x39, ins, 0, ..], 0) if !self.clear(lent, ins) => Some(3),
            ([0x39, ins, 0, ..], 0) => Some(if declined(&lent[I][self.inbox.clone()], ins) { 2 } else { 1 }),
            ([0x39, _, 0, ..], 14) => Some(4),
            ([0x39, _, 1..=255, ..], 9) => Some(5),
            ([0x3B, ins, _, _, 2, ..], 0) if self.clear(lent, ins) => {
                let inbox = [&lent[I][self.inbox.clone()], &self.message].concat();
                (declined(&inbox, ins) && !decided(plan, &inbox, ins, 2)).then_some(6)
            }
            _ => None,
        }
    }
}

/// Random histories up to so many calls; the first mismatch as its whole history.
fn compare(engines: [&dyn Engine; 2], seed: u64, calls: usize) -> (Seen, Option<(Case, Box<Mismatch>)>) {
    let mut generator = Generator::new(seed);
    let mut seen = Seen::default();
    while seen.calls < calls {
        let mut history = Case { tables: generator.start(), ops: Vec::new() };
        let mut pair = Pair::new(engines, &history.tables);
        while generator.left > 0 {
            let op = generator.next(&pair.tables[0]);
            let answer = pair.run(&op, history.ops.len());
            history.ops.push(op);
            let Op { plan, call, .. } = &history.ops[history.ops.len() - 1];
            match answer {
                Ok(code) => {
                    seen.count(call, code, &pair.listed[0]);
                    seen.count_receipt(*plan, &pair.lent, call, code);
                }
                Err(mismatch) => return (seen, Some((history, mismatch))),
            }
        }
        seen.histories += 1;
        seen.longest = seen.longest.max(history.ops.len());
    }
    (seen, None)
}

/// What each call, and an event in a list, may answer: kinds that it accepts, and refusals.
const POSSIBLE: [(&[usize], &[usize]); ROWS] = [
    (&[0], &[1, 15, 16, 17, 18]),
    (&[0], &[1, 15, 17]),
    (&[0], &[1, 2, 20]),
    (&[0, 1, 2, 3, 4, 5, 6, 7, 8], &[1, 2, 3, 4, 5, 6, 7, 8, 9, 10, 11, 12, 13, 14, 20]),
    (&[0, 1, 2], &[1, 2, 3, 5, 7, 8, 9, 11, 12, 13]),
    (&[3], &[1, 2, 4, 5, 7, 8, 9, 12, 13]),
    (&[4, 5, 6, 7, 8], &[1, 2, 5, 6, 7, 8, 9, 10, 12, 13, 14, 20]),
    (&[0], &[1, 2, 5, 13, 15, 16, 17, 18]),
    (&[0, 1, 2], &[1, 2, 3]),
    (&[0], &[1, 2, 3, 4, 5, 6, 19, 20]),
    (&[0, 1, 2, 3, 4, 5, 6, 7, 8], &[7, 8, 9, 10, 11, 12, 13, 14]),
];

#[test]
fn linked_calls_and_reference_agree() {
    let seed = number("PAXOS_COMMIT_SEED", SEED);
    let calls = number("PAXOS_COMMIT_CALLS", if cfg!(debug_assertions) { 100_000 } else { 20_000_000 }) as usize;
    let seen = agree([&Linked, &Reference], "linked call and reference", seed, calls);
    println!(
        "seed {seed}: {} calls in {} histories, the longest of {} calls",
        seen.calls, seen.histories, seen.longest
    );
    let mut rare = Vec::new();
    for (row, (kinds, numbers)) in POSSIBLE.iter().enumerate() {
        let name = CALLS.get(row).unwrap_or(&"event in run");
        let (accepted, refused) = (&seen.accepted[row], &seen.refused[row]);
        println!("{name:14} accepted by kind {accepted:?}, refused {:?}", &refused[1..]);
        for (kind, &count) in accepted.iter().enumerate() {
            assert!(kinds.contains(&kind) || count == 0, "{name} accepted kind {kind}");
            if kinds.contains(&kind) && count < calls / 100_000 {
                rare.push(format!("{name} accepted kind {kind} {count} times"));
            }
        }
        for (number, &count) in refused.iter().enumerate() {
            assert!(numbers.contains(&number) || count == 0, "{name} answered {number}");
            if numbers.contains(&number) && count < calls / 100_000 {
                rare.push(format!("{name} answered {number} {count} times"));
            }
        }
    }
    for (name, &count) in RECEIPTS.iter().zip(&seen.receipts) {
        println!("receipt of {name}: {count}");
        if count < calls / 100_000 {
            rare.push(format!("receipt of {name} {count} times"));
        }
    }
    assert!(rare.is_empty(), "the calls were not mixed enough: {}", rare.join(", "));
}

/// The linked library by itself: a list is its single calls, one after the other.
#[test]
fn a_linked_list_is_its_linked_single_calls() {
    let seed = number("PAXOS_COMMIT_SEED", SEED);
    let calls = number("PAXOS_COMMIT_CALLS", if cfg!(debug_assertions) { 100_000 } else { 2_000_000 }) as usize;
    agree([&Linked, &Singles], "list and single calls", seed.wrapping_add(1), calls.min(2_000_000));
}

/// From a summary as the inboxes say it, after each call that is lent all tables whole each byte is what its inbox says.
#[test]
fn the_linked_summary_says_what_the_inboxes_do() {
    let calls =
        number("PAXOS_COMMIT_CALLS", if cfg!(debug_assertions) { 20_000 } else { 500_000 }).min(500_000) as usize;
    let mut generator = Generator::new(number("PAXOS_COMMIT_SEED", SEED).wrapping_add(2));
    let (mut done, mut set) = (0, 0);
    while done < calls {
        let mut tables = generator.start();
        tables[S] = standing(generator.plan, &tables[I]);
        while generator.left > 0 {
            let Op { call, undone: false, .. } = generator.next(&tables) else { continue };
            let before = tables[S].clone();
            Linked.call(generator.plan, &mut tables, &mut call.answers().to_vec(), &call);
            // Where no bit was set, now and then.
            done += 1;
            set += usize::from(tables[S] != before);
            if tables[S] != before || done % 16 == 0 {
                assert_eq!(tables[S], standing(generator.plan, &tables[I]), "after {call:?}");
            }
        }
    }
    assert!(set >= calls / 1000, "{set} of {done} calls set a bit");
}

/// Both do the same on random histories, or the smallest case found where they do not.
fn agree(engines: [&dyn Engine; 2], names: &str, seed: u64, calls: usize) -> Seen {
    let (seen, found) = compare(engines, seed, calls);
    if let Some((case, mismatch)) = found {
        let length = case.ops.len();
        let (case, mismatch) = shrink::shrink(engines, case, mismatch);
        panic!(
            "seed {seed}, call {}: {names} differ. The smallest case found, from a history of {length} calls:\n{}",
            seen.calls,
            shrink::told(&case, &mismatch)
        );
    }
    seen
}

/// What a fault does in place of a call, given the plan, the tables, the answers and the call.
type Fault = fn(Plan, &mut Tables, &mut [u8], &Call) -> Option<Code>;

/// The reference with a fault.
struct Faulty(Fault);

impl Engine for Faulty {
    fn call(&self, plan: Plan, tables: &mut Tables, answers: &mut [u8], call: &Call) -> Code {
        (self.0)(plan, tables, answers, call).unwrap_or_else(|| Reference.call(plan, tables, answers, call))
    }
}

/// A planted fault is found, and its smallest case is small.
fn found(fault: Fault) -> (Case, Box<Mismatch>) {
    let faulty = Faulty(fault);
    let engines: [&dyn Engine; 2] = [&Reference, &faulty];
    let (_, found) = compare(engines, number("PAXOS_COMMIT_SEED", SEED), 1_000_000);
    let (case, mismatch) = found.expect("the planted fault is not found");
    let (case, mismatch) = shrink::shrink(engines, case, mismatch);
    (case, mismatch)
}

#[test]
fn planted_fault_reports_acceptance_and_stores_nothing() {
    let (case, _) = found(|plan, tables, answers, call| match call {
        Call::Step(event) if event.first() == Some(&3) => {
            let old = tables.clone();
            let code = Reference.call(plan, tables, answers, call);
            *tables = old;
            Some(code)
        }
        _ => None,
    });
    assert_eq!(case.ops.len(), 1);
    assert_eq!(case.ops[0].plan, Plan { rms: 1, acceptors: 1, leaders: 1, order: 0 });
    assert!(case.tables[N].len() <= 16, "{:?}", case.tables[N]);
}

#[test]
fn planted_fault_refuses_a_full_network_one_slot_early() {
    let (case, mismatch) = found(|plan, tables, answers, call| match call {
        Call::Rm(event) if event.first() == Some(&0) => {
            let code = Reference.call(plan, &mut tables.clone(), answers, call);
            (8 * (code + 1) == tables[N].len() as Code).then_some(65536 + 13)
        }
        _ => None,
    });
    assert_eq!(case.ops.len(), 1);
    // one slot, unused or with that message
    assert_eq!(case.tables[N].len(), 8);
    assert_eq!(mismatch.answers, [0, 65536 + 13]);
}

#[test]
fn planted_fault_in_the_reader() {
    let (case, _) = found(|_, _, _, call| match call {
        Call::Read(bytes) if bytes.len() == 7 && bytes[0] == 0x3B && bytes[4] == 3 => Some(16),
        _ => None,
    });
    assert_eq!(case.ops.len(), 1);
    assert_eq!(case.ops[0].call, Call::Read(vec![0x3B, 0, 0, 0, 3, 0, 0]));
    assert!(case.tables.iter().all(|table| table.len() <= 8));
}

#[test]
fn planted_fault_delivers_a_message_that_stands_there_again() {
    let (case, _) = found(|plan, tables, answers, call| match call {
        Call::Deliver(bytes) => {
            let room = tables[N].chunks_exact(8).position(|slot| slot[0] == 0)?;
            let code = Reference.call(plan, tables, answers, call);
            if code < room as Code {
                tables[N][8 * room..8 * room + bytes.len()].copy_from_slice(bytes);
            }
            Some(code)
        }
        _ => None,
    });
    assert_eq!(case.ops.len(), 1);
    assert_eq!(case.ops[0].plan, Plan { rms: 1, acceptors: 1, leaders: 1, order: 0 });
    assert_eq!(case.tables[N].len(), 16);
}

/// A message of another order is read where the two numbers have the same low byte.
#[test]
fn planted_fault_compares_half_of_the_order_number() {
    let (case, mismatch) = found(|plan, tables, answers, call| match call {
        Call::Read(bytes) if bytes.last() == Some(&(plan.order as u8)) => {
            let order = u16::from_be_bytes([*bytes.iter().rev().nth(1)?, plan.order as u8]);
            Some(Reference.call(Plan { order, ..plan }, tables, answers, call))
        }
        _ => None,
    });
    assert_eq!(case.ops.len(), 1);
    assert_eq!(mismatch.answers[0], 18);
    assert!(case.tables.iter().all(|table| table.len() <= 8));
}

/// A list ends at the first event that is refused.
#[test]
fn planted_fault_stops_at_a_refused_event() {
    let (case, mismatch) = found(|plan, tables, answers, call| {
        let Call::Run(events, _) = call else { return None };
        let code = Reference.call(plan, &mut tables.clone(), &mut answers.to_vec(), call);
        if code == 0 {
            for (event, answer) in events.chunks(4).zip(answers) {
                *answer =
                    Reference.call(plan, tables, &mut [], &Call::Step(event.to_vec())).saturating_sub(65536) as u8;
                if *answer != 0 {
                    break;
                }
            }
        }
        Some(code)
    });
    assert_eq!(case.ops.len(), 1);
    assert_eq!(case.ops[0].plan, Plan { rms: 1, acceptors: 1, leaders: 1, order: 0 });
    assert!(mismatch.listed[0].len() == 2 && case.tables[N].len() <= 8, "{case:?}");
}

/// A list that is refused as a whole is answered for its first event too.
#[test]
fn planted_fault_answers_a_refused_list() {
    let (case, mismatch) = found(|plan, tables, answers, call| {
        let Call::Run(..) = call else { return None };
        let code = Reference.call(plan, tables, answers, call);
        if let (19, Some(answer)) = (code, answers.first_mut()) {
            *answer = 19;
        }
        Some(code)
    });
    assert_eq!((case.ops.len(), mismatch.answers), (1, [19, 19]));
    assert_eq!(mismatch.listed[1], [19]);
    assert!(case.tables[N].is_empty() && mismatch.listed[0].len() == 1, "{case:?}");
}

/// A list is judged before its tables are.
#[test]
fn planted_fault_looks_at_the_list_first() {
    let (case, mismatch) = found(|_, _, answers, call| match call {
        Call::Run(events, _) if events.len() != 4 * answers.len() => Some(19),
        _ => None,
    });
    assert_eq!(case.ops.len(), 1);
    assert!(mismatch.answers[0] < 7 && mismatch.answers[1] == 19);
}

/// The event is judged before the summary.
#[test]
fn planted_fault_looks_at_the_event_before_the_summary() {
    let (case, mismatch) = found(|plan, tables, answers, call| match call {
        Call::Step(_) => {
            let mut zeroed = tables.clone();
            zeroed[S] = vec![0; plan.summary_len()];
            let code = Reference.call(plan, &mut zeroed, answers, call);
            (code == 65536 + 7).then_some(code)
        }
        _ => None,
    });
    assert_eq!((case.ops.len(), mismatch.answers), (1, [65536 + 20, 65536 + 7]));
}

/// A list is judged after the summary.
#[test]
fn planted_fault_looks_at_the_summary_before_the_list() {
    let (case, mismatch) = found(|plan, tables, _, call| match call {
        Call::Run(..) if Reference.call(plan, tables, &mut [0], &Call::Step(vec![])) == 65536 + 20 => Some(20),
        _ => None,
    });
    assert_eq!((case.ops.len(), mismatch.answers), (1, [19, 20]));
    assert!(case.tables[N].is_empty() && case.tables[I].is_empty(), "{case:?}");
}

/// A leader's own receipt sets the bit only where the majority is at the ballot of the message.
#[test]
fn planted_fault_asks_for_a_majority_at_the_same_ballot() {
    let (case, mismatch) = found(|plan, tables, answers, call| {
        let receipt = Receipt::of(plan, tables, call)?;
        let (Call::Leader(..), [0x3B, ins, _, bal, val, ..]) = (call, receipt.message) else { return None };
        let summary = tables[S].clone();
        let code = Reference.call(plan, tables, answers, call);
        if code == 65535 && !voted(plan, &tables[I][receipt.inbox], ins, bal, val) {
            tables[S] = summary;
        }
        Some(code)
    });
    assert_eq!((case.ops.len(), mismatch.answers), (1, [65535; 2]));
    // Of one acceptor every vote is a majority.
    let Plan { rms, acceptors, .. } = case.ops[0].plan;
    assert_eq!((rms, acceptors), (1, 2));
    assert!(mismatch.left[0][S].len() == 1 && mismatch.left[1][S] == [0], "{case:?}");
}

/// A message with this map that is in the inbox already sets no bit.
fn leaves_a_repeated(map: u8, plan: Plan, tables: &mut Tables, answers: &mut [u8], call: &Call) -> Option<Code> {
    Receipt::of(plan, tables, call).filter(|receipt| receipt.message[0] == map)?;
    let (inboxes, summary) = (tables[I].clone(), tables[S].clone());
    let code = Reference.call(plan, tables, answers, call);
    if tables[I] == inboxes {
        tables[S] = summary;
    }
    Some(code)
}

/// A 2b, or a weight's own 2a, that is in the inbox already sets no bit.
#[test]
fn planted_fault_leaves_a_repeated_vote() {
    let faults: [Fault; 2] = [
        |plan, tables, answers, call| leaves_a_repeated(0x3B, plan, tables, answers, call),
        |plan, tables, answers, call| leaves_a_repeated(0x39, plan, tables, answers, call),
    ];
    for fault in faults {
        let (case, mismatch) = found(fault);
        assert_eq!((case.ops.len(), mismatch.answers), (1, [65535; 2]));
        assert!(case.tables[N].len() == 8 && case.ops[0].plan.rms == 1, "{case:?}");
    }
}

/// Commit by the inbox in place of the summary.
#[test]
fn planted_fault_decides_by_the_inbox() {
    let (case, _) = found(|plan, tables, answers, call| match call {
        Call::Step(event) if event.first() == Some(&7) => {
            let mut told = tables.clone();
            if Reference.call(plan, &mut told.clone(), &mut [], &Call::Step(vec![])) == 65536 + 7 {
                told[S] = standing(plan, &tables[I]);
            }
            let code = Reference.call(plan, &mut told, answers, call);
            tables[N] = told[N].clone();
            Some(code)
        }
        _ => None,
    });
    let Plan { rms, acceptors, .. } = case.ops[0].plan;
    assert_eq!((case.ops.len(), rms, acceptors), (1, 1, 1));
}

/// A 2a of any ballot is taken for the weight's own.
#[test]
fn planted_fault_takes_a_proposal_of_a_leader() {
    let (case, mismatch) = found(|plan, tables, answers, call| {
        Receipt::of(plan, tables, call).filter(|receipt| receipt.message[0] == 0x39)?;
        let code = Reference.call(plan, tables, answers, call);
        Some(if code == 65536 + 9 { 65535 } else { code })
    });
    assert_eq!((case.ops.len(), mismatch.answers), (1, [65536 + 9, 65535]));
    assert_eq!(case.tables[N], [0x39, 0, 1, 1, 0, 0, 0, 0]);
}

/// A weight's own 2a for prepared sets that bit, as one for aborted does.
#[test]
fn planted_fault_takes_a_prepared_weight_for_decided() {
    let (case, mismatch) = found(|plan, tables, answers, call| {
        let Receipt { message: [0x39, ins, 0, 1, ..], own, .. } = Receipt::of(plan, tables, call)? else { return None };
        let code = Reference.call(plan, tables, answers, call);
        if code == 65535 {
            tables[S][own][usize::from(ins)] |= 1;
        }
        Some(code)
    });
    assert_eq!((case.ops.len(), mismatch.answers), (1, [65535; 2]));
    assert_eq!(mismatch.left.map(|tables| tables[S].iter().sum::<u8>()), [0, 1]);
}

/// A vote for aborted sets the bit where the weight's own 2a is in the inbox, though no majority has voted.
#[test]
fn planted_fault_hears_a_weight_by_a_vote() {
    let (case, mismatch) = found(|plan, tables, answers, call| {
        let receipt = Receipt::of(plan, tables, call)?;
        let [0x3B, ins, _, _, 2, ..] = receipt.message else { return None };
        let code = Reference.call(plan, tables, answers, call);
        if code == 65535 && declined(&tables[I][receipt.inbox], ins) {
            tables[S][receipt.own][usize::from(ins)] |= 2;
        }
        Some(code)
    });
    let Plan { rms, acceptors, .. } = case.ops[0].plan;
    assert_eq!((case.ops.len(), rms, acceptors), (1, 1, 2));
    assert_eq!(mismatch.left.map(|tables| tables[S].iter().sum::<u8>()), [0, 2]);
}
