//! The linked calls beside the hand-written Rust of documents 01 and 02, in one run. It prints Markdown tables of ratios,
//! linked time / Rust time.
//!
//!     cargo bench --bench calls                 all of it
//!     cargo bench --bench calls -- lists        one part: events, roles, turns, others, lists or rehearsals
//!
//! Largest plan (n = 16, A = 7, L = 4) and largest tables (1,024 slots in N and in each inbox). Both engines get the
//! same tables and events and must answer the same. Each call is timed by itself, and what it changed is restored
//! before the next, outside the timing; sixteen calls are a batch, and the smallest of many batches counts, less the
//! smallest batch of empty timings. The engines take turns batch by batch. In the part `turns` a batch is a call on each of
//! 96 tables that differ in the messages beside the needed ones, so that no branch on those is foreseen. A list of 256
//! events is timed as a whole, and so are its events as single calls one after the other; the smallest of many rounds counts, for an event.

#[path = "../tests/reference/mod.rs"]
mod reference;

use paxos_commit::{Answer, Event, Fields, Plan, Refusal, SLOT};
use std::cell::RefCell;
use std::collections::HashMap;
use std::hint::black_box;
use std::time::{Duration, Instant};

const PLAN: Plan = Plan { rms: 16, acceptors: 7, leaders: 4, order: 0x0102 };
const REFERENCE_PLAN: reference::Plan = reference::Plan { rms: 16, acceptors: 7, leaders: 4, order: 0x0102 };
const SLOTS: usize = 1024;
const BATCHES: usize = 1000;
const ROUNDS: usize = 100;
const TURNS: u64 = 96;
const CALLS: usize = 16;

type Message = [u8; SLOT];

fn message_1a(ins: u8, bal: u8) -> Message {
    [0x29, ins, bal, 1, 2, 0, 0, 0]
}
fn message_1b(ins: u8, acc: u8, mbal: u8) -> Message {
    [0x27, ins, acc, mbal, 1, 2, 0, 0]
}
fn message_1b_vote(ins: u8, acc: u8, mbal: u8, bal: u8, val: u8) -> Message {
    [0x3F, ins, acc, mbal, bal, val, 1, 2]
}
fn message_2a(ins: u8, bal: u8, val: u8) -> Message {
    [0x39, ins, bal, val, 1, 2, 0, 0]
}
fn message_2b(ins: u8, acc: u8, bal: u8, val: u8) -> Message {
    [0x3B, ins, acc, bal, val, 1, 2, 0]
}
fn decision(val: u8) -> Message {
    [0x30, val, 1, 2, 0, 0, 0, 0]
}

struct Random(u64);

impl Random {
    fn below(&mut self, bound: usize) -> usize {
        self.0 ^= self.0 << 13;
        self.0 ^= self.0 >> 7;
        self.0 ^= self.0 << 17;
        ((self.0 >> 20) % bound as u64) as usize
    }

    fn byte(&mut self, bound: usize) -> u8 {
        self.below(bound) as u8
    }

    /// A message that no kind below sends, so that a send looks through all used slots.
    fn message(&mut self) -> Message {
        let (ins, acc, val) = (self.byte(16), self.byte(7), 1 + self.byte(2));
        let (bal, mbal) = (1 + self.byte(8), self.byte(9));
        match self.below(7) {
            0 => message_1a(ins, bal),
            1 => message_1b(ins, acc, mbal),
            2 => message_1b_vote(ins, acc, mbal, bal, val),
            3 | 4 => message_2a(ins, bal, val),
            _ => message_2b(ins, acc, bal, val),
        }
    }
}

#[derive(Clone, PartialEq)]
struct Tables {
    states: Vec<u8>,
    votes: Vec<u8>,
    network: Vec<u8>,
    inboxes: Vec<u8>,
    summary: Vec<u8>,
}

impl Tables {
    fn fresh() -> Tables {
        Tables {
            states: vec![0; PLAN.states_len()],
            votes: vec![0; PLAN.votes_len()],
            network: vec![0; SLOT * SLOTS],
            inboxes: vec![0; PLAN.inboxes_len(SLOTS)],
            summary: vec![0; PLAN.summary_len()],
        }
    }

    fn restore(&mut self, from: &Tables) {
        self.states.copy_from_slice(&from.states);
        self.votes.copy_from_slice(&from.votes);
        self.network.copy_from_slice(&from.network);
        self.inboxes.copy_from_slice(&from.inboxes);
        self.summary.copy_from_slice(&from.summary);
    }

    fn inbox(&mut self, leader: u8) -> &mut [u8] {
        let range = PLAN.inbox_range(self.inboxes.len(), leader).unwrap_or(0..0);
        &mut self.inboxes[range]
    }

    /// The summary becomes what the inboxes say.
    fn summarise(&mut self) {
        let inboxes = self.inboxes.chunks_exact(self.inboxes.len() / usize::from(PLAN.leaders));
        for (inbox, summary) in inboxes.zip(self.summary.chunks_exact_mut(PLAN.leader_summary_len())) {
            let mut voters = HashMap::new();
            for slot in inbox.chunks_exact(SLOT).filter(|slot| matches!(slot, [0x39, _, 0, 2, ..])) {
                summary[usize::from(slot[1])] |= 2;
            }
            for slot in inbox.chunks_exact(SLOT).filter(|slot| slot[0] == 0x3B) {
                let voters: &mut u8 = voters.entry([slot[1], slot[3], slot[4]]).or_default();
                *voters |= 1 << slot[2];
                if 2 * voters.count_ones() > PLAN.acceptors.into() {
                    summary[usize::from(slot[1])] |= slot[4];
                }
            }
        }
    }
}

/// How the tables are used.
#[derive(Clone, Copy, PartialEq)]
enum Level {
    /// As opened.
    Fresh,
    /// Only the messages that the event needs.
    Needed,
    /// These, and mixed ones up to 512 slots.
    Half,
    /// These, mixed ones up to 1,024 slots, and the message to send in the last.
    Full,
    /// The same with 2b messages in place of mixed ones.
    Votes,
}

const LEVELS: [(Level, &str); 5] = [
    (Level::Fresh, "fresh"),
    (Level::Needed, "needed only"),
    (Level::Half, "half, mixed"),
    (Level::Full, "full, mixed"),
    (Level::Votes, "full of 2b"),
];

/// An event, what it needs, and what it sends.
struct Kind {
    name: &'static str,
    event: [u8; 4],
    /// Slot 0 of N.
    takes: Option<Message>,
    /// What stands in the acting leader's inbox.
    inbox: Vec<Message>,
    /// What stands in the last slot of a full N; without it the send is refused.
    sends: Option<Message>,
    /// What stands in the last slot of a full inbox.
    received: Option<Message>,
    /// The inbox keeps an unused slot.
    appends: bool,
    /// The acting leader's summary has no bit for weight 15, though its inbox may decide one.
    clear: bool,
}

fn kinds() -> Vec<Kind> {
    let kind = |name, event: Event| Kind {
        name,
        event: event.bytes(),
        takes: None,
        inbox: Vec::new(),
        sends: None,
        received: None,
        appends: false,
        clear: false,
    };
    let votes = |acceptors: u8| {
        (0..acceptors).flat_map(|acc| (0..16).map(move |ins| message_2b(ins, acc, 0, 1))).collect::<Vec<_>>()
    };
    let reports = (0..4).map(|acc| message_1b_vote(3, acc, 13, acc, 1)).collect::<Vec<_>>();
    let aborts = |ins| (0..4).map(|acc| message_2b(ins, acc, 9, 2)).collect::<Vec<_>>();
    let received = message_1b(3, 2, 20);
    // Votes for weight 15, which no others decide as prepared.
    let vote = |acc| message_2b(15, acc, 20, 1);
    let receipt = |name, acceptors: &[u8]| Kind {
        takes: Some(vote(2)),
        received: Some(vote(2)),
        inbox: acceptors.iter().map(|&acc| vote(acc)).collect(),
        clear: true,
        ..kind(name, Event::Receipt { leader: 3, slot: 0 })
    };
    // Weight 15 declines.
    let decline = |name, inbox, clear| Kind {
        takes: Some(message_2a(15, 0, 2)),
        received: Some(message_2a(15, 0, 2)),
        inbox,
        clear,
        ..kind(name, Event::Receipt { leader: 3, slot: 0 })
    };
    vec![
        Kind { sends: Some(message_2a(3, 0, 1)), ..kind("0 prepare", Event::Prepare { rm: 3 }) },
        Kind { sends: Some(message_2a(3, 0, 2)), ..kind("1 choose to abort", Event::ChooseToAbort { rm: 3 }) },
        Kind { takes: Some(decision(2)), ..kind("2 decision", Event::TakeDecision { rm: 3, slot: 0 }) },
        Kind {
            takes: Some(message_1a(3, 9)),
            sends: Some(message_1b(3, 2, 9)),
            ..kind("3 on a 1a", Event::Vote { acceptor: 2, slot: 0 })
        },
        Kind {
            takes: Some(message_2a(3, 0, 1)),
            sends: Some(message_2b(3, 2, 0, 1)),
            ..kind("3 on a 2a", Event::Vote { acceptor: 2, slot: 0 })
        },
        Kind {
            takes: Some(received),
            received: Some(received),
            ..kind("4 receipt of a 1b", Event::Receipt { leader: 3, slot: 0 })
        },
        receipt("4 receipt of a 2b, bit clear", &[0, 1]),
        receipt("4 receipt of a 2b that decides", &[0, 1, 3]),
        Kind { clear: false, ..receipt("4 receipt of a 2b, bit set", &[0, 1, 3, 4]) },
        decline("4 receipt of a 2a, bit clear", vec![], true),
        decline("4 receipt of a 2a, bit set", aborts(15), false),
        Kind { sends: Some(message_1a(3, 13)), ..kind("5 phase 1a", Event::Phase1a { leader: 0, ins: 3, bal: 13 }) },
        Kind {
            inbox: reports,
            sends: Some(message_2a(3, 13, 1)),
            appends: true,
            ..kind("6 phase 2a", Event::Phase2a { leader: 0, ins: 3, bal: 13 })
        },
        Kind { inbox: votes(4), sends: Some(decision(1)), ..kind("7 commit", Event::Commit { leader: 3 }) },
        Kind { inbox: votes(3), ..kind("7 refused (12)", Event::Commit { leader: 3 }) },
        Kind { inbox: aborts(3), sends: Some(decision(2)), ..kind("8 abort", Event::Abort { leader: 3 }) },
        kind("0, no room when full (13)", Event::Prepare { rm: 3 }),
        Kind { takes: Some(received), ..kind("4, no room when full (14)", Event::Receipt { leader: 3, slot: 0 }) },
        kind("2, slot beyond N (8)", Event::TakeDecision { rm: 3, slot: 65535 }),
    ]
}

/// Weight 15 is never decided as prepared by the other messages, so that Commit needs the votes that an event asks for,
/// and a receipt finds its bit clear.
fn not_15(mut message: Message) -> Message {
    if message[..2] == [0x3B, 15] {
        message[4] = 2;
    }
    message
}

/// The first messages anywhere among the others; N keeps slot 0 for the message that is taken.
fn fill(random: &mut Random, row: &mut [u8], first: &[Message], used: usize, last: Option<Message>, votes: bool) {
    let mut list = first.to_vec();
    while list.len() < used {
        let (ins, acc, bal) = (random.byte(16), random.byte(7), 1 + random.byte(8));
        let val = 1 + random.byte(2);
        let message = if votes { message_2b(ins, acc, bal, val) } else { random.message() };
        list.push(not_15(message));
    }
    if first.len() > 1 {
        for at in (1..list.len()).rev() {
            list.swap(at, random.below(at + 1));
        }
    }
    if let Some(last) = last {
        let end = list.len() - 1;
        list[end] = last;
        // A needed message may have been there.
        list.extend(first.iter().filter(|message| !list.contains(message)).copied().collect::<Vec<_>>());
        while list.len() > used {
            let spare = (0..end).rev().find(|&at| !first.contains(&list[at])).unwrap_or(0);
            list.swap_remove(spare);
            let at = list.iter().position(|message| *message == last).unwrap_or(0);
            let end = list.len() - 1;
            list.swap(at, end);
        }
    }
    for (slot, message) in row.chunks_exact_mut(SLOT).zip(list) {
        slot.copy_from_slice(&message);
    }
}

/// Tables for a kind; other ones for each turn.
fn tables(kind: &Kind, level: Level, turn: u64) -> Tables {
    let mut tables = Tables::fresh();
    if level == Level::Fresh {
        return tables;
    }
    let mut random = Random(0x9E37_79B9_7F4A_7C15_u64.wrapping_mul(2 * turn + 1));
    let used = match level {
        Level::Half => SLOTS / 2,
        Level::Full | Level::Votes => SLOTS,
        _ => 0,
    };
    let (full, votes) = (used == SLOTS, level == Level::Votes);
    let takes: Vec<Message> = kind.takes.into_iter().collect();
    fill(&mut random, &mut tables.network, &takes, used, kind.sends.filter(|_| full), votes);
    let acting = if kind.event[0] < 4 { u8::MAX } else { kind.event[1] };
    for leader in 0..PLAN.leaders {
        let (first, last, used) = if leader == acting {
            (&kind.inbox[..], kind.received.filter(|_| full), used - usize::from(full && kind.appends))
        } else {
            (&[][..], None, used)
        };
        fill(&mut random, tables.inbox(leader), first, used, last, votes);
    }
    if level != Level::Needed {
        for (at, vote) in tables.votes.chunks_exact_mut(3).enumerate().filter(|&(at, _)| at != 3 * 7 + 2) {
            let val = (at % 3) as u8;
            vote.copy_from_slice(&[val, val, val]);
        }
    }
    tables.summarise();
    if kind.clear {
        tables.summary[PLAN.summary_range(acting).unwrap_or(0..16)][15] = 0;
    }
    tables
}

/// What a leader's own call is lent: its inbox and its part of the summary.
fn lent<'a>(leader: u8, inboxes: &'a mut [u8], summary: &'a mut [u8]) -> (&'a mut [u8], &'a mut [u8]) {
    let (inbox, own) = (SLOT * SLOTS * usize::from(leader), 16 * usize::from(leader));
    (&mut inboxes[inbox..inbox + SLOT * SLOTS], &mut summary[own..own + 16])
}

/// Which call, and on which engine.
fn linked(own: bool, tables: &mut Tables, event: &[u8; 4]) -> Result<Answer, Refusal> {
    let plan = *black_box(&PLAN);
    let event = black_box(&event[..]);
    match (own, event[0]) {
        (false, _) => paxos_commit::step(
            plan,
            &mut tables.states,
            &mut tables.votes,
            &mut tables.network,
            &mut tables.inboxes,
            &mut tables.summary,
            event,
        ),
        (true, 0..=2) => paxos_commit::rm_step(plan, &mut tables.states, &mut tables.network, event),
        (true, 3) => paxos_commit::acceptor_step(plan, &mut tables.votes, &mut tables.network, event),
        (true, _) => {
            let Tables { network, inboxes, summary, .. } = tables;
            let (inbox, summary) = lent(event[1], inboxes, summary);
            paxos_commit::leader_step(plan, inbox, summary, network, event)
        }
    }
}

fn by_hand(own: bool, tables: &mut Tables, event: &[u8; 4]) -> Result<reference::Sent, u8> {
    let plan = *black_box(&REFERENCE_PLAN);
    let event = black_box(&event[..]);
    match (own, event[0]) {
        (false, _) => reference::event(
            plan,
            &mut tables.states,
            &mut tables.votes,
            &mut tables.network,
            &mut tables.inboxes,
            &mut tables.summary,
            event,
        ),
        (true, 0..=2) => reference::rm_step(plan, &mut tables.states, &mut tables.network, event),
        (true, 3) => reference::acceptor_step(plan, &mut tables.votes, &mut tables.network, event),
        (true, _) => {
            let Tables { network, inboxes, summary, .. } = tables;
            let (inbox, summary) = lent(event[1], inboxes, summary);
            reference::leader_step(plan, inbox, summary, network, event)
        }
    }
}

/// These as calls. A linked library's is one too: neither is inlined into the loop that times it.
#[inline(never)]
fn read_by_hand(plan: reference::Plan, bytes: &[u8]) -> Result<reference::Message, u8> {
    reference::read(plan, bytes)
}

#[inline(never)]
fn write_by_hand(plan: reference::Plan, message: reference::Message) -> (u8, Message, usize) {
    reference::write(plan, message)
}

#[inline(never)]
fn length_by_hand(map: u8) -> usize {
    reference::length(map)
}

#[inline(never)]
fn open_by_hand(plan: reference::Plan, tables: &mut Tables) -> Result<(), u8> {
    let Tables { states, votes, network, inboxes, summary } = tables;
    reference::open(plan, states, votes, network, inboxes, summary)
}

#[inline(never)]
fn deliver_by_hand(plan: reference::Plan, network: &mut [u8], bytes: &[u8]) -> Result<usize, u8> {
    reference::deliver(plan, network, bytes)
}

#[inline(never)]
fn ending_by_hand(plan: reference::Plan, states: &[u8]) -> Result<reference::Ending, u8> {
    reference::ending(plan, states)
}

/// The time of a batch of calls, one on each of these tables, which are restored.
fn batch<T>(tables: &mut Tables, olds: &[&Tables], mut call: impl FnMut(&mut Tables) -> T) -> Duration {
    let mut total = Duration::ZERO;
    for old in olds {
        tables.restore(old);
        let tables = black_box(&mut *tables);
        let start = Instant::now();
        black_box(call(tables));
        total += start.elapsed();
    }
    total
}

struct Times {
    linked: f64,
    by_hand: f64,
}

impl Times {
    fn ratio(&self) -> f64 {
        self.linked / self.by_hand
    }
}

/// Nanoseconds for a call, less what the timing itself takes.
fn nanoseconds(batch: Duration, empty: Duration, calls: usize) -> f64 {
    (batch.saturating_sub(empty).as_nanos() as f64 / calls as f64).max(0.1)
}

/// Calls that change the tables.
fn time_on<A, B>(
    olds: &[&Tables],
    mut linked: impl FnMut(&mut Tables) -> A,
    mut by_hand: impl FnMut(&mut Tables) -> B,
) -> Times {
    let mut tables = olds[0].clone();
    let [mut empty, mut first, mut second] = [Duration::MAX; 3];
    for _ in 0..BATCHES * CALLS / olds.len() {
        empty = empty.min(batch(&mut tables, olds, |_| ()));
        first = first.min(batch(&mut tables, olds, &mut linked));
        second = second.min(batch(&mut tables, olds, &mut by_hand));
    }
    let time = |batch| nanoseconds(batch, empty, olds.len());
    Times { linked: time(first), by_hand: time(second) }
}

/// Both engines once: the same answer, the same tables.
fn answer(own: bool, old: &Tables, event: &[u8; 4]) -> String {
    let (mut first, mut second) = (old.clone(), old.clone());
    let (said, told) = (linked(own, &mut first, event), by_hand(own, &mut second, event));
    let told = match told {
        Ok(reference::Sent::Slot(slot)) => Ok(Answer::Slot(slot as u16)),
        Ok(reference::Sent::Quiet) => Ok(Answer::Quiet),
        Err(number) => Err(Refusal::from_number(number).expect("a refusal")),
    };
    assert_eq!(said, told);
    assert!(first == second, "tables differ");
    match said {
        Ok(Answer::Slot(slot)) => format!("slot {slot}"),
        Ok(Answer::Quiet) => "quiet".into(),
        Err(refusal) => format!("no: {}", refusal.number()),
    }
}

/// Calls that change nothing, in a plain loop.
fn time_plain<A, B>(mut linked: impl FnMut() -> A, mut by_hand: impl FnMut() -> B) -> Times {
    const LOOP: usize = 256;
    fn round<T>(call: &mut impl FnMut() -> T) -> f64 {
        let start = Instant::now();
        for _ in 0..LOOP {
            black_box(call());
        }
        start.elapsed().as_nanos() as f64 / LOOP as f64
    }
    let (mut first, mut second) = (f64::MAX, f64::MAX);
    for _ in 0..BATCHES {
        first = first.min(round(&mut linked));
        second = second.min(round(&mut by_hand));
    }
    Times { linked: first, by_hand: second }
}

/// The rehearsal of an input of whole events by the linked calls, as the reference's `rehearse` and `rehearse_by_calls` do
/// it: all its events in one list, or a single call for each.
fn rehearse(one_list: bool, input: &[u8]) -> String {
    let Some((&[rms, acceptors, leaders, high, low], events)) = input.split_first_chunk() else { return "1\n".into() };
    let plan = Plan { rms, acceptors, leaders, order: u16::from_be_bytes([high, low]) };
    let Ok(mut record) = paxos_commit::Record::fresh(plan, SLOTS, SLOTS) else { return "1\n".into() };
    let mut answers = vec![0; events.len() / 4];
    if one_list {
        record.run_bytes(events, &mut answers).expect("whole events");
    } else {
        for (event, answer) in events.chunks(4).zip(&mut answers) {
            *answer = record.step_bytes(event).err().map_or(0, Refusal::number);
        }
    }
    let mut out = String::with_capacity(3 * answers.len() + 16);
    for number in answers {
        if number >= 10 {
            out.push('1');
        }
        out.push(char::from(b'0' + number % 10));
        out.push('\n');
    }
    out.push_str(match record.ending() {
        Ok(paxos_commit::Ending::Committed) => "COMMITTED\n",
        Ok(paxos_commit::Ending::Aborted) => "ABORTED\n",
        _ => "OPEN\n",
    });
    out
}

/// 8,192 events, mixed ones or only those that are accepted.
fn events(accepted: bool) -> Vec<u8> {
    let mut random = Random(7);
    let [high, low] = PLAN.order.to_be_bytes();
    let mut input = vec![PLAN.rms, PLAN.acceptors, PLAN.leaders, high, low];
    let mut tables = Tables::fresh();
    while input.len() < 5 + 4 * 8192 {
        let kind = random.byte(9);
        let who = random.byte([16, 16, 16, 7, 4, 4, 4, 4, 4][usize::from(kind)]);
        let used = tables.network.chunks_exact(SLOT).take_while(|slot| slot[0] != 0).count();
        let [high, low] = match kind {
            2..=4 if accepted => (random.below(used + 1) as u16).to_be_bytes(),
            2..=4 => [random.byte(4), random.byte(256)],
            5 | 6 => [random.byte(16), 4 * random.byte(8) + 1 + who],
            _ => [0, 0],
        };
        let event = [kind, who, high, low];
        if !accepted || by_hand(false, &mut tables, &event).is_ok() {
            input.extend(event);
        }
    }
    input
}

/// By single calls, and by one list.
fn time_rehearsal(input: &[u8]) -> [Times; 2] {
    type Rehearse<'a> = &'a dyn Fn(&[u8]) -> String;
    let ways: [Rehearse; 4] = [
        &|input| rehearse(false, input),
        &reference::rehearse_by_calls,
        &|input| rehearse(true, input),
        &reference::rehearse,
    ];
    let mut least = [f64::MAX; 4];
    for _ in 0..15 {
        for (rehearse, least) in ways.iter().zip(&mut least) {
            let start = Instant::now();
            black_box(rehearse(black_box(input)));
            *least = least.min(start.elapsed().as_nanos() as f64);
        }
    }
    for rehearse in &ways[1..] {
        assert!(rehearse(input) == ways[0](input), "rehearsals differ");
    }
    let [linked, by_hand, linked_list, list_by_hand] = least;
    [Times { linked, by_hand }, Times { linked: linked_list, by_hand: list_by_hand }]
}

/// The events of a list.
const LIST: usize = 256;

/// An event, or one that names a slot of N where this message stands.
#[derive(Clone, Copy)]
enum Wanted {
    Plain(Event),
    At(u8, u8, Message),
}

/// Events that do their whole work each time, and the messages that this needs.
struct Row {
    name: &'static str,
    /// What stands in N, and in each inbox; anywhere, but the first of those that are sought in the last slot.
    network: Vec<Message>,
    inboxes: [Vec<Message>; 4],
    sought: Vec<Message>,
    sought_in_inbox: bool,
    /// Unused slots that each inbox keeps.
    room: usize,
    /// Every byte of the summary, where it is not what the inboxes say.
    summary: Option<u8>,
    /// The first of these 256 times; or all of them, in any order.
    events: Vec<Wanted>,
    /// Where not 0, each is accepted once only, so none comes twice: the list is all of them, so many in any order, then
    /// the next so many.
    once: usize,
}

/// On full tables, where a new message is refused and so an event can come again; or on tables with what is needed.
fn rows(full: bool) -> Vec<Row> {
    let row = |name, events: Vec<Wanted>| Row {
        name,
        network: Vec::new(),
        inboxes: Default::default(),
        sought: Vec::new(),
        sought_in_inbox: false,
        room: 0,
        summary: None,
        events,
        once: 0,
    };
    let all = |inbox: &[Message]| [0; 4].map(|_| inbox.to_vec());
    let plain = |events: Vec<Event>| events.into_iter().map(Wanted::Plain).collect::<Vec<_>>();
    // From the fourth weight on, so that an event that comes 256 times is not of the first one.
    let weights = || (0..16).map(|rm| (rm + 3) % 16);
    let pairs = |processes: u8, messages: &[Message], kind: u8| {
        let at = |who| messages.iter().map(move |&message| Wanted::At(kind, who, message));
        (0..processes).rev().flat_map(at).collect::<Vec<_>>()
    };
    let decisions = vec![decision(2); 32];
    let proposals: Vec<Message> = weights().map(|ins| message_2a(ins, 9 + ins, 1 + ins % 2)).collect();
    let votes: Vec<Message> =
        weights().flat_map(|ins| (0..7).rev().map(move |acc| message_2b(ins, acc, 9 + ins, 1 + ins % 2))).collect();
    let begun: Vec<Message> = weights().map(|ins| message_1a(ins, 40 + ins)).collect();
    // Four rising ballots, and at each of them four acceptors of each instance.
    let rising: Vec<Message> =
        (0..4).flat_map(|k| weights().map(move |ins| message_1a(ins, 40 + 20 * k + ins))).collect();
    let voted = |&message: &Message| {
        (0..7).filter(move |acc| (acc + message[1]) % 7 < 4).map(move |acc| Wanted::At(3, acc, message))
    };
    let risen: Vec<Wanted> = rising.iter().flat_map(voted).collect();
    let came: Vec<Message> =
        weights().flat_map(|ins| [message_1b(ins, 2, 20), message_2b(ins, 5, 21, 1 + ins % 2)]).collect();
    let decided: Vec<Message> = weights().map(|ins| message_2b(ins, 5, 21, 1 + ins % 2)).collect();
    let declined: Vec<Message> = weights().map(|ins| message_2a(ins, 0, 2)).collect();
    // Weight 15, so that no bit is set.
    let open: Vec<Message> = (0..16).map(|k| message_2b(15, k % 7, 21 + k, 1)).collect();
    // A leader's instances and ballots.
    let owned = |leader: u8, count: u8| (0..count).map(move |k| ((k + 3) % 16, 13 + 4 * (k / 16) + leader));
    let leading = |count: u8, event: fn(u8, u8, u8) -> Event| {
        (0..4).flat_map(|l| owned(l, count).map(move |(ins, bal)| event(l, ins, bal))).collect::<Vec<_>>()
    };
    let reports = |count: u8, acceptors: u8| {
        [0, 1, 2, 3].map(|l| {
            let of = |(ins, bal)| (0..acceptors).map(move |acc| message_1b_vote(ins, acc, bal, acc, 1));
            owned(l, count).flat_map(of).collect::<Vec<_>>()
        })
    };
    let phase_1a = |leader, ins, bal| Event::Phase1a { leader, ins, bal };
    let phase_2a = |leader, ins, bal| Event::Phase2a { leader, ins, bal };
    let sent = |count: u8, message: fn(u8, u8) -> Message| {
        (0..4).flat_map(|l| owned(l, count).map(move |(ins, bal)| message(ins, bal))).collect::<Vec<_>>()
    };
    let prepared = |acceptors: u8| {
        (0..acceptors).flat_map(|acc| (0..16).map(move |ins| message_2b(ins, acc, 0, 1))).collect::<Vec<_>>()
    };
    let aborted: Vec<Message> = (0..4).map(|acc| message_2b(3, acc, 9, 2)).collect();
    let each_weight = if full { 0 } else { 16 };
    vec![
        Row { once: each_weight, ..row("0 prepare", plain(weights().map(|rm| Event::Prepare { rm }).collect())) },
        Row {
            once: each_weight,
            ..row("1 choose to abort", plain(weights().map(|rm| Event::ChooseToAbort { rm }).collect()))
        },
        Row { network: decisions.clone(), ..row("2 decision", pairs(16, &decisions, 2)) },
        Row { network: proposals.clone(), sought: votes, ..row("3 on a 2a, its 2b in N", pairs(7, &proposals, 3)) },
        Row { network: proposals.clone(), ..row("3 on a 2a", pairs(7, &proposals, 3)) },
        if full {
            Row { network: begun.clone(), ..row("3 on a 1a", pairs(7, &begun, 3)) }
        } else {
            Row { network: rising, once: 64, ..row("3 on a 1a", risen) }
        },
        Row {
            network: came.clone(),
            sought: came.clone(),
            sought_in_inbox: true,
            ..row("4 receipt, in the inbox", pairs(4, &came, 4))
        },
        Row {
            network: open.clone(),
            sought: open.clone(),
            sought_in_inbox: true,
            ..row("4 receipt of a 2b in the inbox, bit clear", pairs(4, &open, 4))
        },
        Row {
            network: decided.clone(),
            sought: decided.clone(),
            sought_in_inbox: true,
            summary: Some(3),
            ..row("4 receipt of a 2b in the inbox, bit set", pairs(4, &decided, 4))
        },
        Row { network: came.clone(), ..row("4 receipt", pairs(4, &came, 4)) },
        Row {
            network: declined.clone(),
            sought: declined.clone(),
            sought_in_inbox: true,
            ..row("4 receipt of a 2a, in the inbox", pairs(4, &declined, 4))
        },
        Row { network: declined.clone(), ..row("4 receipt of a 2a", pairs(4, &declined, 4)) },
        Row { sought: sent(16, message_1a), ..row("5 phase 1a, in N", plain(leading(16, phase_1a))) },
        row("5 phase 1a", plain(leading(64, phase_1a))),
        Row { inboxes: reports(8, 3), ..row("6 phase 2a, no majority", plain(leading(8, phase_2a))) },
        if full {
            Row { inboxes: reports(8, 4), ..row("6 phase 2a", plain(leading(8, phase_2a))) }
        } else {
            Row { inboxes: reports(64, 4), once: LIST, ..row("6 phase 2a", plain(leading(64, phase_2a))) }
        },
        Row {
            inboxes: reports(64, 4),
            network: sent(64, |ins, bal| message_2a(ins, bal, 1)),
            room: 64,
            once: LIST,
            ..row("6 phase 2a, in N", plain(leading(64, phase_2a)))
        },
        Row {
            inboxes: all(&prepared(4)),
            sought: vec![decision(1)],
            ..row("7 commit, in N", plain((0..4).rev().map(|leader| Event::Commit { leader }).collect()))
        },
        Row {
            inboxes: all(&prepared(3)),
            ..row("7 commit, no majority", plain((0..4).rev().map(|leader| Event::Commit { leader }).collect()))
        },
        Row {
            inboxes: all(&aborted),
            sought: vec![decision(2)],
            ..row("8 abort, in N", plain((0..4).rev().map(|leader| Event::Abort { leader }).collect()))
        },
        row("no event", (0..=255).map(|low| Wanted::Plain(Event::Prepare { rm: 16 + low % 240 })).collect()),
    ]
}

/// Rows of several kinds on one record. Weights 0 to 7 prepare and choose, the others take a decision.
fn mixed() -> Vec<Row> {
    let several = |name, kinds: &[&str]| {
        let mut mixed = Row {
            name,
            network: Vec::new(),
            inboxes: Default::default(),
            sought: Vec::new(),
            sought_in_inbox: false,
            room: 0,
            summary: None,
            events: Vec::new(),
            once: 0,
        };
        for row in rows(true).into_iter().filter(|row| kinds.contains(&row.name)) {
            mixed.network.extend(row.network);
            mixed.network.extend(row.sought.iter().filter(|_| !row.sought_in_inbox));
            for (inbox, of_row) in mixed.inboxes.iter_mut().zip(row.inboxes) {
                inbox.extend(of_row);
                inbox.extend(row.sought.iter().filter(|_| row.sought_in_inbox));
            }
            let events: Vec<Wanted> = row
                .events
                .into_iter()
                .filter(|event| match event {
                    Wanted::Plain(Event::Prepare { rm } | Event::ChooseToAbort { rm }) => *rm < 8,
                    Wanted::At(2, rm, _) => *rm >= 8,
                    _ => true,
                })
                .collect();
            // Each row as often as the others.
            mixed.events.extend((0..240).map(|at| events[at % events.len()]));
        }
        mixed
    };
    let upto_5 = [
        "0 prepare",
        "1 choose to abort",
        "2 decision",
        "3 on a 2a, its 2b in N",
        "3 on a 1a",
        "4 receipt, in the inbox",
        "5 phase 1a, in N",
        "5 phase 1a",
    ];
    let leaders = ["6 phase 2a, no majority", "7 commit, in N", "8 abort, in N"];
    vec![several("kinds 0 to 5 mixed", &upto_5), several("all kinds mixed", &[&upto_5[..], &leaders[..]].concat())]
}

/// A row on tables with so many slots, all used, or only by what it needs: the tables and a list.
fn scene(row: &Row, slots: usize, full: bool, changing: bool) -> (Tables, Vec<u8>) {
    let mut random = Random(0x2545_F491_4F6C_DD1D);
    let mut tables = Tables::fresh();
    tables.network.truncate(SLOT * slots);
    tables.inboxes.truncate(PLAN.inboxes_len(slots));
    let count = if changing { row.sought.len() } else { row.sought.len().min(1) };
    let sought = &row.sought[..count];
    let mut put = |part: &mut [u8], needed: &[Message], sought: &[Message], room: usize| {
        let mut list: Vec<Message> = needed.to_vec();
        list.extend(sought);
        while full && list.len() < slots - room {
            list.push(not_15(random.message()));
        }
        for at in (1..list.len()).rev() {
            list.swap(at, random.below(at + 1));
        }
        if let (false, [sought]) = (changing, sought) {
            let at = list.iter().position(|message| message == sought).unwrap_or(0);
            let end = list.len() - 1;
            list.swap(at, end);
        }
        for (slot, message) in part.chunks_exact_mut(SLOT).zip(list) {
            slot.copy_from_slice(&message);
        }
    };
    let none = &[][..];
    put(&mut tables.network, &row.network, if row.sought_in_inbox { none } else { sought }, 0);
    for (leader, needed) in (0..).zip(&row.inboxes) {
        let range = PLAN.inbox_range(tables.inboxes.len(), leader).unwrap_or(0..0);
        put(&mut tables.inboxes[range], needed, if row.sought_in_inbox { sought } else { none }, row.room);
    }
    if full {
        for (at, vote) in tables.votes.chunks_exact_mut(3).enumerate() {
            vote.fill((at % 3) as u8);
        }
    }
    match row.summary {
        Some(byte) => tables.summary.fill(byte),
        None => tables.summarise(),
    }
    let mut bytes_of = |event: &Wanted| match event {
        Wanted::Plain(event) => event.bytes(),
        Wanted::At(kind, who, message) => {
            let slots = (0..).zip(tables.network.chunks_exact(SLOT)).filter(|(_, slot)| slot == message);
            let slots: Vec<u16> = slots.map(|(at, _)| at).collect();
            let [high, low] = slots[random.below(slots.len())].to_be_bytes();
            [*kind, *who, high, low]
        }
    };
    let events: Vec<[u8; 4]> = row.events.iter().map(&mut bytes_of).collect();
    let mut list = Vec::new();
    if row.once > 0 {
        for part in events.chunks(row.once) {
            let from = list.len();
            list.extend(part);
            for at in (1..part.len()).rev() {
                list.swap(from + at, from + random.below(at + 1));
            }
        }
    } else {
        list.extend((0..LIST).map(|_| events[if changing { random.below(events.len()) } else { 0 }]));
    }
    assert!(list.len() == LIST || row.once == 16, "{}", row.name);
    (tables, list.into_flattened())
}

fn linked_list(tables: &mut Tables, events: &[u8], answers: &mut [u8]) -> u8 {
    let Tables { states, votes, network, inboxes, summary } = tables;
    let (plan, events) = (*black_box(&PLAN), black_box(events));
    paxos_commit::run(plan, states, votes, network, inboxes, summary, events, answers).err().map_or(0, Refusal::number)
}

fn linked_singles(tables: &mut Tables, events: &[u8], answers: &mut [u8]) -> u8 {
    for (event, answer) in events.as_chunks().0.iter().zip(answers) {
        *answer = linked(false, tables, event).err().map_or(0, Refusal::number);
    }
    0
}

#[inline(never)]
fn list_by_hand(tables: &mut Tables, events: &[u8], answers: &mut [u8]) -> u8 {
    let Tables { states, votes, network, inboxes, summary } = tables;
    let (plan, events) = (*black_box(&REFERENCE_PLAN), black_box(events));
    reference::run(plan, states, votes, network, inboxes, summary, events, answers).err().unwrap_or(0)
}

/// Nanoseconds for an event of a list: as linked single calls, as the linked list, as the list by hand; and what was
/// answered.
fn time_list(old: &Tables, events: &[u8]) -> ([f64; 3], String) {
    type Way = fn(&mut Tables, &[u8], &mut [u8]) -> u8;
    const WAYS: [Way; 3] = [linked_singles, linked_list, list_by_hand];
    let count = events.len() / 4;
    let done = WAYS.map(|way| {
        let (mut tables, mut answers) = (old.clone(), vec![0xAA; count]);
        assert_eq!(way(&mut tables, events, &mut answers), 0);
        (answers, tables)
    });
    assert!(done[1] == done[0] && done[2] == done[0], "answers or tables differ");
    let mut said: Vec<u8> = done[0].0.clone();
    said.sort_unstable();
    let said = said.chunk_by(|a, b| a == b).map(|part| match part {
        [0, ..] => format!("{} accepted", part.len()),
        _ => format!("{} × {}", part.len(), part[0]),
    });
    let said = said.collect::<Vec<_>>().join(", ");

    let (mut tables, mut answers) = (old.clone(), vec![0xAA; count]);
    let mut least = [f64::MAX; 3];
    for _ in 0..ROUNDS {
        for (number, (way, least)) in WAYS.iter().zip(&mut least).enumerate() {
            // Single calls take longest.
            for _ in 0..if number == 0 { 1 } else { 3 } {
                tables.restore(old);
                let tables = black_box(&mut tables);
                let start = Instant::now();
                black_box(way(tables, events, &mut answers));
                *least = least.min(start.elapsed().as_nanos() as f64 / count as f64);
            }
        }
    }
    (least, said)
}

/// All ratios: the part of the report, what was timed, the ratio.
#[derive(Default)]
struct Report {
    ratios: Vec<(String, String, f64)>,
}

impl Report {
    fn keep(&mut self, part: String, name: &str, times: &Times) {
        self.ratios.push((part, name.to_string(), times.ratio()));
    }

    /// The two calls on all kinds and levels, each on so many different tables by turns.
    fn steps(&mut self, own: bool, turns: u64, title: &str) {
        // Where nothing but the needed messages is there, all turns have the same tables.
        let differ = |level| !matches!(level, Level::Fresh | Level::Needed);
        let levels: Vec<_> = LEVELS.into_iter().filter(|&(level, _)| turns == 1 || differ(level)).collect();
        println!("### {title}\n");
        println!("| kind |{}", levels.iter().map(|(_, name)| format!(" {name} |")).collect::<String>());
        println!("|---|{}", "---|".repeat(levels.len()));
        for kind in kinds() {
            print!("| {} |", kind.name);
            for &(level, name) in &levels {
                let olds: Vec<_> = (0..turns).map(|turn| tables(&kind, level, turn)).collect();
                let said = answer(own, &olds[0], &kind.event);
                for old in &olds {
                    assert_eq!(answer(own, old, &kind.event), said, "{} by turns", kind.name);
                }
                let calls: Vec<_> = olds.iter().cycle().take(olds.len().max(CALLS)).collect();
                let times = time_on(
                    &calls,
                    |tables| linked(own, tables, &kind.event),
                    |tables| by_hand(own, tables, &kind.event),
                );
                self.keep(format!("{title}, {name}"), kind.name, &times);
                print!(" **{:.2}** ({:.0} / {:.0}) {said} |", times.ratio(), times.linked, times.by_hand);
            }
            println!();
        }
        println!();
    }

    fn line(&mut self, name: &str, unit: f64, digits: usize, times: Times) {
        println!(
            "| {name} | **{:.2}** | {:.digits$} | {:.digits$} |",
            times.ratio(),
            times.linked / unit,
            times.by_hand / unit
        );
        self.keep("The other calls, rehearsal".to_string(), name, &times);
    }

    /// A delivery of a 2b to an N that is used so far, and of what is no message.
    fn deliveries(&mut self) {
        let vote = message_2b(3, 2, 0, 1);
        let mut other = vote;
        other[6] = 3;
        for (name, used, last, damaged, bytes) in [
            ("deliver a 2b, N fresh", 0, None, false, &vote[..7]),
            ("deliver a 2b, N half used", SLOTS / 2, None, false, &vote[..7]),
            ("deliver a 2b into slot 1023, the last unused", SLOTS - 1, None, false, &vote[..7]),
            ("deliver a 2b that stands in slot 511, N half used", SLOTS / 2, Some(vote), false, &vote[..7]),
            ("deliver a 2b that stands in slot 1023, N full", SLOTS, Some(vote), false, &vote[..7]),
            ("deliver a 2b, N full (13)", SLOTS, None, false, &vote[..7]),
            ("deliver a 2b, last byte of N damaged (5)", SLOTS / 2, None, true, &vote[..7]),
            ("deliver a cut 2b, N fresh (16)", 0, None, false, &vote[..6]),
            ("deliver a cut 2b, N half used (16)", SLOTS / 2, None, false, &vote[..6]),
            ("deliver a 2b of another order, N fresh (18)", 0, None, false, &other[..7]),
            ("deliver a 2b of another order, N half used (18)", SLOTS / 2, None, false, &other[..7]),
        ] {
            let mut old = Tables::fresh();
            fill(&mut Random(0x9E37_79B9_7F4A_7C15), &mut old.network, &[], used, last, false);
            if damaged {
                old.network[SLOT * SLOTS - 1] = 1;
            }
            let linked = |tables: &mut Tables| {
                paxos_commit::deliver(*black_box(&PLAN), &mut tables.network, black_box(bytes)).map(usize::from)
            };
            let by_hand = |tables: &mut Tables| {
                deliver_by_hand(*black_box(&REFERENCE_PLAN), &mut tables.network, black_box(bytes))
            };
            let (mut first, mut second) = (old.clone(), old.clone());
            assert_eq!(linked(&mut first).map_err(Refusal::number), by_hand(&mut second), "{name}");
            assert!(first == second, "{name}: tables differ");
            self.line(name, 1.0, 0, time_on(&[&old; CALLS], linked, by_hand));
        }
    }

    /// How an order of 16 weights stands.
    fn endings(&mut self) {
        let mut last = [2; 16];
        last[15] = 1;
        let mut none = [2; 16];
        none[15] = 4;
        for (name, states) in [
            ("ending, all committed", [2; 16]),
            ("ending, all aborted", [3; 16]),
            ("ending, all working: open", [0; 16]),
            ("ending, the last weight prepared: open", last),
            ("ending, the last byte no state (3)", none),
        ] {
            let said = paxos_commit::ending(PLAN, &states).map(|ending| ending as usize).map_err(Refusal::number);
            assert_eq!(said, reference::ending(REFERENCE_PLAN, &states).map(|ending| ending as usize), "{name}");
            let times = time_plain(
                || paxos_commit::ending(*black_box(&PLAN), black_box(&states)),
                || ending_by_hand(*black_box(&REFERENCE_PLAN), black_box(&states)),
            );
            self.line(name, 1.0, 1, times);
        }
    }

    fn others(&mut self) {
        println!("### The other calls\n\n| call | ratio | linked, ns | Rust, ns |\n|---|---|---|---|");
        let messages: [(&str, Vec<u8>); 10] = [
            ("read a 1a", vec![0x29, 3, 9, 1, 2]),
            ("read a 1b", vec![0x27, 3, 2, 9, 1, 2]),
            ("read a 1b with a vote", vec![0x3F, 3, 2, 9, 4, 1, 1, 2]),
            ("read a 2a", vec![0x39, 3, 9, 1, 1, 2]),
            ("read a 2b", vec![0x3B, 3, 2, 9, 1, 1, 2]),
            ("read a decision", vec![0x30, 2, 1, 2]),
            ("read an unknown map (15)", vec![0x32, 3, 2, 1, 2]),
            ("read a cut 2b (16)", vec![0x3B, 3, 2, 9, 1, 1]),
            ("read a value 3 (17)", vec![0x3B, 3, 2, 9, 3, 1, 2]),
            ("read a 2b of another order (18)", vec![0x3B, 3, 2, 9, 1, 1, 3]),
        ];
        for (name, bytes) in &messages {
            let times = time_plain(
                || Fields::read(*black_box(&PLAN), black_box(bytes)),
                || read_by_hand(*black_box(&REFERENCE_PLAN), black_box(bytes)),
            );
            self.line(name, 1.0, 1, times);
        }
        let fields = Fields { map: 0x3F, ins: 3, acc: 2, mbal: 9, bal: 4, val: 1 };
        let vote = reference::Vote { bal: 4, val: 1 };
        let message = reference::Message::Phase1b { ins: 3, acc: 2, mbal: 9, vote: Some(vote) };
        let times = time_plain(
            || (*black_box(&fields)).write(*black_box(&PLAN)),
            || write_by_hand(*black_box(&REFERENCE_PLAN), *black_box(&message)),
        );
        self.line("write a 1b with a vote", 1.0, 1, times);
        let fields = Fields { map: 0x39, ins: 3, bal: 9, val: 1, ..Fields::default() };
        let message = reference::Message::Phase2a { ins: 3, bal: 9, val: 1 };
        let times = time_plain(
            || (*black_box(&fields)).write(*black_box(&PLAN)),
            || write_by_hand(*black_box(&REFERENCE_PLAN), *black_box(&message)),
        );
        self.line("write a 2a", 1.0, 1, times);
        for (name, map) in [("length of a 2b", 0x3B), ("length of an unknown map", 0x32)] {
            let times =
                time_plain(|| paxos_commit::Message::length(*black_box(&map)), || length_by_hand(*black_box(&map)));
            self.line(name, 1.0, 1, times);
        }
        self.deliveries();
        // Both on the same tables: how long clearing takes depends on where they lie.
        let tables = RefCell::new(Tables::fresh());
        let times = time_plain(
            || {
                let Tables { states, votes, network, inboxes, summary } = &mut *tables.borrow_mut();
                paxos_commit::open(*black_box(&PLAN), states, votes, network, inboxes, summary)
            },
            || open_by_hand(*black_box(&REFERENCE_PLAN), &mut tables.borrow_mut()),
        );
        self.line("open, largest tables", 1.0, 0, times);
        self.endings();
        println!();
    }

    /// Lists of 256 events.
    fn lists(&mut self) {
        for (slots, full, title) in [
            (SLOTS, true, "full tables, 1,024 slots"),
            (SLOTS / 2, true, "full tables, 512 slots"),
            (SLOTS, false, "needed messages only"),
        ] {
            println!("### The list call, {title}\n");
            println!(
                "Single calls' time / list's time × **list's ratio** (single calls / list / Rust's list, ns for an event)\n"
            );
            if !full {
                println!(
                    "Here an event of kind 0, 1, 3 on a 1a or 6 is accepted once, so no event of these rows comes twice; in \
                     mixed lists it does, and is 12. Kinds 0 and 1 are lists of 16 events, one for each weight, so each \
                     bears a sixteenth of judging the tables; in the others it is a 256th.\n"
                );
            }
            println!(
                "| events | the same event 256 times | answers | changing events | answers |\n|---|---|---|---|---|"
            );
            for row in rows(full).into_iter().chain(mixed()) {
                print!("| {} |", row.name);
                for changing in [false, true] {
                    if !changing && (row.once > 0 || row.name.ends_with("mixed")) {
                        print!(" | |");
                        continue;
                    }
                    let (tables, events) = scene(&row, slots, full, changing);
                    let ([single, list, by_hand], said) = time_list(&tables, &events);
                    let times = Times { linked: list, by_hand };
                    let which = if changing { "changing" } else { "the same" };
                    self.keep(format!("The list call, {title}, {which}"), row.name, &times);
                    print!(
                        " {:.1} × **{:.2}** ({single:.0} / {list:.1} / {by_hand:.1}) | {said} |",
                        single / list,
                        times.ratio()
                    );
                }
                println!();
            }
            println!();
        }
    }

    fn rehearsals(&mut self) {
        println!("### The rehearsal of 8,192 events\n\n| events | ratio | linked, ms | Rust, ms |\n|---|---|---|---|");
        for (name, events) in [("mixed, most refused", events(false)), ("all accepted", events(true))] {
            let [singles, list] = time_rehearsal(&events);
            self.line(&format!("{name}: single calls"), 1e6, 2, singles);
            self.line(&format!("{name}: one list"), 1e6, 3, list);
        }
        println!();
    }

    fn summary(&self) {
        println!("### Summary\n\n| part | ratios | above 1.00 | geometric mean | largest |\n|---|---|---|---|---|");
        let mut parts: Vec<&str> = Vec::new();
        for (part, ..) in &self.ratios {
            if !parts.contains(&part.as_str()) {
                parts.push(part);
            }
        }
        for part in parts.into_iter().chain(["All"]) {
            let of_part: Vec<_> = self.ratios.iter().filter(|entry| part == "All" || entry.0 == part).collect();
            let above = of_part.iter().filter(|(.., ratio)| *ratio > 1.005).count();
            let mean = (of_part.iter().map(|(.., ratio)| ratio.ln()).sum::<f64>() / of_part.len() as f64).exp();
            let largest =
                of_part.iter().max_by(|a, b| a.2.total_cmp(&b.2)).map(|(_, name, ratio)| format!("{ratio:.2}, {name}"));
            println!("| {part} | {} | {above} | {mean:.2} | {} |", of_part.len(), largest.unwrap_or_default());
        }
    }
}

fn main() {
    // `cargo test --benches` only wants to know that it builds.
    if !std::env::args().any(|word| word == "--bench") {
        return;
    }
    let part = std::env::args().skip(1).find(|word| !word.starts_with('-'));
    let wanted = |name: &str| part.as_deref().is_none_or(|part| part == name);
    let mut report = Report::default();
    if wanted("events") {
        report.steps(false, 1, "Event call");
    }
    if wanted("roles") {
        report.steps(true, 1, "The role's own call");
    }
    if wanted("turns") {
        report.steps(false, TURNS, &format!("Event call, {TURNS} tables by turns"));
        report.steps(true, TURNS, &format!("The role's own call, {TURNS} tables by turns"));
    }
    if wanted("others") {
        report.others();
    }
    if wanted("lists") {
        report.lists();
    }
    if wanted("rehearsals") {
        report.rehearsals();
    }
    report.summary();
}
