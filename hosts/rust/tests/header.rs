//! The names and numbers of the C header, of this crate and of docs/HOSTS.md are the same.

use paxos_commit::*;
use std::collections::BTreeMap;

const HEADER: &str = include_str!("../../c/paxos_commit.h");
/// What the C host prints, which hosts/test sees to.
const PRINTED: &str = include_str!("../../c/host.stdout");
const HOSTS: &str = include_str!("../../../docs/HOSTS.md");

/// What the header's enums name, without `PAXOS_COMMIT_`.
fn header() -> BTreeMap<String, u8> {
    let mut names = BTreeMap::new();
    for part in HEADER.split("PAXOS_COMMIT_") {
        let Some((name, rest)) = part.split_once(" = ") else { continue };
        if !name.bytes().all(|c| c.is_ascii_uppercase() || c.is_ascii_digit() || c == b'_') {
            continue;
        }
        let number = rest.split(|c: char| !c.is_ascii_alphanumeric()).next().unwrap();
        let number = match number.strip_prefix("0x") {
            Some(digits) => u8::from_str_radix(digits, 16),
            None => number.parse(),
        };
        let number = number.unwrap_or_else(|_| panic!("{name} has no number"));
        assert_eq!(names.insert(name.to_string(), number), None, "{name} is named twice");
    }
    names
}

/// A name of Rust as the header writes it: `BadPlan` is `BAD_PLAN`.
fn upper(name: impl std::fmt::Debug) -> String {
    let mut upper = String::new();
    for c in format!("{name:?}").chars() {
        if c.is_ascii_uppercase() && !upper.is_empty() {
            upper.push('_');
        }
        upper.push(c.to_ascii_uppercase());
    }
    upper
}

#[test]
fn the_header_has_the_names_and_numbers_of_this_crate() {
    let (ins, acc, mbal, bal, val) = (0, 0, 0, 0, Value::Prepared);
    let (rm, acceptor, leader, slot) = (0, 0, 0, 0);
    let map = |message: Message| Fields::from(message).map;
    let kind = |event: Event| event.bytes()[0];
    let mut names = BTreeMap::from(
        [
            ("MAP_1A", map(Message::Phase1a { ins, bal })),
            ("MAP_1B", map(Message::Phase1b { ins, acc, mbal, vote: None })),
            ("MAP_1B_VOTE", map(Message::Phase1b { ins, acc, mbal, vote: Some(Vote { bal, val }) })),
            ("MAP_2A", map(Message::Phase2a { ins, bal, val })),
            ("MAP_2B", map(Message::Phase2b { ins, acc, bal, val })),
            ("MAP_DECISION", map(Message::Decision { val: Decision::Commit })),
            ("KIND_PREPARE", kind(Event::Prepare { rm })),
            ("KIND_CHOOSE_TO_ABORT", kind(Event::ChooseToAbort { rm })),
            ("KIND_TAKE_DECISION", kind(Event::TakeDecision { rm, slot })),
            ("KIND_VOTE", kind(Event::Vote { acceptor, slot })),
            ("KIND_RECEIPT", kind(Event::Receipt { leader, slot })),
            ("KIND_PHASE_1A", kind(Event::Phase1a { leader, ins, bal })),
            ("KIND_PHASE_2A", kind(Event::Phase2a { leader, ins, bal })),
            ("KIND_COMMIT", kind(Event::Commit { leader })),
            ("KIND_ABORT", kind(Event::Abort { leader })),
        ]
        .map(|(name, number)| (name.to_string(), number)),
    );
    names.extend(Refusal::ALL.map(|refusal| ("REFUSAL_".to_string() + &upper(refusal), refusal.number())));
    names.extend(
        [State::Working, State::Prepared, State::Committed, State::Aborted]
            .map(|state| ("STATE_".to_string() + &upper(state), state as u8)),
    );
    names.extend([Value::Prepared, Value::Aborted].map(|value| ("VALUE_".to_string() + &upper(value), value as u8)));
    names.extend(
        [Decision::Commit, Decision::Abort]
            .map(|decision| ("DECISION_".to_string() + &upper(decision), decision as u8)),
    );
    names.extend(
        [Ending::Open, Ending::Committed, Ending::Aborted]
            .map(|ending| ("ENDING_".to_string() + &upper(ending), ending as u8)),
    );
    assert_eq!(header(), names);
}

/// The header's functions make the events of this crate, and have its words for the refusals.
#[test]
fn the_c_host_prints_the_events_and_refusals_of_this_crate() {
    let (rm, acceptor, leader, slot, ins, bal) = (2, 2, 2, 259, 4, 9);
    let events = [
        Event::Prepare { rm },
        Event::ChooseToAbort { rm },
        Event::TakeDecision { rm, slot },
        Event::Vote { acceptor, slot },
        Event::Receipt { leader, slot },
        Event::Phase1a { leader, ins, bal },
        Event::Phase2a { leader, ins, bal },
        Event::Commit { leader },
        Event::Abort { leader },
    ];
    let printed: Vec<&str> = PRINTED.lines().filter_map(|line| line.strip_prefix("event: ")).collect();
    assert_eq!(printed, events.map(|event| event.bytes().map(|byte| format!("{byte:02X}")).join(" ")));

    let printed: Vec<&str> = PRINTED.lines().filter(|line| line.starts_with("refusal ")).collect();
    let words = |number| match Refusal::from_number(number) {
        Some(refusal) => format!("refusal {number}: {refusal}"),
        None => format!("refusal {number}: no refusal"),
    };
    assert_eq!(printed, (0..=21).map(words).collect::<Vec<_>>());
}

#[test]
fn the_documents_table_has_every_refusal() {
    for refusal in Refusal::ALL {
        let row = format!("| {} | `{}` | `{refusal:?}` | ", refusal.number(), upper(refusal));
        assert_eq!(HOSTS.matches(&row).count(), 1, "docs/HOSTS.md has no row {row}");
    }
}
