//! Each static library by itself: with one feature a program links that library and no other. hosts/test runs this once
//! for each feature.

#![allow(unused_imports, dead_code)]

use paxos_commit::*;

const ONE: Plan = Plan { rms: 1, acceptors: 1, leaders: 1, order: 0x0102 };

#[cfg(feature = "message")]
#[test]
fn message() {
    let message = Message::Decision { val: Decision::Abort };
    let written = message.write(ONE).unwrap();
    assert_eq!(Message::read(ONE, &written), Ok(message));
}

#[cfg(feature = "deliver")]
#[test]
fn delivery() {
    let mut network = [0; 8];
    assert_eq!(deliver(ONE, &mut network, &[0x30, 2, 1, 2]), Ok(0));
    assert_eq!(network, [0x30, 2, 1, 2, 0, 0, 0, 0]);
    assert_eq!(deliver(ONE, &mut network, &[0x30, 1, 1, 2]), Err(Refusal::NetworkFull));
}

#[cfg(feature = "rm")]
#[test]
fn rm() {
    assert_eq!(rm_step(ONE, &mut [0], &mut [0; 8], &[1, 0, 0, 0]), Ok(Answer::Slot(0)));
}

#[cfg(feature = "acceptor")]
#[test]
fn acceptor() {
    let mut network = [0x29, 0, 1, 1, 2, 0, 0, 0, 0, 0, 0, 0, 0, 0, 0, 0];
    assert_eq!(acceptor_step(ONE, &mut [0; 3], &mut network, &[3, 0, 0, 0]), Ok(Answer::Slot(1)));
}

#[cfg(feature = "leader")]
#[test]
fn leader() {
    assert_eq!(leader_step(ONE, &mut [], &mut [0], &mut [0; 8], &[5, 0, 0, 1]), Ok(Answer::Slot(0)));
}

/// The type answers and stores what the call does, and a refusal changes no byte: on an N with a 2b of each of two
/// weights and a 1b, all kinds of events, with the leader's own number and with one outside the plan.
#[cfg(feature = "leader")]
#[test]
fn leader_type() {
    let plan = Plan { rms: 2, acceptors: 1, leaders: 2, order: 0x0102 };
    let mut network = [0x3B, 0, 0, 0, 1, 1, 2, 0, 0x3B, 1, 0, 0, 1, 1, 2, 0, 0x27, 0, 0, 2, 1, 2, 0, 0].to_vec();
    network.resize(slots_len(8), 0);
    let mut leader = Leader::of(plan, vec![0; slots_len(4)], vec![0; 2], network);
    let (mut accepted, mut refused) = (Vec::new(), Vec::new());
    for number in 0..10 * 2 * 2 * 4 {
        let event = [number / 16, 1 + number / 8 % 2, number / 4 % 2, number % 4];
        let before = leader.clone();
        let [mut inbox, mut summary, mut network] = before.clone().into_tables();
        let answer = leader_step(plan, &mut inbox, &mut summary, &mut network, &event);
        assert_eq!(leader.step_bytes(&event), answer, "{event:?}");
        assert_eq!((leader.inbox(), leader.summary(), leader.network()), (&inbox[..], &summary[..], &network[..]));
        match answer {
            Ok(_) => accepted.push(event[0]),
            Err(refusal) => {
                assert_eq!(leader, before, "{event:?}: {refusal}");
                refused.push(refusal);
            }
        }
    }
    assert_eq!(accepted, [4, 4, 4, 5, 5, 6, 7]);
    for refusal in [Refusal::BadEvent, Refusal::NoMessage, Refusal::NotOwned, Refusal::NotEnabled] {
        assert!(refused.contains(&refusal), "{refusal}");
    }
    assert_eq!((leader.summary(), leader.slot(6)), (&[1, 1][..], Some([0x30, 1, 1, 2, 0, 0, 0, 0])));
    assert_eq!(leader.slot(8), None);
}

#[cfg(feature = "leader")]
#[test]
fn leader_lengths() {
    let step = |inbox, summary, network| {
        let (mut inbox, mut summary, mut network) = (vec![0; inbox], vec![0; summary], vec![0; network]);
        let mut leader = Leader::of(ONE, &mut inbox[..], &mut summary[..], &mut network[..]); // lent tables
        let answer = leader.step(Event::Phase1a { leader: 0, ins: 0, bal: 1 });
        (answer, [inbox, summary, network].concat().iter().any(|&byte| byte != 0))
    };
    assert_eq!(step(8, 1, 8), (Ok(Answer::Slot(0)), true));
    assert_eq!(step(8, 1, 0), (Err(Refusal::NetworkFull), false));
    for (inbox, network) in [(7, 8), (8, 15), (slots_len(1025), 8), (8, slots_len(1025))] {
        assert_eq!(step(inbox, 1, network), (Err(Refusal::BadLengths), false));
    }
    for summary in [0, 2] {
        assert_eq!(step(8, summary, 8), (Err(Refusal::BadSummary), false));
    }

    let fresh = Leader::fresh(ONE, 1024, 0).unwrap();
    assert_eq!(fresh, Leader::of(ONE, vec![], vec![0], vec![0; slots_len(1024)]));
    for (network, inbox) in [(1025, 0), (0, 1025), (usize::MAX, usize::MAX)] {
        assert_eq!(Leader::fresh(ONE, network, inbox), Err(Refusal::BadLengths));
    }
    assert_eq!(Leader::fresh(Plan { leaders: 5, ..ONE }, 1, 1), Err(Refusal::BadPlan));
}

#[cfg(feature = "record")]
#[test]
fn record() {
    let mut record = Record::fresh(ONE, 1, 0).unwrap();
    assert_eq!(record.step(Event::ChooseToAbort { rm: 0 }), Ok(Answer::Slot(0)));
    assert_eq!(record.ending(), Ok(Ending::Aborted));
}

#[cfg(feature = "batch")]
#[test]
fn batch() {
    let (mut states, mut votes, mut network, mut summary, mut answers) = ([0], [0; 3], [0; 8], [0], [0xAA; 3]);
    let events = [Event::Vote { acceptor: 0, slot: 0 }, Event::ChooseToAbort { rm: 0 }, Event::Prepare { rm: 0 }];
    let events = events.map(Event::bytes);
    let mut list = |events: &[u8], answers: &mut [u8]| {
        run(ONE, &mut states, &mut votes, &mut network, &mut [], &mut summary, events, answers)
    };
    assert_eq!(list(events.as_flattened(), &mut answers), Ok(()));
    assert_eq!(answers, [8, 0, 12]);
    assert_eq!(list(&[], &mut answers), Err(Refusal::BadList));
    assert_eq!(states, [3]);
}
