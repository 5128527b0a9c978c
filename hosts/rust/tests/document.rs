//! Document 01's examples, its rehearsal and its limits through this crate, in an order with a number (document 02, Paper
//! 1), what is refused of another order, lists (Paper 2), the owners of ballots (Paper 4), the summary (Paper 5), and the
//! abort that is heard early (Paper 6).

use paxos_commit::*;

const ONE: Plan = Plan { rms: 1, acceptors: 1, leaders: 1, order: 0x0102 };

fn plan(acceptors: u8) -> Plan {
    Plan { acceptors, ..ONE }
}

/// A table with these messages in its first slots.
fn table(messages: &[&[u8]]) -> Vec<u8> {
    let mut table = vec![0; slots_len(8)];
    for (slot, message) in table.chunks_exact_mut(SLOT).zip(messages) {
        slot[..message.len()].copy_from_slice(message);
    }
    table
}

#[test]
fn examples_1_to_6() {
    assert_eq!(
        Message::read(ONE, &[0x39, 0, 0, 1, 1, 2]),
        Ok(Message::Phase2a { ins: 0, bal: 0, val: Value::Prepared })
    );
    assert_eq!(
        Message::read(ONE, &[0x27, 0, 0, 1, 1, 2]),
        Ok(Message::Phase1b { ins: 0, acc: 0, mbal: 1, vote: None })
    );
    assert_eq!(Message::read(ONE, &[0]), Err(Refusal::UnknownMap));
    assert_eq!(Message::read(ONE, &[0x39, 0, 0, 1, 2]), Err(Refusal::WrongLength));
    assert_eq!(Message::read(ONE, &[0x39, 0, 0, 3, 1, 2]), Err(Refusal::OutOfRange));
    assert_eq!(Message::read(ONE, &[0x29, 0, 0, 1, 2]), Err(Refusal::OutOfRange));
}

/// A Commit of another order: the reader and the delivery refuse it with 18, after all else; in a table it is damage; and
/// the other order reads it. A map of document 01, without bit 5, is unknown.
#[test]
fn another_order() {
    let commit = Message::Decision { val: Decision::Commit };
    for order in [0x0103, 0x0202, 0x0201, 0, 0xFFFF] {
        let other = Plan { order, ..ONE };
        let written = commit.write(other).unwrap();
        assert_eq!(Message::read(other, &written), Ok(commit));
        assert_eq!(Message::read(ONE, &written), Err(Refusal::OtherOrder));
        assert_eq!(Message::read(ONE, &written[..3]), Err(Refusal::WrongLength));
        let mut network = [0; 8];
        assert_eq!(deliver(ONE, &mut network, &written), Err(Refusal::OtherOrder));
        assert_eq!(network, [0; 8]);
        let (mut inbox, mut full) = (written.slot(), written.slot());
        let event = Event::Commit { leader: 0 }.bytes();
        assert_eq!(leader_step(ONE, &mut inbox, &mut [0], &mut network, &event), Err(Refusal::BadInbox));
        assert_eq!(leader_step(ONE, &mut inbox, &mut [0], &mut full, &event), Err(Refusal::BadNetwork));
        assert_eq!(deliver(ONE, &mut full, &commit.write(ONE).unwrap()), Err(Refusal::BadNetwork));
        assert_eq!(Message::in_slot(ONE, &full, 0), Err(Refusal::OtherOrder));
    }
    assert_eq!(Message::read(ONE, &[0x30, 3, 1, 3]), Err(Refusal::OutOfRange));
    assert_eq!(Message::read(ONE, &[0x10, 1]), Err(Refusal::UnknownMap));
    assert_eq!(Message::read(ONE, &[0x70, 1, 1, 2]), Err(Refusal::UnknownMap));
}

#[test]
fn examples_7_to_10() {
    let at_2 = |message: &[u8]| {
        let (mut votes, mut network) = (vec![2, 0, 0], table(&[message]));
        let event = Event::Vote { acceptor: 0, slot: 0 }.bytes();
        acceptor_step(ONE, &mut votes, &mut network, &event).map(|answer| (answer, votes))
    };
    assert_eq!(at_2(&[0x39, 0, 2, 1, 1, 2]), Ok((Answer::Slot(1), vec![2, 2, 1])));
    assert_eq!(at_2(&[0x39, 0, 1, 1, 1, 2]), Err(Refusal::NotEnabled));
    assert_eq!(at_2(&[0x29, 0, 2, 1, 2]), Err(Refusal::NotEnabled));
    assert_eq!(at_2(&[0x29, 0, 3, 1, 2]), Ok((Answer::Slot(1), vec![3, 0, 0])));
}

#[test]
fn example_11() {
    let mut inbox = table(&[&[0x3F, 0, 0, 3, 0, 1, 1, 2], &[0x3F, 0, 1, 3, 2, 2, 1, 2]]);
    let mut network = table(&[]);
    let event = Event::Phase2a { leader: 0, ins: 0, bal: 3 }.bytes();
    assert_eq!(leader_step(plan(3), &mut inbox, &mut [0], &mut network, &event), Ok(Answer::Slot(0)));
    assert_eq!(network[..8], [0x39, 0, 3, 2, 1, 2, 0, 0]);
    assert_eq!(inbox[16..24], [0x39, 0, 3, 2, 1, 2, 0, 0]);
}

#[test]
fn example_12() {
    let reports: [&[u8]; 3] = [&[0x27, 0, 0, 1, 1, 2], &[0x27, 0, 1, 1, 1, 2], &[0x27, 0, 2, 1, 1, 2]];
    let event = Event::Phase2a { leader: 0, ins: 0, bal: 1 }.bytes();
    let propose = |count: usize| leader_step(plan(4), &mut table(&reports[..count]), &mut [0], &mut table(&[]), &event);
    assert_eq!(propose(2), Err(Refusal::NotEnabled));
    assert_eq!(propose(3), Ok(Answer::Slot(0)));
}

/// The leader first receives the two 2b, which are at different ballots.
#[test]
fn example_13() {
    let votes: [&[u8]; 2] = [&[0x3B, 0, 0, 0, 1, 1, 2], &[0x3B, 0, 1, 3, 1, 1, 2]];
    let (mut inbox, mut summary, mut network) = (table(&[]), [0], table(&votes));
    let mut step = |event: Event| leader_step(plan(3), &mut inbox, &mut summary, &mut network, &event.bytes());
    assert_eq!(step(Event::Receipt { leader: 0, slot: 0 }), Ok(Answer::Quiet));
    assert_eq!(step(Event::Receipt { leader: 0, slot: 1 }), Ok(Answer::Quiet));
    assert_eq!(step(Event::Commit { leader: 0 }), Err(Refusal::NotEnabled));
    assert_eq!((inbox, summary), (table(&votes), [0]));
}

/// What a receipt does to the summary, of leader 1 in the record and in its own call: a majority at one ballot sets the
/// bit of that instance and value alone, a repeat sets it too, and a refused receipt sets none. Kinds 7 and 8 read the
/// summary alone.
#[test]
fn summary() {
    let plan = Plan { rms: 2, acceptors: 3, leaders: 2, order: 0x0102 };
    let vote = |ins, acc, bal, val| [0x3B, ins, acc, bal, val, 1, 2, 0];
    let network = [vote(1, 0, 0, 1), vote(1, 1, 4, 1), vote(1, 2, 4, 1), vote(1, 0, 9, 2), vote(1, 1, 9, 2)].concat();
    let receipt = |slot| Event::Receipt { leader: 1, slot };
    let (commit, abort) = (Event::Commit { leader: 1 }, Event::Abort { leader: 1 });
    let mut record =
        Record::of(plan, vec![0; 2], vec![0; 18], [&network[..], &[0; 8]].concat(), vec![0; 64], vec![0; 4]);
    let (mut inbox, mut own, mut n) = (vec![0; 32], vec![0; 2], [&network[..], &[0; 8]].concat());
    let (quiet, not_enabled) = (Ok(Answer::Quiet), Err(Refusal::NotEnabled));
    for (event, answer, standing) in [
        (receipt(0), quiet, [0, 0]),
        (receipt(1), quiet, [0, 0]),
        (receipt(2), quiet, [0, 1]),
        (receipt(2), quiet, [0, 1]),
        (receipt(3), quiet, [0, 1]),
        (receipt(4), Err(Refusal::InboxFull), [0, 1]),
        (commit, not_enabled, [0, 1]),
        (abort, not_enabled, [0, 1]),
    ] {
        assert_eq!(record.step(event), answer, "{event:?}");
        assert_eq!(leader_step(plan, &mut inbox, &mut own, &mut n, &event.bytes()), answer, "{event:?}");
        assert_eq!((&record.summary()[plan.summary_range(1).unwrap()], &own[..]), (&standing[..], &standing[..]));
        assert_eq!((&record.summary()[..2], &record.inboxes()[32..]), (&[0, 0][..], &inbox[..]));
    }

    // The same inbox with a summary of zeros: a 2b that stands in it, at another ballot than the majority's, sets the bit.
    own.fill(0);
    assert_eq!(leader_step(plan, &mut inbox, &mut own, &mut n, &receipt(0).bytes()), quiet);
    assert_eq!(own, [0, 1]);
    // A summary of other content is read as it is.
    for (standing, event, answer) in [
        ([1, 1], commit, Ok(Answer::Slot(5))),
        ([3, 3], commit, Ok(Answer::Slot(5))),
        ([1, 2], commit, not_enabled),
        ([0, 2], abort, Ok(Answer::Slot(5))),
        ([3, 0], abort, Ok(Answer::Slot(5))),
        ([1, 1], abort, not_enabled),
    ] {
        let mut lent = standing;
        assert_eq!(leader_step(plan, &mut inbox, &mut lent, &mut n.clone(), &event.bytes()), answer, "{standing:?}");
        assert_eq!(lent, standing);
    }
}

/// Weight 1 declines and leader 1 hears its 2a: Abort reaches both weights, and no acceptor has voted. The 2a of weight 0,
/// which has prepared, is taken and sets no bit.
#[test]
fn abort_heard_early() {
    let plan = Plan { rms: 2, acceptors: 3, leaders: 2, order: 0x0102 };
    let mut record = Record::fresh(plan, 4, 2).unwrap();
    let (slot, quiet, not_enabled) = (|slot| Ok(Answer::Slot(slot)), Ok(Answer::Quiet), Err(Refusal::NotEnabled));
    for (event, answer) in [
        (Event::Prepare { rm: 0 }, slot(0)),
        (Event::ChooseToAbort { rm: 1 }, slot(1)),
        (Event::Receipt { leader: 1, slot: 0 }, quiet),
        (Event::Abort { leader: 1 }, not_enabled),
        (Event::Receipt { leader: 1, slot: 1 }, quiet),
        (Event::Commit { leader: 1 }, not_enabled),
        (Event::Abort { leader: 0 }, not_enabled),
        (Event::Abort { leader: 1 }, slot(2)),
        (Event::TakeDecision { rm: 0, slot: 2 }, quiet),
        (Event::TakeDecision { rm: 1, slot: 2 }, quiet),
    ] {
        assert_eq!(record.step(event), answer, "{event:?}");
    }
    assert_eq!((record.ending(), record.summary()), (Ok(Ending::Aborted), &[0, 0, 0, 2][..]));
    assert_eq!((record.votes(), &record.inboxes()[16..]), (&[0; 18][..], &record.network()[..16]));
}

/// A receipt takes a 2a at ballot 0, of either value, and refuses others with 9, before 14. The one for aborted sets the
/// bit, in the inbox already too; the one for prepared sets none, nor does a refused one. Beside it a 2b for aborted sets
/// the bit by a majority alone.
#[test]
fn receipts_of_a_2a() {
    let plan = Plan { rms: 2, acceptors: 3, leaders: 1, order: 0x0102 };
    let proposal = |ins, bal, val| [0x39, ins, bal, val, 1, 2, 0, 0];
    let vote = |acc| [0x3B, 1, acc, 0, 2, 1, 2, 0];
    let messages = [proposal(0, 0, 1), proposal(1, 0, 2), proposal(1, 1, 2), proposal(0, 255, 1), vote(0), vote(2)];
    let (prepared, aborted, at_ballot_1, at_ballot_255, vote_0, vote_2) = (0, 1, 2, 3, 4, 5);
    let (quiet, wrong_role, full) = (Ok(Answer::Quiet), Err(Refusal::WrongRole), Err(Refusal::InboxFull));
    // From a summary of zeros: the receipts, their answers, and the summary after each.
    let inbox_after = |inbox: Vec<u8>, receipts: &[(u16, Result<Answer, Refusal>, [u8; 2])]| {
        let mut leader = Leader::of(plan, inbox, vec![0; 2], messages.concat());
        for &(slot, answer, standing) in receipts {
            let before = leader.clone();
            assert_eq!(leader.step(Event::Receipt { leader: 0, slot }), answer, "slot {slot}");
            assert_eq!(leader.summary(), standing, "slot {slot}");
            assert!(answer.is_ok() || leader == before, "slot {slot}");
        }
        leader.into_tables()[0].clone()
    };
    inbox_after(vec![], &[(aborted, full, [0, 0]), (prepared, full, [0, 0]), (at_ballot_1, wrong_role, [0, 0])]);
    let inbox = inbox_after(
        vec![0; slots_len(3)],
        &[
            (prepared, quiet, [0, 0]),
            (at_ballot_1, wrong_role, [0, 0]),
            (at_ballot_255, wrong_role, [0, 0]),
            (vote_0, quiet, [0, 0]),
            (aborted, quiet, [0, 2]),
            (aborted, quiet, [0, 2]),
            (vote_2, full, [0, 2]),
        ],
    );
    assert_eq!(inbox, [proposal(0, 0, 1), vote(0), proposal(1, 0, 2)].concat());
    // Both stand in the inbox.
    inbox_after(inbox.clone(), &[(vote_0, quiet, [0, 0]), (aborted, quiet, [0, 2])]);
    inbox_after([inbox, vec![0; SLOT]].concat(), &[(vote_0, quiet, [0, 0]), (vote_2, quiet, [0, 2])]);
}

/// 20 after 6 and before 7, in a list after 19, at opening after 2 and for the length alone; nothing changes.
#[test]
fn refused_summaries() {
    let plan = Plan { rms: 2, acceptors: 3, leaders: 2, order: 0x0102 };
    let fresh = Record::fresh(plan, 4, 4).unwrap().into_tables();
    let record = |summary: &[u8]| {
        let [states, votes, network, inboxes, _] = fresh.clone();
        Record::of(plan, states, votes, network, inboxes, summary.to_vec())
    };
    let events = [&b""[..], b"none", &[9, 0, 0, 0], &[0, 0, 0, 0], &[3, 0, 0, 0], &[7, 1, 0, 0]];
    for summary in [&[0, 0, 0][..], &[0; 5], &[], &[4, 0, 0, 0], &[0, 0, 0, 4], &[0, 255, 0, 0]] {
        let before = record(summary);
        let mut after = before.clone();
        for event in events {
            assert_eq!(after.step_bytes(event), Err(Refusal::BadSummary));
        }
        let mut answers = [0xAA; 2];
        assert_eq!(after.run_bytes(&[0; 8], &mut answers), Err(Refusal::BadSummary));
        assert_eq!(after.run_bytes(&[], &mut []), Err(Refusal::BadSummary));
        assert_eq!(after.run_bytes(&[0; 7], &mut answers), Err(Refusal::BadList));
        assert_eq!((answers, &after), ([0xAA; 2], &before));
        let opened = if summary.len() == 4 { Ok(()) } else { Err(Refusal::BadSummary) };
        assert_eq!(after.open(), opened);
        assert_eq!(after == before, opened.is_err());
        assert_eq!(after == record(&[0; 4]), opened.is_ok());

        let mut damaged = before.into_tables();
        damaged[3][0] = 1;
        let [states, votes, network, inboxes, summary] = damaged;
        let mut damaged = Record::of(plan, states, votes, network, inboxes, summary);
        assert_eq!(damaged.step_bytes(b""), Err(Refusal::BadInbox));
    }
    for summary in [&[0][..], &[0; 4], &[], &[4, 0], &[0, 128]] {
        for event in events {
            let (mut inbox, mut own, mut network) = ([0; 8], summary.to_vec(), [0; 8]);
            assert_eq!(leader_step(plan, &mut inbox, &mut own, &mut network, event), Err(Refusal::BadSummary));
            assert_eq!((inbox, &own[..], network), ([0; 8], summary, [0; 8]));
            assert_eq!(leader_step(plan, &mut [1; 8], &mut own, &mut network, event), Err(Refusal::BadInbox));
        }
    }
}

#[test]
fn rehearsal() {
    let events = [[0, 0, 0, 0], [3, 0, 0, 0], [4, 0, 0, 1], [7, 0, 0, 0], [2, 0, 0, 2], [1, 0, 0, 0]];
    let mut record = Record::fresh(ONE, MAX_SLOTS, MAX_SLOTS).unwrap();
    let lines = events.map(|event| record.step_bytes(&event).err().map_or(0, Refusal::number));
    assert_eq!(lines, [0, 0, 0, 0, 0, 12]);
    assert_eq!(record.ending(), Ok(Ending::Committed));
    assert_eq!(record.slot(2), Some([0x30, 1, 1, 2, 0, 0, 0, 0]));
    assert_eq!(Message::in_slot(ONE, record.network(), 2), Ok(Message::Decision { val: Decision::Commit }));
    assert_eq!(Message::in_slot(ONE, record.network(), 3), Err(Refusal::NoMessage));
    assert_eq!(Message::in_slot(ONE, record.network(), 1024), Err(Refusal::NoMessage));
    assert_eq!(record.summary(), [1]);
    assert_eq!(record.slot(1024), None);
}

/// The rehearsal's events as one list: the answers and the tables of the single calls.
#[test]
fn rehearsal_as_a_list() {
    let events = [[0, 0, 0, 0], [3, 0, 0, 0], [4, 0, 0, 1], [7, 0, 0, 0], [2, 0, 0, 2], [1, 0, 0, 0]];
    let (mut single, mut list) = (Record::fresh(ONE, 16, 16).unwrap(), Record::fresh(ONE, 16, 16).unwrap());
    for event in events {
        let _ = single.step_bytes(&event);
    }
    let mut answers = [0xAA; 6];
    assert_eq!(list.run_bytes(events.as_flattened(), &mut answers), Ok(()));
    assert_eq!((answers, &list), ([0, 0, 0, 0, 0, 12], &single));

    // Every refusal of an event but 11, and bytes that are no event, in the midst of others that are accepted.
    let (prepare, abort) = (Event::Prepare { rm: 0 }, Event::ChooseToAbort { rm: 0 });
    let beyond = Event::Vote { acceptor: 0, slot: 9 };
    let no_decision = Event::TakeDecision { rm: 0, slot: 0 };
    let own = Event::Receipt { leader: 0, slot: 0 };
    let not_owned = Event::Phase1a { leader: 0, ins: 0, bal: 0 };
    let begun = Event::Phase1a { leader: 0, ins: 0, bal: 1 };
    let events = [beyond, prepare, abort, no_decision, own, not_owned, begun, Event::Prepare { rm: 1 }];
    let mut list = Record::fresh(ONE, 1, 0).unwrap();
    let mut answers = list.run(&events).unwrap();
    assert_eq!((answers.len(), answers.bytes()), (8, &[8, 0, 12, 9, 14, 10, 13, 7][..]));
    assert_eq!((answers.next(), answers.next_back()), (Some(Err(Refusal::NoMessage)), Some(Err(Refusal::BadEvent))));
    assert_eq!((answers.len(), answers.collect::<Vec<_>>()[0]), (6, Ok(())));
    assert_eq!(list.states(), [1]);
}

/// Where the whole list is refused nothing changes; rows 1 to 6 come before 19. An empty list is judged as any other.
#[test]
fn refused_lists() {
    let plan = Plan { rms: 2, acceptors: 3, leaders: 2, order: 0x0102 };
    let event = Event::Prepare { rm: 1 }.bytes();
    let mut record = Record::fresh(plan, 4, 4).unwrap();
    let fresh = record.clone();
    for (events, answers) in [(1, 0), (3, 0), (3, 1), (4, 0), (4, 2), (4, 4), (5, 1), (8, 1), (8, 8), (0, 1)] {
        let mut answers = vec![0xAA; answers];
        let bytes: Vec<u8> = event.iter().copied().cycle().take(events).collect();
        assert_eq!(record.run_bytes(&bytes, &mut answers), Err(Refusal::BadList), "{events} {}", answers.len());
        assert!(answers.iter().all(|&answer| answer == 0xAA) && record == fresh);
    }
    assert_eq!(record.run_bytes(&[], &mut []), Ok(()));
    assert_eq!(record.run(&[]).unwrap().count(), 0);
    assert_eq!(record, fresh);

    for (table, at, byte, refusal) in [
        (0, 1, 4, Refusal::BadStates),
        (1, 17, 3, Refusal::BadVotes),
        (2, 31, 1, Refusal::BadNetwork),
        (3, 63, 1, Refusal::BadInbox),
    ] {
        for (events, count) in [(&event[..], 1), (&event[..], 2), (&event[..3], 1), (&[], 0)] {
            let mut tables = fresh.clone().into_tables();
            tables[table][at] = byte;
            let [states, votes, network, inboxes, summary] = tables;
            let mut damaged = Record::of(plan, states, votes, network, inboxes, summary);
            let (before, mut answers) = (damaged.clone(), vec![0xAA; count]);
            assert_eq!(damaged.run_bytes(events, &mut answers), Err(refusal));
            assert!(answers.iter().all(|&answer| answer == 0xAA) && damaged == before);
        }
    }
    let [mut states, mut votes, mut network, mut inboxes, mut summary] = fresh.into_tables();
    inboxes.pop();
    let mut answers = [0xAA];
    assert_eq!(
        run(plan, &mut states, &mut votes, &mut network, &mut inboxes, &mut summary, &event, &mut answers),
        Err(Refusal::BadLengths)
    );
    assert_eq!((answers, states), ([0xAA], vec![0, 0]));
}

/// A list has no limit: far more events than N has slots.
#[test]
fn a_long_list() {
    let plan = Plan { rms: 16, acceptors: 1, leaders: 4, order: 0x0102 };
    let mut record = Record::fresh(plan, MAX_SLOTS, 0).unwrap();
    let owned = |number: usize| {
        let bal = (number / 16) as u8;
        Event::Phase1a { leader: plan.owner(bal).unwrap(), ins: (number % 16) as u8, bal }
    };
    let events: Vec<Event> = (64..4096).map(owned).chain((64..4096).map(owned)).collect();
    let answers: Vec<_> = record.run(&events).unwrap().collect();
    // Those of the first 1,024 that fit are accepted, and found again.
    for (at, answer) in answers.iter().enumerate() {
        let expected = if at % 4032 < MAX_SLOTS { Ok(()) } else { Err(Refusal::NetworkFull) };
        assert_eq!(*answer, expected, "{at}");
    }
}

/// The same order by a host for each role, which share only the messages that they send each other.
#[test]
fn a_host_for_each_role() {
    let plan = Plan { rms: 2, acceptors: 3, leaders: 2, order: 0x0102 };
    let network = || vec![0; slots_len(64)];
    let mut weights = [(vec![0; plan.states_len()], network()), (vec![0; plan.states_len()], network())];
    let mut acceptors = [0, 1, 2].map(|_| (vec![0; plan.votes_len()], network()));
    let (mut inbox, mut summary, mut leader) = (vec![0; slots_len(64)], vec![0; plan.leader_summary_len()], network());
    let sent = |network: &[u8], answer: Answer| match answer {
        Answer::Slot(slot) => Message::in_slot(plan, network, slot).unwrap().write(plan).unwrap(),
        Answer::Quiet => panic!("nothing was sent"),
    };
    for (rm, (states, network)) in (0..).zip(&mut weights) {
        let answer = rm_step(plan, states, network, &Event::Prepare { rm }.bytes()).unwrap();
        let proposal = sent(network, answer);
        for (acceptor, (votes, network)) in (0..).zip(&mut acceptors).skip(rm.into()) {
            let slot = deliver(plan, network, &proposal).unwrap();
            let answer = acceptor_step(plan, votes, network, &Event::Vote { acceptor, slot }.bytes()).unwrap();
            let slot = deliver(plan, &mut leader, &sent(network, answer)).unwrap();
            let event = Event::Receipt { leader: 1, slot }.bytes();
            assert_eq!(leader_step(plan, &mut inbox, &mut summary, &mut leader, &event), Ok(Answer::Quiet));
        }
    }
    let event = Event::Commit { leader: 1 }.bytes();
    let answer = leader_step(plan, &mut inbox, &mut summary, &mut leader, &event).unwrap();
    let decision = sent(&leader, answer);
    for (rm, (states, network)) in (0..).zip(&mut weights) {
        let slot = deliver(plan, network, &decision).unwrap();
        assert_eq!(rm_step(plan, states, network, &Event::TakeDecision { rm, slot }.bytes()), Ok(Answer::Quiet));
        assert_eq!(State::from_byte(states[usize::from(rm)]), Some(State::Committed));
    }
}

#[test]
fn borrowed_and_owned_records() {
    let plan = Plan { rms: 3, acceptors: 2, leaders: 2, order: 0x0102 };
    let mut owned = Record::fresh(plan, 5, 4).unwrap();
    let (mut w, mut q, mut n, mut i, mut s) = (vec![9; 3], vec![9; 18], vec![9; 40], vec![9; 64], vec![9; 6]);
    let mut lent = Record::of(plan, &mut w[..], &mut q[..], &mut n[..], &mut i[..], &mut s[..]);
    assert_eq!(lent.step(Event::Prepare { rm: 0 }), Err(Refusal::BadStates));
    lent.open().unwrap();
    for event in [Event::Prepare { rm: 1 }, Event::Vote { acceptor: 1, slot: 0 }, Event::Receipt { leader: 1, slot: 1 }]
    {
        assert_eq!(owned.step(event), lent.step(event));
        assert!(owned.states() == lent.states() && owned.votes() == lent.votes());
        assert!(owned.network() == lent.network() && owned.inboxes() == lent.inboxes());
        assert!(owned.summary() == lent.summary());
    }
    assert_eq!(owned.plan().inbox_range(64, 1), Some(32..64));
    assert_eq!((plan.summary_range(0), plan.summary_range(1), plan.summary_range(2)), (Some(0..3), Some(3..6), None));
    assert_eq!(owned.inboxes()[32..40], [0x3B, 1, 1, 0, 1, 1, 2, 0]);
    assert_eq!(owned.clone().into_tables()[0], [0, 1, 0]);
    // Taken up again from bytes that were kept; a damaged byte is seen at the next call, and nothing is changed.
    let mut kept = owned.clone().into_tables();
    kept[3][63] = 1;
    let [states, votes, network, inboxes, summary] = kept;
    let mut damaged = Record::of(plan, states, votes, network, inboxes, summary);
    let before = damaged.clone();
    assert_eq!(damaged.step(Event::Prepare { rm: 0 }), Err(Refusal::BadInbox));
    assert_eq!(damaged, before);
}

/// Document 02, Paper 4, at every ballot: whether a leader owns it is what the linked step says, and the next is the
/// first that is owned.
#[test]
fn ballots() {
    for leaders in 0..=5 {
        let plan = Plan { rms: 1, acceptors: 1, leaders, order: 0x0102 };
        for (leader, bal) in (0..=255).flat_map(|leader| (0..=255).map(move |bal| (leader, bal))) {
            let owned = bal > 0 && leaders > 0 && (bal - 1) % leaders == leader;
            assert_eq!(plan.owns(leader, bal), owned);
            assert_eq!(plan.owner(bal) == Some(leader), owned);
            assert_eq!(plan.next_ballot(leader, bal), (bal..=255).skip(1).find(|&next| plan.owns(leader, next)));
            assert_eq!(plan.first_ballot(leader), (leader < leaders).then(|| leader + 1));
            if plan.first_ballot(leader).is_some() && leaders <= 4 {
                let event = Event::Phase1a { leader, ins: 0, bal }.bytes();
                let answer = if owned { Ok(Answer::Slot(0)) } else { Err(Refusal::NotOwned) };
                assert_eq!(leader_step(plan, &mut [], &mut [0], &mut [0; 8], &event), answer);
            }
        }
    }
}

#[test]
fn limits() {
    for (rms, acceptors, leaders) in
        [(0, 1, 1), (17, 1, 1), (1, 0, 1), (1, 8, 1), (1, 1, 0), (1, 1, 5), (255, 255, 255)]
    {
        let plan = Plan { rms, acceptors, leaders, order: 0x0102 };
        assert_eq!(Record::fresh(plan, 1, 1), Err(Refusal::BadPlan));
        assert_eq!(Message::read(plan, &[0x30, 1, 1, 2]), Err(Refusal::BadPlan));
        assert_eq!(Message::Decision { val: Decision::Abort }.write(plan), Err(Refusal::BadPlan));
        assert_eq!(rm_step(plan, &mut [], &mut [], &[]), Err(Refusal::BadPlan));
        assert_eq!(acceptor_step(plan, &mut [], &mut [], &[]), Err(Refusal::BadPlan));
        assert_eq!(leader_step(plan, &mut [], &mut [], &mut [], &[]), Err(Refusal::BadPlan));
        assert_eq!(step(plan, &mut [], &mut [], &mut [], &mut [], &mut [], &[]), Err(Refusal::BadPlan));
        assert_eq!(run(plan, &mut [], &mut [], &mut [], &mut [], &mut [], &[0], &mut []), Err(Refusal::BadPlan));
        assert_eq!(deliver(plan, &mut [], &[]), Err(Refusal::BadPlan));
        assert_eq!(ending(plan, &[]), Err(Refusal::BadPlan));
    }
    let largest = Plan { rms: 16, acceptors: 7, leaders: 4, order: 0x0102 };
    assert!(Record::fresh(largest, MAX_SLOTS, MAX_SLOTS).is_ok());
    assert!(Record::fresh(largest, 0, 0).is_ok());
    assert_eq!(Record::fresh(largest, usize::MAX, 1), Err(Refusal::BadLengths));
    assert_eq!(Record::fresh(largest, 1, MAX_SLOTS + 1), Err(Refusal::BadLengths));
    assert_eq!(
        (largest.states_len(), largest.votes_len(), slots_len(1024), largest.inboxes_len(1024)),
        (16, 336, 8192, 32768)
    );
    assert_eq!((largest.summary_len(), largest.leader_summary_len()), (64, 16));
    assert_eq!(rm_step(ONE, &mut [0], &mut [], &[0, 0, 0, 0]), Err(Refusal::NetworkFull));
}

#[test]
fn fields_of_the_reader_are_the_writers() {
    let plan = Plan { rms: 16, acceptors: 7, leaders: 4, order: 0x0102 };
    for number in 0..100_000u32 {
        let [a, b, c, d] = number.wrapping_mul(2_654_435_761).to_le_bytes();
        let map = [0x29, 0x27, 0x3F, 0x39, 0x3B, 0x30, a][usize::from(a % 7)];
        let fields = Fields { map, ins: b % 18, acc: c % 8, mbal: d, bal: a ^ b, val: c / 8 % 4 };
        let Ok(written) = fields.write(plan) else { continue };
        let read = Fields::read(plan, &written).expect("what was written is readable");
        assert_eq!(read.write(plan), Ok(written));
        assert_eq!(Fields::from(Message::read(plan, &written).unwrap()), read);
        assert!(written.slot().starts_with(&written));
    }
}

/// A known map has its ones and two bytes more, and so has what is written with it; no other byte has a length.
#[test]
fn lengths() {
    for map in 0..=255u8 {
        let known = [0x29, 0x27, 0x3F, 0x39, 0x3B, 0x30].contains(&map);
        assert_eq!(Message::length(map), if known { 2 + map.count_ones() as usize } else { 0 }, "{map:02X}");
        let written = Fields { map, ins: 0, acc: 0, mbal: 1, bal: 1, val: 1 }.write(ONE);
        assert_eq!(written.map_or(0, |written| written.len()), Message::length(map), "{map:02X}");
    }
}

/// What is delivered leaves a sound table and stands where it is said to; what is refused changes nothing.
#[test]
fn delivery_keeps_tables_sound() {
    let plan = Plan { rms: 3, acceptors: 3, leaders: 1, order: 0x0102 };
    let mut network = vec![0; slots_len(40)];
    let (mut delivered, mut full, mut other) = (0, 0, 0);
    for number in 0..20_000u32 {
        let [a, b, c, d] = number.wrapping_mul(2_654_435_761).to_le_bytes();
        let map = [0x29, 0x27, 0x3F, 0x39, 0x3B, 0x30, a][usize::from(a % 7)];
        // The order number is mostly the plan's.
        let mut bytes = [map, b % 4, c % 4, d % 5, b % 7, 1 + c % 3, 0, 0];
        let len = (2 + map.count_ones() as usize).min(8);
        bytes[len - 2..len].copy_from_slice(&[1, if d % 8 == 0 { 3 } else { 2 }]);
        let bytes = &bytes[..len];
        if number % 4000 == 0 {
            network.fill(0);
        }
        let before = network.clone();
        match deliver(plan, &mut network, bytes) {
            Ok(slot) => {
                let from = slots_len(slot.into());
                assert!(network[from..from + SLOT].starts_with(bytes));
                delivered += 1;
            }
            Err(refusal) => {
                full += usize::from(refusal == Refusal::NetworkFull);
                other += usize::from(refusal == Refusal::OtherOrder);
                assert_eq!(network, before);
            }
        }
        // The proved call judges the table: a slot beyond it is 8, not 5.
        let judged = rm_step(plan, &mut [0; 3], &mut network, &Event::TakeDecision { rm: 0, slot: 65535 }.bytes());
        assert_eq!(judged, Err(Refusal::NoMessage));
    }
    assert!(delivered > 1000 && full > 1000 && other > 100, "{delivered} {full} {other}");
    assert_eq!(deliver(plan, &mut [0; 7], b"!"), Err(Refusal::BadLengths));
    assert_eq!(deliver(plan, &mut [1; 8], b"!"), Err(Refusal::BadNetwork));
    assert_eq!(deliver(plan, &mut [], b"!"), Err(Refusal::UnknownMap));
    assert_eq!(deliver(plan, &mut vec![0; slots_len(1025)], &[0x30, 1, 1, 2]), Err(Refusal::BadLengths));
    assert_eq!(deliver(plan, &mut [], &[0x30, 1, 1, 2]), Err(Refusal::NetworkFull));
}

#[test]
fn refusals_by_number_and_in_words() {
    for (number, refusal) in (1..).zip(Refusal::ALL) {
        assert_eq!((refusal.number(), Refusal::from_number(number)), (number, Some(refusal)));
        let error: &dyn std::error::Error = &refusal;
        assert!(error.to_string().ends_with(&format!("({number})")));
    }
    assert_eq!((Refusal::from_number(0), Refusal::from_number(21)), (None, None));
    assert_eq!(Refusal::NotEnabled.to_string(), "not enabled (12)");
}
