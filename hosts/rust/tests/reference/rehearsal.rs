//! The rehearsal: a plan and a list of events on a fresh record.

use super::slots::MOST;
use super::{Plan, State, acceptor, event, refusal, run};

const EVENTS: usize = 8192;

/// What the rehearsal prints for this input. All its events are one list.
pub fn rehearse(input: &[u8]) -> String {
    let Some((plan, events)) = plan(input) else {
        return "1\n".into();
    };
    let [mut states, mut votes, mut network, mut inboxes, mut summary] = tables(plan);
    let (whole, cut) = events.split_at(events.len().min(4 * EVENTS) / 4 * 4);
    let mut answers = vec![0; whole.len() / 4];
    let done = run(plan, &mut states, &mut votes, &mut network, &mut inboxes, &mut summary, whole, &mut answers);
    if let Err(number) = done {
        return format!("{number}\n");
    }
    if !cut.is_empty() && answers.len() < EVENTS {
        answers.push(refusal::EVENT);
    }
    lines(answers.into_iter(), &states)
}

/// The same output by a whole event call for each event.
pub fn rehearse_by_calls(input: &[u8]) -> String {
    let Some((plan, events)) = plan(input) else {
        return "1\n".into();
    };
    let [mut states, mut votes, mut network, mut inboxes, mut summary] = tables(plan);
    let mut answers = Vec::with_capacity(EVENTS.min(events.len().div_ceil(4)));
    for bytes in events.chunks(4).take(EVENTS) {
        let sent = event(plan, &mut states, &mut votes, &mut network, &mut inboxes, &mut summary, bytes);
        answers.push(sent.err().unwrap_or(0));
    }
    lines(answers.into_iter(), &states)
}

fn plan(input: &[u8]) -> Option<(Plan, &[u8])> {
    let (&[rms, acceptors, leaders, high, low], events) = input.split_first_chunk()?;
    let plan = Plan { rms, acceptors, leaders, order: u16::from_be_bytes([high, low]) };
    plan.check().is_ok().then_some((plan, events))
}

fn tables(plan: Plan) -> [Vec<u8>; 5] {
    let (rms, leaders, slots) = (usize::from(plan.rms), usize::from(plan.leaders), 8 * MOST);
    [rms, acceptor::length(plan), slots, slots * leaders, rms * leaders].map(|length| vec![0; length])
}

/// A line for each event, and the word.
fn lines(answers: impl ExactSizeIterator<Item = u8>, states: &[u8]) -> String {
    let mut out = String::with_capacity(3 * answers.len() + 16);
    for number in answers {
        if number >= 10 {
            out.push('1');
        }
        out.push(char::from(b'0' + number % 10));
        out.push('\n');
    }
    out.push_str(word(states));
    out
}

fn word(states: &[u8]) -> &'static str {
    if states.iter().all(|&state| state == State::COMMITTED) {
        "COMMITTED\n"
    } else if states.iter().all(|&state| state == State::ABORTED) {
        "ABORTED\n"
    } else {
        "OPEN\n"
    }
}
