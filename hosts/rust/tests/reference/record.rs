//! The record: opening it, and the event call and the list call on its five
//! tables.

use super::message::Rules;
use super::slots::{Row, fits};
use super::{Event, Plan, Sent, acceptor, leader, refusal, weight};

/// Opens a record: every byte becomes zero. Refuses 1, 2 and 20.
pub fn open(
    plan: Plan,
    states: &mut [u8],
    votes: &mut [u8],
    network: &mut [u8],
    inboxes: &mut [u8],
    summary: &mut [u8],
) -> Result<(), u8> {
    plan.check()?;
    lengths(plan, states, votes, network, inboxes)?;
    if summary.len() != summary_length(plan) {
        return Err(refusal::SUMMARY);
    }
    for table in [states, votes, network, inboxes, summary] {
        table.fill(0);
    }
    Ok(())
}

/// The event call.
pub fn event(
    plan: Plan,
    states: &mut [u8],
    votes: &mut [u8],
    network: &mut [u8],
    inboxes: &mut [u8],
    summary: &mut [u8],
    event: &[u8],
) -> Result<Sent, u8> {
    let mut record = Record::judge(plan, states, votes, network, inboxes, summary)?;
    record.judge_summary()?;
    record.step(event)
}

/// The list call: events of four bytes each, in order, and a byte for the
/// answer of each, 0 or its refusal; a refused one doesn't end the list. If the
/// whole list is refused, with 1 to 6, 19 or 20, the answers keep their bytes
/// too.
#[allow(clippy::too_many_arguments)]
pub fn run(
    plan: Plan,
    states: &mut [u8],
    votes: &mut [u8],
    network: &mut [u8],
    inboxes: &mut [u8],
    summary: &mut [u8],
    events: &[u8],
    answers: &mut [u8],
) -> Result<(), u8> {
    let mut record = Record::judge(plan, states, votes, network, inboxes, summary)?;
    let (events, cut) = events.as_chunks::<4>();
    if !cut.is_empty() || answers.len() != events.len() {
        return Err(refusal::LIST);
    }
    record.judge_summary()?;
    for (answer, event) in answers.iter_mut().zip(events) {
        *answer = record.step(event).err().unwrap_or(0);
    }
    Ok(())
}

fn lengths(plan: Plan, states: &[u8], votes: &[u8], network: &[u8], inboxes: &[u8]) -> Result<(), u8> {
    let leaders = usize::from(plan.leaders);
    let ok = states.len() == usize::from(plan.rms)
        && votes.len() == acceptor::length(plan)
        && fits(network.len())
        && inboxes.len().is_multiple_of(leaders)
        && fits(inboxes.len() / leaders);
    if ok { Ok(()) } else { Err(refusal::LENGTH) }
}

/// The length of the summary.
fn summary_length(plan: Plan) -> usize {
    usize::from(plan.leaders) * usize::from(plan.rms)
}

/// Five tables; all but the summary have been judged. Steps keep them sound,
/// so that a list of events needs a single judgement.
struct Record<'a> {
    plan: Plan,
    states: &'a mut [u8],
    votes: &'a mut [u8],
    network: Row<'a>,
    inboxes: [Option<Row<'a>>; 4],
    summary: &'a mut [u8],
}

impl<'a> Record<'a> {
    fn judge(
        plan: Plan,
        states: &'a mut [u8],
        votes: &'a mut [u8],
        network: &'a mut [u8],
        inboxes: &'a mut [u8],
        summary: &'a mut [u8],
    ) -> Result<Record<'a>, u8> {
        plan.check()?;
        lengths(plan, states, votes, network, inboxes)?;
        weight::judge(states)?;
        acceptor::judge(votes)?;
        let rules = Rules::new(plan);
        let network = Row::judge(&rules, network).ok_or(refusal::NETWORK)?;
        let part = inboxes.len() / usize::from(plan.leaders);
        let mut rest = inboxes;
        let mut rows = [const { None }; 4];
        for row in &mut rows[..usize::from(plan.leaders)] {
            let (inbox, others) = rest.split_at_mut(part);
            *row = Some(Row::judge(&rules, inbox).ok_or(refusal::INBOXES)?);
            rest = others;
        }
        Ok(Record { plan, states, votes, network, inboxes: rows, summary })
    }

    /// Judges the summary, which comes after a list.
    fn judge_summary(&self) -> Result<(), u8> {
        leader::judge(self.summary, summary_length(self.plan))
    }

    fn step(&mut self, event: &[u8]) -> Result<Sent, u8> {
        let event = Event::read(self.plan, event, 0, 8)?;
        match event.kind {
            0..=2 => weight::step(self.plan, self.states, &mut self.network, event),
            3 => acceptor::step(self.plan, self.votes, &mut self.network, event),
            _ => {
                let who = usize::from(event.who);
                let inbox = self.inboxes[who].as_mut().ok_or(refusal::EVENT)?;
                let rms = usize::from(self.plan.rms);
                let summary = &mut self.summary[who * rms..(who + 1) * rms];
                leader::step(self.plan, inbox, summary, &mut self.network, event)
            }
        }
    }
}
