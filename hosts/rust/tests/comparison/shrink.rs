//! The smallest case that still shows a mismatch: a shorter history, fewer slots, a smaller plan, smaller bytes.

use crate::case::{CALLS, Call, Case, Engine, I, Mismatch, N, Op, Q, S, Tables, W};
use paxos_commit::{Plan, SLOT};

/// So many cases are tried at most.
const TRIES: usize = 200_000;

struct Shrinker<'a> {
    engines: [&'a dyn Engine; 2],
    case: Case,
    mismatch: Box<Mismatch>,
    tries: usize,
}

/// A smaller case and its mismatch.
pub fn shrink(engines: [&dyn Engine; 2], case: Case, mismatch: Box<Mismatch>) -> (Case, Box<Mismatch>) {
    let mut s = Shrinker { engines, case, mismatch, tries: 0 };
    s.history();
    s.leave_damage();
    loop {
        let before = (size(&s.case), s.case.clone().ops);
        s.plan();
        s.order();
        s.events();
        s.slots();
        s.bytes();
        if before == (size(&s.case), s.case.clone().ops) || s.tries >= TRIES {
            return (s.case, s.mismatch);
        }
    }
}

fn size(case: &Case) -> (usize, usize, usize) {
    let bytes = || case.tables.iter().flatten();
    (case.ops.len(), bytes().count(), bytes().map(|&byte| usize::from(byte)).sum())
}

impl Shrinker<'_> {
    /// Takes the case where it still shows a mismatch.
    fn take(&mut self, case: Case) -> bool {
        if self.tries >= TRIES {
            return false;
        }
        self.tries += 1;
        match case.run(self.engines) {
            Some(mismatch) => {
                self.case = case;
                self.case.ops.truncate(mismatch.at + 1);
                self.mismatch = mismatch;
                true
            }
            None => false,
        }
    }

    /// The last call alone, on the tables that it was lent. Were that not enough, a call would keep something between
    /// calls: then calls are left out of the history, fewer at a time.
    fn history(&mut self) {
        self.case.ops.truncate(self.mismatch.at + 1);
        let last = &self.case.ops[self.mismatch.at];
        let last = Op::plain(last.plan, last.call.clone());
        if self.take(Case { tables: self.mismatch.lent.clone(), ops: vec![last] }) {
            return;
        }
        let mut count = self.case.ops.len();
        while count > 0 {
            let mut from = 0;
            while from + count <= self.case.ops.len() {
                let mut case = self.case.clone();
                case.ops.drain(from..from + count);
                if !self.take(case) {
                    from += count;
                }
            }
            count /= 2;
        }
    }

    /// A leader's own call with its parts as the whole of I and of the summary; a call without its damage.
    fn leave_damage(&mut self) {
        if let [Op { plan, call: Call::Leader(inbox, own, event), .. }] = &self.case.ops[..] {
            let mut tables = self.case.tables.clone();
            for (table, [from, to]) in [(I, *inbox), (S, *own)] {
                let to = to.min(tables[table].len());
                tables[table] = tables[table][from.min(to)..to].to_vec();
            }
            let call = Call::Leader([0, tables[I].len()], [0, tables[S].len()], event.clone());
            let op = Op::plain(*plan, call);
            self.take(Case { tables, ops: vec![op] });
        }
        for at in 0..self.case.ops.len() {
            let mut case = self.case.clone();
            if let Some(op) = case.ops.get_mut(at) {
                *op = Op::plain(op.plan, op.call.clone());
                self.take(case);
            }
        }
    }

    /// Fewer weights, acceptors and leaders, with the tables cut to them; messages of the last one as they are, or of the
    /// one before it.
    fn plan(&mut self) {
        loop {
            let plan = self.case.ops[0].plan;
            let smaller = [
                Plan { rms: plan.rms.wrapping_sub(1), ..plan },
                Plan { acceptors: plan.acceptors.wrapping_sub(1), ..plan },
                Plan { leaders: plan.leaders.wrapping_sub(1), ..plan },
            ];
            let taken = smaller
                .into_iter()
                .filter(|small| small.rms < 17 && small.acceptors < 8 && small.leaders < 5)
                .flat_map(|small| [(small, false), (small, true)])
                .any(|(small, lower)| {
                    let mut case = self.case.clone();
                    case.tables = cut(&case.tables, plan, small);
                    if lower {
                        for table in [N, I] {
                            case.tables[table].chunks_exact_mut(SLOT).for_each(|slot| lowered(slot, small));
                        }
                        for op in &mut case.ops {
                            if let Call::Read(bytes) | Call::Deliver(bytes) = &mut op.call {
                                lowered(bytes, small);
                            }
                            // And the acceptor that acts.
                            if let Some([3, who, ..]) = op.call.event_mut().map(Vec::as_mut_slice) {
                                *who = (*who).min(small.acceptors.saturating_sub(1));
                            }
                        }
                    }
                    for op in &mut case.ops {
                        op.plan = small;
                    }
                    self.take(case)
                });
            if !taken {
                return;
            }
        }
    }

    /// Order 0, with its messages in the tables and in the call.
    fn order(&mut self) {
        let mut case = self.case.clone();
        let order = case.ops[0].plan.order;
        for op in &mut case.ops {
            op.plan.order = 0;
            if let Call::Read(bytes) | Call::Deliver(bytes) = &mut op.call {
                let end = bytes.len();
                reorder(bytes, end, order);
            }
        }
        for table in [N, I] {
            for slot in case.tables[table].chunks_exact_mut(SLOT) {
                let end = 2 + slot[0].count_ones() as usize;
                reorder(slot, end, order);
            }
        }
        if order != 0 {
            self.take(case);
        }
    }

    /// Events left out of a list, each with its answer; then fewer answers, and those 0.
    fn events(&mut self) {
        let last = self.case.ops.len() - 1;
        let mut at = 0;
        loop {
            let mut case = self.case.clone();
            let Some(Call::Run(events, answers)) = case.ops.get_mut(last).map(|op| &mut op.call) else { return };
            if at >= events.len() / 4 {
                break;
            }
            events.drain(4 * at..4 * at + 4);
            if at < answers.len() {
                answers.remove(at);
            }
            if !self.take(case) {
                at += 1;
            }
        }
        for zero in [false, true] {
            loop {
                let mut case = self.case.clone();
                let Some(Call::Run(_, answers)) = case.ops.get_mut(last).map(|op| &mut op.call) else { return };
                let old = answers.clone();
                if zero {
                    answers.fill(0);
                } else {
                    answers.pop();
                }
                if old == *answers || !self.take(case) {
                    break;
                }
            }
        }
    }

    /// Slots left out of N and of the inboxes, fewer at a time; an event's slot moves with its message.
    fn slots(&mut self) {
        let slots = |case: &Case, table: usize| case.tables[table].len() / SLOT / parts(case, table);
        for table in [N, I] {
            let mut count = slots(&self.case, table);
            while count > 0 {
                let mut from = 0;
                while from + count <= slots(&self.case, table) {
                    let taken = [count, 0].into_iter().any(|moved| {
                        let mut case = self.case.clone();
                        let parts = parts(&case, table);
                        let length = case.tables[table].len() / parts;
                        for part in (0..parts).rev() {
                            let start = part * length + SLOT * from;
                            case.tables[table].drain(start..start + SLOT * count);
                        }
                        if table == N && moved > 0 {
                            for op in &mut case.ops {
                                match &mut op.call {
                                    Call::Run(events, _) => {
                                        events.chunks_mut(4).for_each(|event| earlier(event, from, moved));
                                    }
                                    call => {
                                        if let Some(event) = call.event_mut() {
                                            earlier(event, from, moved);
                                        }
                                    }
                                }
                            }
                        }
                        if table == I {
                            let all = case.tables[I].len();
                            for op in &mut case.ops {
                                if let Call::Leader(inbox, ..) = &mut op.call {
                                    *inbox = inbox.map(|at| at.min(all));
                                }
                            }
                        }
                        self.take(case)
                    });
                    if !taken {
                        from += count;
                    }
                }
                count /= 2;
            }
        }
    }

    /// Each byte of the tables and of the call 0, or one less.
    fn bytes(&mut self) {
        for table in [W, Q, N, I, S] {
            for at in 0..self.case.tables[table].len() {
                for less in [|_| 0, |byte: u8| byte / 2, |byte: u8| byte - 1] {
                    let Some(&byte) = self.case.tables[table].get(at).filter(|&&byte| byte > 0) else { break };
                    let mut case = self.case.clone();
                    case.tables[table][at] = less(byte);
                    self.take(case);
                }
            }
        }
        let last = self.case.ops.len() - 1;
        let length = match &mut self.case.ops[last].call {
            Call::Write(fields) => fields.len(),
            call => call.slice_mut().map_or(0, |bytes| bytes.len()),
        };
        for at in 0..length {
            for zero in [true, false] {
                let mut case = self.case.clone();
                let byte = match &mut case.ops[last].call {
                    Call::Write(fields) => fields.get_mut(at),
                    call => call.slice_mut().and_then(|bytes| bytes.get_mut(at)),
                };
                let Some(byte) = byte.filter(|byte| **byte > 0) else { break };
                *byte = if zero { 0 } else { *byte - 1 };
                self.take(case);
            }
        }
        // A shorter slice.
        loop {
            let mut case = self.case.clone();
            let popped = case.ops[last].call.slice_mut().and_then(Vec::pop);
            if popped.is_none() || !self.take(case) {
                return;
            }
        }
    }
}

/// How many equal parts a table has: I one for each leader, except where a leader's own call is lent all of it.
fn parts(case: &Case, table: usize) -> usize {
    let op = &case.ops[0];
    let whole = matches!(op.call, Call::Leader([0, to], ..) if to == case.tables[I].len());
    if table == N || whole || !(1..=4).contains(&op.plan.leaders) { 1 } else { op.plan.leaders.into() }
}

/// A message of the first instance or acceptor that this plan has no more, as one of the last that it has.
fn lowered(message: &mut [u8], plan: Plan) {
    if let [map, ins, acc, ..] = message {
        if *map & 1 != 0 && *ins == plan.rms {
            *ins = ins.saturating_sub(1);
        }
        if *map & 2 != 0 && *acc == plan.acceptors {
            *acc = acc.saturating_sub(1);
        }
    }
}

/// The slot that kinds 2, 3 and 4 name, with slots left out before it.
fn earlier(event: &mut [u8], from: usize, count: usize) {
    if let [2..=4, _, high, low] = event {
        let slot = usize::from(u16::from_be_bytes([*high, *low]));
        if slot >= from + count {
            [*high, *low] = ((slot - count) as u16).to_be_bytes();
        }
    }
}

/// The two bytes before `end` become 0 where they are this order number.
fn reorder(bytes: &mut [u8], end: usize, order: u16) {
    if let Some(number) = end.checked_sub(2).and_then(|from| bytes.get_mut(from..end))
        && *number == order.to_be_bytes()
    {
        number.fill(0);
    }
}

/// The tables without what a smaller plan has no place for.
fn cut(tables: &Tables, old: Plan, new: Plan) -> Tables {
    let [mut states, votes, network, inboxes, summary] = tables.clone();
    states.truncate(new.rms.into());
    let row = 3 * usize::from(old.acceptors).max(1);
    let votes = votes
        .chunks(row)
        .take(new.rms.into())
        .flat_map(|row| row.iter().copied().take(3 * usize::from(new.acceptors)))
        .collect();
    let part = inboxes.len() / usize::from(old.leaders.max(1));
    let inboxes =
        if old.leaders == new.leaders { inboxes } else { inboxes[..part * usize::from(new.leaders)].to_vec() };
    let summary = summary
        .chunks(usize::from(old.rms).max(1))
        .take(new.leaders.into())
        .flat_map(|part| part.iter().copied().take(new.rms.into()))
        .collect();
    [states, votes, network, inboxes, summary]
}

/// The case in words and bytes, for a report.
pub fn told(case: &Case, mismatch: &Mismatch) -> String {
    use std::fmt::Write;
    let hex = |bytes: &[u8]| bytes.iter().map(|byte| format!("{byte:02X}")).collect::<Vec<_>>().join(" ");
    let table = |index: usize, bytes: &[u8]| match index {
        N | I => bytes.chunks(SLOT).map(hex).collect::<Vec<_>>().join(" | "),
        _ => hex(bytes),
    };
    let mut out = String::new();
    let names = ["W", "Q", "N", "I", "summary"];
    for (index, name) in names.iter().enumerate() {
        let _ = writeln!(out, "  {name} ({} bytes): {}", case.tables[index].len(), table(index, &case.tables[index]));
    }
    for (at, op) in case.ops.iter().enumerate() {
        let Plan { rms, acceptors, leaders, order } = op.plan;
        let call = CALLS[op.call.number()];
        let _ = write!(out, "  call {at}: {call} with n = {rms}, A = {acceptors}, L = {leaders}, order {order:04X}");
        let _ = match &op.call {
            Call::Read(bytes) | Call::Deliver(bytes) => writeln!(out, ", bytes {}", hex(bytes)),
            Call::Write(fields) => writeln!(out, ", map, ins, acc, mbal, bal, val {}", hex(fields)),
            Call::Open | Call::Ending => writeln!(out),
            Call::Run(events, answers) => {
                let events = events.chunks(4).map(hex).collect::<Vec<_>>().join(" | ");
                writeln!(out, ", events {events}, lent answers {}", hex(answers))
            }
            Call::Leader([from, to], [first, end], event) => {
                let event = hex(event);
                writeln!(out, ", bytes {from} to {to} of I and {first} to {end} of the summary, event {event}")
            }
            call => writeln!(out, ", event {}", hex(call.event().map_or(&[], Vec::as_slice))),
        };
        if op.damages() {
            let _ = writeln!(out, "    with lengths {:?} and bytes {:02X?}", op.lengths, op.bytes);
        }
    }
    let _ = writeln!(out, "  answers: {} and {}", mismatch.answers[0], mismatch.answers[1]);
    let [first, second] = &mismatch.listed;
    if first != second || !first.is_empty() {
        let _ = writeln!(out, "  answers of the events: {}\n                    and: {}", hex(first), hex(second));
    }
    for (index, name) in names.iter().enumerate() {
        let [first, second] = [&mismatch.left[0][index], &mismatch.left[1][index]];
        if first != second || first != &mismatch.lent[index] {
            let _ = writeln!(out, "  {name} after: {}\n        and: {}", table(index, first), table(index, second));
        }
    }
    out
}
