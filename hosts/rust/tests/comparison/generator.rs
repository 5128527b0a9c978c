//! Random histories: plans of all sizes, fresh and used and full tables, events that are mostly enabled, damage of all
//! sorts.

use crate::case::{Call, Engine, I, N, Op, Q, Reference, S, Tables, W, standing};
use paxos_commit::{Event, MAX_SLOTS, Plan, SLOT};
use std::collections::VecDeque;

/// A small generator of random numbers (splitmix64), so that a seed gives the same histories everywhere.
pub struct Random(pub u64);

impl Random {
    pub fn next(&mut self) -> u64 {
        self.0 = self.0.wrapping_add(0x9E37_79B9_7F4A_7C15);
        let mut z = self.0;
        z = (z ^ (z >> 30)).wrapping_mul(0xBF58_476D_1CE4_E5B9);
        z = (z ^ (z >> 27)).wrapping_mul(0x94D0_49BB_1331_11EB);
        z ^ (z >> 31)
    }

    pub fn below(&mut self, bound: usize) -> usize {
        (self.next() % bound.max(1) as u64) as usize
    }

    pub fn byte(&mut self, bound: u8) -> u8 {
        self.below(bound.into()) as u8
    }

    /// So many times of a hundred.
    pub fn percent(&mut self, times: usize) -> bool {
        self.below(100) < times
    }

    /// An order number; two of them are often the same, or the same in one byte.
    pub fn order(&mut self) -> u16 {
        match self.below(4) {
            0 => self.next() as u16,
            _ => u16::from_be_bytes([self.of(&[0, 1, 255]), self.of(&[0, 1, 255])]),
        }
    }

    pub fn of<T: Copy>(&mut self, list: &[T]) -> T {
        list[self.below(list.len())]
    }
}

/// What a round of the protocol wants to happen next; a message is looked up in N when its turn comes, and skipped
/// where it is not there.
#[derive(Clone, Copy, Debug)]
enum Want {
    Make(Event),
    /// A message that begins so, for an event of this kind and process.
    Take(u8, u8, [u8; 4], usize),
}

pub struct Generator {
    pub random: Random,
    pub plan: Plan,
    /// Calls that this history has still to make.
    pub left: usize,
    wants: VecDeque<Want>,
}

fn used(table: &[u8]) -> usize {
    table.chunks_exact(SLOT).take_while(|slot| slot[0] != 0).count()
}

impl Generator {
    pub fn new(seed: u64) -> Generator {
        let plan = Plan { rms: 1, acceptors: 1, leaders: 1, order: 0 };
        Generator { random: Random(seed), plan, left: 0, wants: VecDeque::new() }
    }

    /// The tables of a new history.
    pub fn start(&mut self) -> Tables {
        let random = &mut self.random;
        let (rms, acceptors, leaders) = match random.below(20) {
            0 | 1 => (16, 7, 4),
            2..=13 => (1 + random.byte(3), 1 + random.byte(5), 1 + random.byte(2)),
            _ => (1 + random.byte(16), 1 + random.byte(7), 1 + random.byte(4)),
        };
        let order = random.order();
        self.plan = Plan { rms, acceptors, leaders, order };
        self.wants.clear();
        let sizes = [0, 1, 2, 3, 5, 8, 16, 16, 40, 40, 100, 100, 300];
        let mut size = || if random.percent(6) { MAX_SLOTS } else { random.of(&sizes) };
        let (network, inbox) = (size(), size());
        self.left = 40 + self.random.below(if network > 100 { 3000 } else { 600 });
        let plan = self.plan;
        let mut tables = [
            vec![0; plan.states_len()],
            vec![0; plan.votes_len()],
            vec![0; SLOT * network],
            vec![0; plan.inboxes_len(inbox)],
            vec![0; plan.summary_len()],
        ];
        if self.random.percent(50) {
            return tables;
        }
        let full = self.random.percent(30);
        self.fill(&mut tables[N], full);
        if inbox > 0 {
            for part in tables[I].chunks_exact_mut(SLOT * inbox) {
                self.fill(part, full);
            }
        }
        for state in &mut tables[W] {
            *state = self.random.byte(4);
        }
        for vote in tables[Q].chunks_exact_mut(3) {
            let val = self.random.byte(3);
            vote.copy_from_slice(&[self.ballot(), if val == 0 { 0 } else { self.ballot() }, val]);
        }
        // A summary as the inboxes say it, of zeros, or of any other content.
        match self.random.below(4) {
            0 => {}
            1 | 2 => tables[S] = standing(plan, &tables[I]),
            _ => tables[S].fill_with(|| self.random.byte(4)),
        }
        tables
    }

    /// Mixed messages in the first slots.
    fn fill(&mut self, table: &mut [u8], full: bool) {
        let slots = table.len() / SLOT;
        let count = if full { slots - self.random.below(2).min(slots) } else { self.random.below(slots + 1) };
        for slot in table.chunks_exact_mut(SLOT).take(count) {
            let message = self.message();
            slot[..message.len()].copy_from_slice(&message);
        }
    }

    fn ballot(&mut self) -> u8 {
        match self.random.below(20) {
            0 => self.random.byte(255),
            1 => 255,
            _ => self.random.byte(7),
        }
    }

    /// A message of the plan.
    fn message(&mut self) -> Vec<u8> {
        let ins = self.random.byte(self.plan.rms);
        let acc = self.random.byte(self.plan.acceptors);
        let (mbal, bal, val) = (self.ballot(), self.ballot(), 1 + self.random.byte(2));
        let mut message = match self.random.below(9) {
            0 => vec![0x29, ins, bal.max(1)],
            1 => vec![0x27, ins, acc, mbal],
            2 | 3 => vec![0x3F, ins, acc, mbal, bal, val],
            4 => vec![0x39, ins, bal, val],
            5 => vec![0x39, ins, 0, val],
            6 | 7 => vec![0x3B, ins, acc, bal, val],
            _ => vec![0x30, val],
        };
        message.extend(self.plan.order.to_be_bytes());
        message
    }

    /// The next call of the history, which stands at these tables.
    pub fn next(&mut self, tables: &Tables) -> Op {
        self.left -= 1;
        let mut op = Op::plain(self.plan, Call::Open);
        op.call = match self.random.below(480) {
            0..=15 => Call::Read(self.slice()),
            16..=31 => Call::Write(self.fields()),
            32 => Call::Open,
            41..=43 => {
                // Opening is mostly tried on tables that it leaves alone, so that histories get long.
                self.damage(&mut op, tables, true);
                Call::Open
            }
            33..=40 => {
                op.undone = true;
                self.part(tables)
            }
            44..=73 => {
                op.undone = self.random.percent(50);
                Call::Deliver(self.came(&tables[N]))
            }
            74..=83 => {
                self.states(&mut op, tables[W].len());
                Call::Ending
            }
            440..=479 => {
                op.undone = self.random.percent(30);
                self.list(tables)
            }
            _ => {
                // Sometimes with a summary that lacks bits: then a receipt may set one by any ballot.
                if self.random.percent(3) {
                    let zeros = (0..tables[S].len()).filter(|_| self.random.percent(80)).map(|at| (S, at, 0));
                    op.bytes.extend(zeros);
                }
                self.step(tables)
            }
        };
        if self.random.percent(9) {
            let several = if self.random.percent(25) { 3 } else { 1 };
            for _ in 0..several {
                self.damage(&mut op, tables, false);
            }
        }
        op
    }

    /// Another plan, other lengths, or other bytes.
    fn damage(&mut self, op: &mut Op, tables: &Tables, refused: bool) {
        let random = &mut self.random;
        match random.below(if refused { 8 } else { 24 }) {
            0 | 1 => {
                let place = random.below(3);
                let bad = [[0, 17, 255], [0, 8, 200], [0, 5, 255]][place][random.below(3)];
                match place {
                    0 => op.plan.rms = bad,
                    1 => op.plan.acceptors = bad,
                    _ => op.plan.leaders = bad,
                }
            }
            2 => {
                let (rms, acceptors, leaders) = (1 + random.byte(16), 1 + random.byte(7), 1 + random.byte(4));
                op.plan = Plan { rms, acceptors, leaders, ..op.plan };
            }
            20 | 21 => op.plan.order = random.order(),
            22 | 23 => {
                // Bytes that are another summary, or none.
                let bytes = [0, 1, 2, 3, 0, 1, 2, 3, 4, 5, 128, 255];
                for _ in 0..=random.below(3) {
                    op.bytes.push((S, random.below(tables[S].len()), random.of(&bytes)));
                }
            }
            7 if refused => {
                let mut lengths = op.lengths.unwrap_or([0, 1, 2, 3, 4].map(|table: usize| tables[table].len()));
                lengths[S] = Self::summary_length(random, self.plan);
                op.lengths = Some(lengths);
            }
            3..=6 => {
                let mut lengths = op.lengths.unwrap_or([0, 1, 2, 3, 4].map(|table: usize| tables[table].len()));
                let table = random.below(5);
                let leaders = usize::from(self.plan.leaders);
                if table == S {
                    lengths[S] = Self::summary_length(random, self.plan);
                    op.lengths = Some(lengths);
                    return;
                }
                let over = SLOT * (MAX_SLOTS + 1) * if table == I { leaders } else { 1 };
                lengths[table] = match random.below(8) {
                    0 => 0,
                    1 => over,
                    2 => over - SLOT,
                    3 => lengths[table] + SLOT,
                    4 => lengths[table].saturating_sub(SLOT),
                    5 => lengths[table] + SLOT * leaders,
                    6 => lengths[table].saturating_sub(1),
                    _ => lengths[table] + 1 + random.below(SLOT),
                };
                op.lengths = Some(lengths);
            }
            _ => {
                let table = random.of(&[W, Q, N, N, N, I, I, I]);
                let bytes = &tables[table];
                if bytes.is_empty() {
                    return;
                }
                // A place in a used slot or just after them, or anywhere.
                let near = table == N && random.percent(70);
                let most = if near { (SLOT * used(bytes) + SLOT).min(bytes.len()) } else { bytes.len() };
                let at = random.below(most);
                let byte = match random.below(4) {
                    0 => 0,
                    1 => random.byte(5),
                    2 => random.of(&[0x29, 0x27, 0x3F, 0x39, 0x3B, 0x30, 0x19, 0xFF]),
                    _ => random.next() as u8,
                };
                if random.percent(15) {
                    let slot = at - at % SLOT;
                    op.bytes.extend((slot..(slot + SLOT).min(bytes.len())).map(|at| (table, at, 0)));
                }
                op.bytes.push((table, at, byte));
            }
        }
    }

    /// Mostly another length than a summary's, or a leader's part's.
    fn summary_length(random: &mut Random, plan: Plan) -> usize {
        let (all, own) = (plan.summary_len(), plan.leader_summary_len());
        random.of(&[0, own, own - 1, own + 1, all, all - 1, all - 1, all + 1, all + own, 2 * all, 64, 65])
    }

    /// What the reader is given.
    fn slice(&mut self) -> Vec<u8> {
        let mut bytes = self.message();
        match self.random.below(11) {
            0 => (0..self.random.below(11)).map(|_| self.random.next() as u8).collect(),
            1 => {
                bytes.pop();
                bytes
            }
            2 => {
                bytes.push(0);
                bytes
            }
            3 => {
                bytes[0] = self.random.next() as u8;
                bytes
            }
            4 => {
                bytes[0] = self.random.byte(72);
                bytes
            }
            5 | 6 => {
                let at = self.random.below(bytes.len());
                bytes[at] = self.random.of(&[0, 1, 2, 3, 6, 7, 15, 16, 255]);
                bytes
            }
            7 => {
                let len = bytes.len();
                bytes[len - 2..].copy_from_slice(&self.random.order().to_be_bytes());
                bytes
            }
            _ => bytes,
        }
    }

    /// What comes to a host: a message that stands in its N, another, or what is mostly none.
    fn came(&mut self, network: &[u8]) -> Vec<u8> {
        match (self.random.below(10), used(network)) {
            (0..=3, count @ 1..) => {
                let slot = SLOT * self.random.below(count);
                let len = (2 + network[slot].count_ones() as usize).min(SLOT);
                network[slot..slot + len].to_vec()
            }
            (0..=6, _) => self.message(),
            _ => self.slice(),
        }
    }

    /// For the ending mostly a W whose weights are all at one state, or all but one.
    fn states(&mut self, op: &mut Op, len: usize) {
        if len == 0 || self.random.percent(20) {
            return;
        }
        let state = self.random.of(&[0, 1, 2, 2, 2, 3, 3, 3]);
        op.bytes.extend((0..len).map(|at| (W, at, state)));
        if self.random.percent(30) {
            let at = self.random.below(len);
            op.bytes.push((W, at, self.random.of(&[0, 1, 2, 3, 3, 4, 130, 255])));
        }
    }

    /// What the writer is given.
    fn fields(&mut self) -> [u8; 6] {
        let random = &mut self.random;
        let map =
            if random.percent(85) { random.of(&[0x29, 0x27, 0x3F, 0x39, 0x3B, 0x30]) } else { random.next() as u8 };
        let some = |bound: u8, random: &mut Random| match random.below(10) {
            0 => bound,
            1 => random.next() as u8,
            _ => random.byte(bound),
        };
        let ins = some(self.plan.rms, random);
        let acc = some(self.plan.acceptors, random);
        let val = if random.percent(85) { 1 + random.byte(2) } else { random.byte(5) };
        [map, ins, acc, self.ballot(), self.ballot(), val]
    }

    /// A step: mostly an event that may be enabled, by the event call or by its role's own.
    fn step(&mut self, tables: &Tables) -> Call {
        let event = match self.wanted(tables) {
            Some(event) => event.to_vec(),
            None if self.random.percent(5) => self.junk(),
            None => self.event(tables).to_vec(),
        };
        let inboxes = tables[I].len();
        match (self.random.below(40), event.first()) {
            (0, _) => Call::Rm(event),
            (1, _) => Call::Acceptor(event),
            (2..=19, Some(0..=2)) => Call::Rm(event),
            (2..=19, Some(3)) => Call::Acceptor(event),
            (2..=19, Some(4..=8)) => {
                let who = event.get(1).copied().unwrap_or(0) % self.plan.leaders;
                let inbox = self.plan.inbox_range(inboxes, who).unwrap_or(0..inboxes);
                let own = self.plan.summary_range(who).unwrap_or(0..0);
                Call::Leader([inbox.start, inbox.end], [own.start, own.end], event)
            }
            _ => Call::Step(event),
        }
    }

    /// A list: mostly of events that may be enabled at their turn, sometimes cut, or with other answers than one each.
    fn list(&mut self, tables: &Tables) -> Call {
        let most = if self.random.percent(2) { 200 } else { 20 };
        let count = self.random.below(most + 1);
        let mut tables = tables.clone();
        let mut events = Vec::with_capacity(4 * count + 4);
        for _ in 0..count {
            let event = match self.wanted(&tables) {
                Some(event) => event,
                None if self.random.percent(5) => {
                    let mut event = self.junk();
                    event.resize(4, 0);
                    [event[0], event[1], event[2], event[3]]
                }
                None => self.event(&tables),
            };
            // What the events before it have done, so that slots are named that they use.
            Reference.call(self.plan, &mut tables, &mut [], &Call::Step(event.to_vec()));
            events.extend(event);
        }
        let random = &mut self.random;
        if random.percent(6) {
            let cut = random.below(4);
            events.truncate(events.len().saturating_sub(cut));
            events.extend((0..random.below(2)).map(|_| random.byte(9)));
        }
        let mut length = events.len() / 4;
        if random.percent(6) {
            length = match random.below(5) {
                0 => 0,
                1 => length + 1,
                2 => length.saturating_sub(1),
                3 => events.len(),
                _ => random.below(24),
            };
        }
        let pattern = random.next() as u8;
        Call::Run(events, (0..length).map(|at| pattern.wrapping_add((7 * at) as u8)).collect())
    }

    /// A leader's own call on a part of I that is no leader's, or another leader's, and on such a part of the summary.
    fn part(&mut self, tables: &Tables) -> Call {
        let event = self.event(tables).to_vec();
        let from = self.random.below(tables[I].len() + 1);
        let to = from + self.random.below(tables[I].len() + 1 - from);
        let inbox = if self.random.percent(70) { [from - from % SLOT, to - to % SLOT] } else { [from, to] };
        let own = self.plan.leader_summary_len();
        let from = self.random.below(tables[S].len() + 1 - own);
        let own = match self.random.below(10) {
            0 => self.random.below(tables[S].len() + 1 - from),
            1 => own - 1,
            2 => own + 1,
            _ => own,
        };
        Call::Leader(inbox, [from, from + own], event)
    }

    /// Bytes that are mostly no event.
    fn junk(&mut self) -> Vec<u8> {
        let random = &mut self.random;
        match random.below(4) {
            0 => (0..random.below(7)).map(|_| random.byte(10)).collect(),
            1 => vec![9 + random.byte(247), random.byte(4), 0, 0],
            2 => vec![random.byte(9), random.of(&[self.plan.rms, self.plan.acceptors, self.plan.leaders, 255]), 0, 0],
            _ => vec![random.byte(9), random.byte(4), random.byte(20), random.byte(20)],
        }
    }

    /// A slot of N, mostly one with a message that this kind of event takes.
    fn slot(&mut self, network: &[u8], kind: usize) -> [u8; 2] {
        let takes = |slot: &[u8]| match kind {
            2 => slot[0] == 0x30,
            3 => matches!(slot[0], 0x29 | 0x39),
            _ => matches!(slot, [0x27 | 0x3F | 0x3B, ..] | [0x39, _, 0, ..]),
        };
        let used = used(network);
        if self.random.percent(4) {
            return [self.random.byte(8), self.random.next() as u8];
        }
        let mut slot = self.random.below(used + 1);
        for _ in 0..8 {
            if network.chunks_exact(SLOT).nth(slot).is_some_and(takes) || self.random.percent(4) {
                break;
            }
            slot = self.random.below(used + 1);
        }
        (slot as u16).to_be_bytes()
    }

    /// A ballot, mostly one that this leader owns.
    fn owned(&mut self, leader: u8) -> u8 {
        if self.random.percent(6) {
            return self.ballot();
        }
        leader + 1 + self.plan.leaders * self.random.byte(3)
    }

    fn event(&mut self, tables: &Tables) -> [u8; 4] {
        if self.wants.is_empty() && self.random.percent(3) {
            self.round();
        }
        let kind = self.random.of(&[0, 1, 2, 2, 3, 3, 3, 4, 4, 4, 4, 5, 6, 6, 7, 8]);
        let plan = self.plan;
        let who = self.random.byte([plan.rms, plan.acceptors, plan.leaders][[0, 0, 0, 1, 2, 2, 2, 2, 2][kind]]);
        let [high, low] = match kind {
            2..=4 => self.slot(&tables[N], kind),
            5 => [self.random.byte(plan.rms), self.owned(who)],
            6 => {
                // A 1b of its inbox says for what it may propose.
                let inbox = &tables[I][plan.inbox_range(tables[I].len(), who).unwrap_or(0..0)];
                let seen = used(inbox);
                let slot = (0..6)
                    .map(|_| self.random.below(seen + 1))
                    .find(|&slot| matches!(inbox.get(SLOT * slot), Some(0x27 | 0x3F)));
                match slot {
                    Some(slot) if self.random.percent(85) => [inbox[SLOT * slot + 1], inbox[SLOT * slot + 3]],
                    _ => [self.random.byte(plan.rms), self.owned(who)],
                }
            }
            _ => [0, 0],
        };
        [kind as u8, who, high, low]
    }

    /// The next event of a round, if one is on.
    fn wanted(&mut self, tables: &Tables) -> Option<[u8; 4]> {
        if self.wants.is_empty() || self.random.percent(20) {
            return None;
        }
        while let Some(want) = self.wants.pop_front() {
            match want {
                Want::Make(event) => return Some(event.bytes()),
                Want::Take(kind, who, begins, length) => {
                    let found = tables[N].chunks_exact(SLOT).position(|slot| slot[..length] == begins[..length]);
                    if let Some(slot) = found {
                        let [high, low] = (slot as u16).to_be_bytes();
                        return Some([kind, who, high, low]);
                    }
                }
            }
        }
        None
    }

    /// A round: the weights' own ballot for all instances, or a leader's for one; then the decision, and every weight
    /// takes it.
    fn round(&mut self) {
        let plan = self.plan;
        let leader = self.random.byte(plan.leaders);
        let missing = if self.random.percent(60) { 0 } else { self.random.byte(plan.acceptors) };
        let all = self.random.percent(60);
        let instances = if all {
            0..plan.rms
        } else {
            let ins = self.random.byte(plan.rms);
            ins..ins + 1
        };
        let ballot = if self.random.percent(50) { 0 } else { self.owned(leader) };
        let wants = &mut self.wants;
        for ins in instances {
            if ballot == 0 {
                let rm = ins;
                wants.push_back(Want::Make(if self.random.percent(92) {
                    Event::Prepare { rm }
                } else {
                    Event::ChooseToAbort { rm }
                }));
                // The leader may hear the weight itself.
                if self.random.percent(30) {
                    wants.push_back(Want::Take(4, leader, [0x39, ins, 0, 0], 3));
                }
            } else {
                wants.push_back(Want::Make(Event::Phase1a { leader, ins, bal: ballot }));
                for acc in missing..plan.acceptors {
                    wants.push_back(Want::Take(3, acc, [0x29, ins, ballot, 0], 3));
                    wants.push_back(Want::Take(4, leader, [0x27, ins, acc, ballot], 4));
                    wants.push_back(Want::Take(4, leader, [0x3F, ins, acc, ballot], 4));
                }
                wants.push_back(Want::Make(Event::Phase2a { leader, ins, bal: ballot }));
            }
            for acc in missing..plan.acceptors {
                wants.push_back(Want::Take(3, acc, [0x39, ins, ballot, 0], 3));
                wants.push_back(Want::Take(4, leader, [0x3B, ins, acc, ballot], 4));
            }
        }
        wants.push_back(Want::Make(Event::Commit { leader }));
        wants.push_back(Want::Make(Event::Abort { leader }));
        for rm in 0..plan.rms {
            wants.push_back(Want::Take(2, rm, [0x30, 0, 0, 0], 1));
        }
    }
}
