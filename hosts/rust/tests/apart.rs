//! The lists of happenings of the crate `apart` on the linked calls: the one that ends committed (Examples.antt), and
//! for each hypothesis those that fail it alone and break the claim (Needed.antt; here too for a summary that says more
//! than its inbox, and for a 2a at ballot 0 that its weight did not send); with four more, for a weight that declines, for
//! a leader's inbox that is lost, for a summary that is lost, and for tables that are made longer. What happens to a
//! leader happens to the crate's type `Leader` too, and both come out alike.

use paxos_commit::*;
use std::collections::HashMap;

#[derive(Clone, Copy, Debug, PartialEq, Eq, Hash)]
enum Role {
    Rm,
    Acceptor,
    Leader,
}
use Role::*;

#[derive(Clone, Debug, PartialEq, Eq)]
struct Host {
    table: Vec<u8>,
    network: Vec<u8>,
    /// A leader's part of the summary; the others have none.
    summary: Vec<u8>,
}

/// What happens to host k of a role.
#[derive(Clone, Debug)]
enum Happening {
    Call(Role, u8, [u8; 4]),
    Delivery(Role, u8, Vec<u8>),
    Restart(Role, u8, Host),
}

/// The hosts, and every message that was sent.
struct System {
    plan: Plan,
    hosts: HashMap<(Role, u8), Host>,
    wire: Vec<Message>,
}

impl System {
    /// Zeros: the lengths of each role's table and N.
    fn fresh(plan: Plan, lengths: [(Role, u8, usize, usize); 3]) -> System {
        let hosts = lengths.into_iter().flat_map(|(role, count, table, network)| {
            let summary = if role == Leader { plan.leader_summary_len() } else { 0 };
            (0..count).map(move |k| {
                let host = Host { table: vec![0; table], network: vec![0; network], summary: vec![0; summary] };
                ((role, k), host)
            })
        });
        System { plan, hosts: hosts.collect(), wire: Vec::new() }
    }

    fn messages(&self, network: &[u8]) -> Vec<Message> {
        (0..1024).map_while(|slot| Message::in_slot(self.plan, network, slot).ok()).collect()
    }

    /// The hypotheses that it fails.
    fn failed(&self, happening: &Happening) -> Vec<&'static str> {
        let sent = |messages: &[Message]| messages.iter().all(|message| self.wire.contains(message));
        let mut failed = Vec::new();
        match happening {
            Happening::Call(_, k, event) => failed.extend((event[1] != *k).then_some("OwnNumber")),
            Happening::Delivery(_, _, bytes) => {
                let read: Vec<_> = Message::read(self.plan, bytes).into_iter().collect();
                failed.extend((!sent(&read)).then_some("NotForged"));
            }
            Happening::Restart(role, k, host) => {
                let Host { table: old, summary, .. } = &self.hosts[&(*role, *k)];
                let longer = old.len() % SLOT == 0
                    && host.table.strip_prefix(&old[..]).is_some_and(|more| more.iter().all(|&byte| byte == 0));
                // A bit that the summary has lost does no harm; one that it has gained may.
                let gained = host.summary.iter().zip(summary).any(|(new, old)| new & !old != 0);
                failed.extend((host.table != *old && !longer || gained).then_some("TableKept"));
                failed.extend((!sent(&self.messages(&host.network))).then_some("NotForged"));
            }
        }
        failed
    }

    fn happen(&mut self, happening: &Happening) -> Result<Answer, Refusal> {
        let (Happening::Call(role, k, _) | Happening::Delivery(role, k, _) | Happening::Restart(role, k, _)) =
            happening;
        let typed = (*role == Leader).then(|| by_type(self.plan, self.hosts[&(Leader, *k)].clone(), happening));
        let answer = self.happen_to(*role, *k, happening);
        if let Some(typed) = typed {
            assert_eq!(typed, (answer, self.hosts[&(Leader, *k)].clone()), "{happening:?}");
        }
        answer
    }

    fn happen_to(&mut self, role: Role, k: u8, happening: &Happening) -> Result<Answer, Refusal> {
        let host = self.hosts.get_mut(&(role, k)).unwrap();
        match happening {
            Happening::Call(role, _, event) => {
                let Host { table, network, summary } = host;
                let answer = match role {
                    Rm => rm_step(self.plan, table, network, event),
                    Acceptor => acceptor_step(self.plan, table, network, event),
                    Leader => leader_step(self.plan, table, summary, network, event),
                };
                if let Ok(Answer::Slot(slot)) = answer {
                    self.wire.push(Message::in_slot(self.plan, &host.network, slot).unwrap());
                }
                answer
            }
            Happening::Delivery(_, _, bytes) => deliver(self.plan, &mut host.network, bytes).map(Answer::Slot),
            Happening::Restart(_, _, new) => {
                *host = new.clone();
                Ok(Answer::Quiet)
            }
        }
    }

    /// The weights' states: byte i of weight i's own W.
    fn row(&self) -> Vec<u8> {
        (0..self.plan.rms).map(|i| self.hosts[&(Rm, i)].table[usize::from(i)]).collect()
    }
}

/// What happens to a leader, by the type: the answer and the host afterwards.
fn by_type(plan: Plan, host: Host, happening: &Happening) -> (Result<Answer, Refusal>, Host) {
    let of = |host: Host| paxos_commit::Leader::of(plan, host.table, host.summary, host.network);
    let mut leader = of(host);
    let answer = match happening {
        Happening::Call(_, _, event) => leader.step_bytes(event),
        Happening::Delivery(_, _, bytes) => leader.deliver(bytes).map(Answer::Slot),
        Happening::Restart(_, _, new) => {
            leader = of(new.clone());
            Ok(Answer::Quiet)
        }
    };
    let [table, summary, network] = leader.into_tables();
    (answer, Host { table, network, summary })
}

/// Host k makes an event with its own number.
fn act(role: Role, k: u8, kind: u8, high: u8, low: u8) -> Happening {
    Happening::Call(role, k, [kind, k, high, low])
}

fn to(role: Role, k: u8, bytes: &[u8]) -> Happening {
    Happening::Delivery(role, k, bytes.to_vec())
}

fn restart(role: Role, k: u8, table: &[u8], network: &[u8]) -> Happening {
    Happening::Restart(role, k, Host { table: table.to_vec(), network: network.to_vec(), summary: Vec::new() })
}

/// A leader goes on, with its part of the summary.
fn restart_leader(k: u8, inbox: &[u8], summary: &[u8], network: &[u8]) -> Happening {
    let host = Host { table: inbox.to_vec(), network: network.to_vec(), summary: summary.to_vec() };
    Happening::Restart(Leader, k, host)
}

#[test]
fn the_list_that_commits() {
    let plan = Plan { rms: 1, acceptors: 1, leaders: 1, order: 0x0102 };
    let mut system = System::fresh(plan, [(Rm, 1, 1, 16), (Acceptor, 1, 3, 24), (Leader, 1, 16, 16)]);
    let (slot, quiet) = (|slot| Ok(Answer::Slot(slot)), Ok(Answer::Quiet));
    for (happening, answer) in [
        (act(Rm, 0, 0, 0, 0), slot(0)),
        (to(Acceptor, 0, &[0x39, 0, 0, 1, 1, 2]), slot(0)),
        (to(Acceptor, 0, &[0x39, 0, 0, 1, 1, 2]), slot(0)),
        (act(Acceptor, 0, 3, 0, 0), slot(1)),
        (to(Leader, 0, &[0x29, 0]), Err(Refusal::WrongLength)),
        (to(Leader, 0, &[0x3B, 0, 0, 0, 1, 1, 2]), slot(0)),
        (act(Leader, 0, 4, 0, 0), quiet),
        (act(Leader, 0, 7, 0, 0), slot(1)),
        (restart_leader(0, &[0x3B, 0, 0, 0, 1, 1, 2, 0, 0, 0, 0, 0, 0, 0, 0, 0], &[1], &[0; 8]), quiet),
        (to(Rm, 0, &[0x30, 1, 1, 2]), slot(1)),
        (act(Rm, 0, 2, 0, 1), quiet),
    ] {
        assert_eq!(system.failed(&happening), [""; 0], "{happening:?}");
        assert_eq!(system.happen(&happening), answer, "{happening:?}");
    }
    assert_eq!(system.row(), [2]);
    assert_eq!(system.wire.len(), 3);
}

/// Weight 1 declines. Its 2a comes to the leader, and Abort to both weights; no acceptor takes part. The leader begins its
/// summary anew in between, and the same 2a makes the bit again.
#[test]
fn a_weight_that_declines() {
    let plan = Plan { rms: 2, acceptors: 3, leaders: 1, order: 0x0102 };
    let mut system = System::fresh(plan, [(Rm, 2, 2, 16), (Acceptor, 3, 18, 48), (Leader, 1, 16, 16)]);
    let (slot, quiet, not_enabled) = (|slot| Ok(Answer::Slot(slot)), Ok(Answer::Quiet), Err(Refusal::NotEnabled));
    let (declined, abort) = ([0x39, 1, 0, 2, 1, 2], [0x30, 2, 1, 2]);
    let kept = [&declined[..], &[0; 10]].concat();
    for (happening, answer) in [
        (act(Rm, 0, 0, 0, 0), slot(0)),
        (act(Rm, 1, 1, 0, 0), slot(0)),
        (act(Leader, 0, 8, 0, 0), not_enabled),
        (to(Leader, 0, &declined), slot(0)),
        (act(Leader, 0, 4, 0, 0), quiet),
        (restart_leader(0, &kept, &[0, 0], &kept), quiet),
        (act(Leader, 0, 8, 0, 0), not_enabled),
        (act(Leader, 0, 4, 0, 0), quiet),
        (act(Leader, 0, 8, 0, 0), slot(1)),
        (to(Rm, 0, &abort), slot(1)),
        (act(Rm, 0, 2, 0, 1), quiet),
        (to(Rm, 1, &abort), slot(1)),
        (act(Rm, 1, 2, 0, 1), quiet),
    ] {
        assert_eq!(system.failed(&happening), [""; 0], "{happening:?}");
        assert_eq!(system.happen(&happening), answer, "{happening:?}");
    }
    assert_eq!((system.row(), system.wire.len()), (vec![3, 3], 3));
    assert_eq!(system.hosts[&(Leader, 0)].summary, [0, 2]);
}

/// By the 2a of both weights, for prepared at ballot 0: the acceptor votes, the leader decides, and Commit comes to
/// weight 1.
fn deciding() -> Vec<Happening> {
    vec![
        to(Acceptor, 0, &[0x39, 0, 0, 1, 1, 2]),
        act(Acceptor, 0, 3, 0, 0),
        to(Acceptor, 0, &[0x39, 1, 0, 1, 1, 2]),
        act(Acceptor, 0, 3, 0, 2),
        to(Leader, 0, &[0x3B, 0, 0, 0, 1, 1, 2]),
        act(Leader, 0, 4, 0, 0),
        to(Leader, 0, &[0x3B, 1, 0, 0, 1, 1, 2]),
        act(Leader, 0, 4, 0, 1),
        act(Leader, 0, 7, 0, 0),
        to(Rm, 1, &[0x30, 1, 1, 2]),
    ]
}

/// One happening fails one hypothesis, no other fails any, and weight 0 ends aborted, weight 1 committed.
fn breaks(hypothesis: &str, before: Vec<Happening>, one: Happening, rest: Vec<Happening>) {
    let plan = Plan { rms: 2, acceptors: 1, leaders: 1, order: 0x0102 };
    let mut system = System::fresh(plan, [(Rm, 2, 2, 24), (Acceptor, 1, 6, 48), (Leader, 1, 40, 64)]);
    let at = before.len();
    for (number, happening) in before.into_iter().chain([one]).chain(rest).enumerate() {
        let failed = system.failed(&happening);
        assert_eq!(failed, if number == at { vec![hypothesis] } else { vec![] }, "{number}: {happening:?}");
        assert!(system.happen(&happening).is_ok(), "{number}: {happening:?}");
    }
    assert_eq!(system.row(), [3, 2]);
}

#[test]
fn own_number_needed() {
    let rest = [vec![act(Rm, 1, 0, 0, 0), act(Rm, 0, 1, 0, 0)], deciding(), vec![act(Rm, 1, 2, 0, 2)]].concat();
    breaks("OwnNumber", vec![], Happening::Call(Rm, 1, [0, 0, 0, 0]), rest);
}

#[test]
fn not_forged_needed() {
    let before = vec![act(Rm, 0, 1, 0, 0), act(Rm, 1, 0, 0, 0)];
    breaks("NotForged", before.clone(), to(Rm, 1, &[0x30, 1, 1, 2]), vec![act(Rm, 1, 2, 0, 1)]);
    let mut network = [0; 24];
    network[..4].copy_from_slice(&[0x30, 1, 1, 2]);
    breaks("NotForged", before, restart(Rm, 1, &[0, 1], &network), vec![act(Rm, 1, 2, 0, 0)]);
}

/// Both weights have prepared and weight 1 is committed. A 2a that weight 0 did not send, for aborted at ballot 0, comes to
/// the leader: it alone gives Abort.
#[test]
fn not_forged_needed_of_a_decline() {
    let before = [vec![act(Rm, 0, 0, 0, 0), act(Rm, 1, 0, 0, 0)], deciding(), vec![act(Rm, 1, 2, 0, 1)]].concat();
    let rest = vec![act(Leader, 0, 4, 0, 3), act(Leader, 0, 8, 0, 0), to(Rm, 0, &[0x30, 2, 1, 2]), act(Rm, 0, 2, 0, 1)];
    breaks("NotForged", before, to(Leader, 0, &[0x39, 0, 0, 2, 1, 2]), rest);
}

#[test]
fn states_kept_needed() {
    let mut network = [0; 24];
    network[..6].copy_from_slice(&[0x39, 0, 0, 1, 1, 2]);
    let rest = [vec![act(Rm, 1, 0, 0, 0), act(Rm, 0, 1, 0, 0)], deciding(), vec![act(Rm, 1, 2, 0, 1)]].concat();
    breaks("TableKept", vec![act(Rm, 0, 0, 0, 0)], restart(Rm, 0, &[0, 0], &network), rest);
}

#[test]
fn votes_kept_needed() {
    let before = [vec![act(Rm, 0, 0, 0, 0), act(Rm, 1, 0, 0, 0)], deciding(), vec![act(Rm, 1, 2, 0, 1)]].concat();
    let rest = vec![
        act(Leader, 0, 5, 0, 1),
        to(Acceptor, 0, &[0x29, 0, 1, 1, 2]),
        act(Acceptor, 0, 3, 0, 0),
        to(Leader, 0, &[0x27, 0, 0, 1, 1, 2]),
        act(Leader, 0, 4, 0, 4),
        act(Leader, 0, 6, 0, 1),
        to(Acceptor, 0, &[0x39, 0, 1, 2, 1, 2]),
        act(Acceptor, 0, 3, 0, 2),
        to(Leader, 0, &[0x3B, 0, 0, 1, 2, 1, 2]),
        act(Leader, 0, 4, 0, 6),
        act(Leader, 0, 8, 0, 0),
        to(Rm, 0, &[0x30, 2, 1, 2]),
        act(Rm, 0, 2, 0, 1),
    ];
    breaks("TableKept", before, restart(Acceptor, 0, &[0; 6], &[0; 48]), rest);
}

/// Of three acceptors, acceptor 0 has voted for weight 0's prepared. By its report and acceptor 1's, the leader proposes
/// prepared at ballot 1, which these two vote for, and weight 1 commits. The leader loses its inbox, hears of acceptors 1
/// and 2, which report no vote, and proposes aborted at ballot 1.
#[test]
fn inbox_kept_needed() {
    let plan = Plan { rms: 2, acceptors: 3, leaders: 1, order: 0x0102 };
    let network = slots_len(32);
    let mut system = System::fresh(plan, [(Rm, 2, 2, network), (Acceptor, 3, 18, network), (Leader, 1, 160, network)]);
    let genuine = |system: &mut System, happening: Happening| {
        assert_eq!(system.failed(&happening), [""; 0], "{happening:?}");
        match system.happen(&happening) {
            Ok(Answer::Slot(slot)) => slot,
            Ok(Answer::Quiet) => 0,
            Err(refusal) => panic!("{happening:?}: {refusal}"),
        }
    };
    // The bytes come to the host, which makes an event with their slot.
    let take = |system: &mut System, role, k, kind, bytes: &[u8]| {
        let [high, low] = genuine(system, to(role, k, bytes)).to_be_bytes();
        genuine(system, act(role, k, kind, high, low));
    };
    let s = &mut system;
    genuine(s, act(Rm, 0, 0, 0, 0));
    genuine(s, act(Rm, 1, 0, 0, 0));
    take(s, Acceptor, 0, 3, &[0x39, 0, 0, 1, 1, 2]);
    take(s, Acceptor, 0, 3, &[0x39, 1, 0, 1, 1, 2]);
    take(s, Acceptor, 1, 3, &[0x39, 1, 0, 1, 1, 2]);
    genuine(s, act(Leader, 0, 5, 0, 1));
    for acceptor in 0..3 {
        take(s, Acceptor, acceptor, 3, &[0x29, 0, 1, 1, 2]);
    }
    take(s, Leader, 0, 4, &[0x3F, 0, 0, 1, 0, 1, 1, 2]);
    take(s, Leader, 0, 4, &[0x27, 0, 1, 1, 1, 2]);
    genuine(s, act(Leader, 0, 6, 0, 1));
    for acceptor in 0..2 {
        take(s, Acceptor, acceptor, 3, &[0x39, 0, 1, 1, 1, 2]);
        take(s, Leader, 0, 4, &[0x3B, 0, acceptor, 1, 1, 1, 2]);
        take(s, Leader, 0, 4, &[0x3B, 1, acceptor, 0, 1, 1, 2]);
    }
    genuine(s, act(Leader, 0, 7, 0, 0));
    take(s, Rm, 1, 2, &[0x30, 1, 1, 2]);

    let Host { summary, network, .. } = &s.hosts[&(Leader, 0)];
    let lost = restart_leader(0, &[0; 160], summary, network);
    assert_eq!(s.failed(&lost), ["TableKept"]);
    assert_eq!(s.happen(&lost), Ok(Answer::Quiet));

    take(s, Leader, 0, 4, &[0x27, 0, 1, 1, 1, 2]);
    take(s, Leader, 0, 4, &[0x27, 0, 2, 1, 1, 2]);
    genuine(s, act(Leader, 0, 6, 0, 1));
    for acceptor in 1..3 {
        take(s, Acceptor, acceptor, 3, &[0x39, 0, 1, 2, 1, 2]);
        take(s, Leader, 0, 4, &[0x3B, 0, acceptor, 1, 2, 1, 2]);
    }
    genuine(s, act(Leader, 0, 8, 0, 0));
    take(s, Rm, 0, 2, &[0x30, 2, 1, 2]);
    assert_eq!(s.row(), [3, 2]);
}

/// The leader goes on with a summary that has both weights as prepared; its inbox has nothing. Weight 0 chooses to abort.
#[test]
fn summary_kept_needed() {
    let before = vec![act(Rm, 0, 1, 0, 0), act(Rm, 1, 0, 0, 0)];
    let rest = vec![act(Leader, 0, 7, 0, 0), to(Rm, 1, &[0x30, 1, 1, 2]), act(Rm, 1, 2, 0, 1)];
    breaks("TableKept", before, restart_leader(0, &[0; 40], &[1, 1], &[0; 64]), rest);
}

/// A leader goes on with a summary of zeros: it cannot decide until a 2b of each instance comes again.
#[test]
fn a_lost_summary() {
    let plan = Plan { rms: 2, acceptors: 1, leaders: 1, order: 0x0102 };
    let mut system = System::fresh(plan, [(Rm, 2, 2, 24), (Acceptor, 1, 6, 48), (Leader, 1, 40, 64)]);
    let decided = [vec![act(Rm, 0, 0, 0, 0), act(Rm, 1, 0, 0, 0)], deciding()].concat();
    for happening in decided {
        assert!(system.failed(&happening).is_empty() && system.happen(&happening).is_ok(), "{happening:?}");
    }
    let Host { table, summary, .. } = system.hosts[&(Leader, 0)].clone();
    assert_eq!(summary, [1, 1]);
    let (slot, quiet, not_enabled) = (|slot| Ok(Answer::Slot(slot)), Ok(Answer::Quiet), Err(Refusal::NotEnabled));
    for (happening, answer) in [
        (restart_leader(0, &table, &[0, 0], &[0; 64]), quiet),
        (act(Leader, 0, 7, 0, 0), not_enabled),
        (to(Leader, 0, &[0x3B, 0, 0, 0, 1, 1, 2]), slot(0)),
        (act(Leader, 0, 4, 0, 0), quiet),
        (act(Leader, 0, 7, 0, 0), not_enabled),
        (to(Leader, 0, &[0x3B, 1, 0, 0, 1, 1, 2]), slot(1)),
        (act(Leader, 0, 4, 0, 1), quiet),
        (act(Leader, 0, 7, 0, 0), slot(2)),
    ] {
        assert_eq!(system.failed(&happening), [""; 0], "{happening:?}");
        assert_eq!(system.happen(&happening), answer, "{happening:?}");
    }
    assert_eq!((&system.hosts[&(Leader, 0)].table, &system.hosts[&(Leader, 0)].summary), (&table, &summary));
}

/// A leader whose N, and then its inbox, has one slot: each is full, is made longer by zeros, and the next message has
/// room.
#[test]
fn longer_tables() {
    let plan = Plan { rms: 1, acceptors: 2, leaders: 1, order: 0x0102 };
    let mut system = System::fresh(plan, [(Rm, 1, 1, 8), (Acceptor, 2, 6, 16), (Leader, 1, 8, 8)]);
    let (slot, quiet) = (|slot| Ok(Answer::Slot(slot)), Ok(Answer::Quiet));
    let votes = [0x3B, 0, 0, 0, 1, 1, 2, 0, 0x3B, 0, 1, 0, 1, 1, 2, 0];
    for (happening, answer) in [
        (act(Rm, 0, 0, 0, 0), slot(0)),
        (to(Acceptor, 0, &[0x39, 0, 0, 1, 1, 2]), slot(0)),
        (act(Acceptor, 0, 3, 0, 0), slot(1)),
        (to(Acceptor, 1, &[0x39, 0, 0, 1, 1, 2]), slot(0)),
        (act(Acceptor, 1, 3, 0, 0), slot(1)),
        (to(Leader, 0, &votes[..7]), slot(0)),
        (act(Leader, 0, 4, 0, 0), quiet),
        (to(Leader, 0, &votes[8..15]), Err(Refusal::NetworkFull)),
        (restart_leader(0, &votes[..8], &[0], &[&votes[..8], &[0; 16]].concat()), quiet),
        (to(Leader, 0, &votes[8..15]), slot(1)),
        (act(Leader, 0, 4, 0, 1), Err(Refusal::InboxFull)),
        (restart_leader(0, &[&votes[..8], &[0; 8]].concat(), &[0], &[&votes[..], &[0; 8]].concat()), quiet),
        (act(Leader, 0, 4, 0, 1), quiet),
        (act(Leader, 0, 7, 0, 0), slot(2)),
    ] {
        assert_eq!(system.failed(&happening), [""; 0], "{happening:?}");
        assert_eq!(system.happen(&happening), answer, "{happening:?}");
    }
    assert_eq!(system.hosts[&(Leader, 0)].table, votes);
}
