//! An acceptor's host: acceptor NUMBER FOLDER. It does what hosts/c/acceptor.c does, on the same files.

use paxos_commit::{Answer, Event, MAX_SLOTS, Message, Plan, Refusal, Written, acceptor_step, deliver, slots_len};
use std::error::Error;
use std::fs::{self, File};
use std::io::{self, BufRead, Write};

/// The order's plan, the same at all its hosts.
const PLAN: Plan = Plan { rms: 2, acceptors: 3, leaders: 1, order: 0x0102 };

#[derive(Clone)]
struct Tables {
    votes: Vec<u8>,
    network: Vec<u8>,
}

/// What the network brought goes into N, and its slot into the event: the tables afterwards and the reply, or a
/// refusal. It works on a copy, which a refusal drops.
fn take(tables: &Tables, who: u8, bytes: &[u8]) -> Result<(Tables, Option<Written>), Refusal> {
    let mut next = tables.clone();
    let slot = deliver(PLAN, &mut next.network, bytes)?;
    let event = Event::Vote { acceptor: who, slot }.bytes();
    let reply = match acceptor_step(PLAN, &mut next.votes, &mut next.network, &event)? {
        Answer::Slot(slot) => Some(Message::in_slot(PLAN, &next.network, slot)?.write(PLAN)?),
        Answer::Quiet => None,
    };
    Ok((next, reply))
}

/// Both tables on disk in one piece: the old ones or the new ones.
fn keep(tables: &Tables) -> io::Result<()> {
    let mut file = File::create("tables.new")?;
    file.write_all(&[&tables.votes[..], &tables.network].concat())?;
    file.sync_all()?;
    fs::rename("tables.new", "tables")?;
    File::open(".")?.sync_all()
}

fn main() -> Result<(), Box<dyn Error>> {
    let [_, number, folder] = &std::env::args().collect::<Vec<_>>()[..] else {
        return Err("acceptor NUMBER FOLDER".into());
    };
    let who: u8 = number.parse()?;
    std::env::set_current_dir(folder)?;
    let kept = fs::read("tables")?;
    if who >= PLAN.acceptors || kept.len() != PLAN.votes_len() + slots_len(MAX_SLOTS) {
        // Never on with new ones: the old ones are lost.
        return Err("no such acceptor, or no tables of this plan".into());
    }
    let (votes, network) = kept.split_at(PLAN.votes_len());
    let mut tables = Tables { votes: votes.into(), network: network.into() };
    for line in io::stdin().lock().split(b'\n') {
        let line = line?;
        let words = String::from_utf8_lossy(&line);
        let bytes: Vec<u8> = words.split_whitespace().map_while(|word| u8::from_str_radix(word, 16).ok()).collect();
        match take(&tables, who, &bytes) {
            Ok((next, reply)) => {
                keep(&next)?; // before the reply leaves
                tables = next;
                if let Some(reply) = reply {
                    println!("{}", reply.iter().map(|byte| format!("{byte:02X}")).collect::<Vec<_>>().join(" "));
                }
            }
            Err(refusal) => {
                println!("refused: {refusal}");
                if refusal < Refusal::WrongRole {
                    return Err(refusal.into()); // damage, or a fault of this host
                }
            }
        }
    }
    Ok(())
}
