//! Safe calls of the proved Paxos Commit record.
//!
//! The calls are written in Rattle and proved to answer and store exactly what document 01 says, as Papers 1 to
//! 6 of document 02 change it. They stand in static libraries; this crate links them, gives them Rust types, and adds
//! nothing to what they decide. Tables, events and messages are any bytes of any length: a call accepts, or answers one
//! [`Refusal`] and changes no byte.
//!
//! | Feature | Static library | Calls |
//! |---|---|---|
//! | `message` | `libhost_message.a` | [`Message::read`], [`Message::write`], [`Message::length`], [`Fields::write`] |
//! | `deliver` | `libhost_deliver.a` | [`deliver`] |
//! | `rm` | `libhost_rm.a` | [`rm_step`] |
//! | `acceptor` | `libhost_acceptor.a` | [`acceptor_step`] |
//! | `leader` | `libhost_leader.a` | [`leader_step`], and [`Leader`] over it; with `deliver`, [`Leader::deliver`] |
//! | `record` | `libhost_record.a` | [`open`], [`step`], [`ending`], and [`Record`] over them |
//! | `batch` | `libhost_batch.a` | [`run`]; with `record`, [`Record::run`] over it |
//!
//! A host of one role takes that role's feature, `deliver` for what comes from the wire, and `message` for what goes; all
//! seven are the default.
//!
//! Document 01's example, an order of one weight that ends committed:
//!
//! ```
//! # #[cfg(feature = "record")] {
//! use paxos_commit::{Answer, Ending, Event, Plan, Record, Refusal};
//!
//! let plan = Plan { rms: 1, acceptors: 1, leaders: 1, order: 0 };
//! let mut record = Record::fresh(plan, 1024, 1024)?;
//! assert_eq!(record.step(Event::Prepare { rm: 0 }), Ok(Answer::Slot(0)));
//! assert_eq!(record.step(Event::Vote { acceptor: 0, slot: 0 }), Ok(Answer::Slot(1)));
//! assert_eq!(record.step(Event::Receipt { leader: 0, slot: 1 }), Ok(Answer::Quiet));
//! assert_eq!(record.step(Event::Commit { leader: 0 }), Ok(Answer::Slot(2)));
//! assert_eq!(record.step(Event::TakeDecision { rm: 0, slot: 2 }), Ok(Answer::Quiet));
//! assert_eq!(record.step(Event::ChooseToAbort { rm: 0 }), Err(Refusal::NotEnabled));
//! assert_eq!(record.ending(), Ok(Ending::Committed));
//!
//! // Whatever the network brings:
//! assert_eq!(record.step_bytes(b"anything"), Err(Refusal::BadEvent));
//! # }
//! # Ok::<(), paxos_commit::Refusal>(())
//! ```
//!
//! Calls keep no state between them and may run on several threads at once, each on its own tables; `&mut` sees to that
//! here.
#![deny(unsafe_code)]
#![warn(missing_docs)]

mod answer;
#[cfg(feature = "batch")]
mod batch;
mod event;
#[allow(unsafe_code)]
mod ffi;
#[cfg(feature = "leader")]
mod leader;
mod message;
mod plan;
#[cfg(feature = "record")]
mod record;
mod refusal;
mod roles;

pub use answer::Answer;
#[cfg(feature = "batch")]
pub use batch::run;
pub use event::Event;
#[cfg(feature = "leader")]
pub use leader::Leader;
#[cfg(feature = "deliver")]
pub use message::deliver;
pub use message::{Decision, Fields, Message, Value, Vote, Written};
pub use plan::{MAX_SLOTS, Plan, SLOT, State, slots_len};
#[cfg(all(feature = "record", feature = "batch"))]
pub use record::Answers;
#[cfg(feature = "record")]
pub use record::{Ending, Record, ending, open, step};
pub use refusal::Refusal;
#[cfg(feature = "acceptor")]
pub use roles::acceptor_step;
#[cfg(feature = "leader")]
pub use roles::leader_step;
#[cfg(feature = "rm")]
pub use roles::rm_step;
