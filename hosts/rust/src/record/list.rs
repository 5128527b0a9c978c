//! The list call on a record: a backlog of events, and what each answered.

use super::Record;
use crate::answer::refused;
use crate::{Event, Refusal, run};

impl<T: AsRef<[u8]> + AsMut<[u8]>> Record<T> {
    /// The list call: the events in order, one that is refused between others too, and what each answered. A backlog is
    /// one step, all of it or none: where the whole list is refused, with any up to `BadInbox` or with `BadSummary`,
    /// nothing has happened.
    ///
    /// ```
    /// use paxos_commit::{Ending, Event, Plan, Record, Refusal};
    ///
    /// let mut record = Record::fresh(Plan { rms: 1, acceptors: 1, leaders: 1, order: 0 }, 64, 64)?;
    /// let backlog = [
    ///     Event::Prepare { rm: 0 },
    ///     Event::Vote { acceptor: 0, slot: 0 },
    ///     Event::Commit { leader: 0 }, // too early
    ///     Event::Receipt { leader: 0, slot: 1 },
    ///     Event::Commit { leader: 0 },
    ///     Event::TakeDecision { rm: 0, slot: 2 },
    /// ];
    /// for (event, answer) in backlog.iter().zip(record.run(&backlog)?) {
    ///     if let Err(refusal) = answer {
    ///         assert_eq!((event, refusal), (&Event::Commit { leader: 0 }, Refusal::NotEnabled));
    ///     }
    /// }
    /// assert_eq!(record.ending(), Ok(Ending::Committed));
    /// # Ok::<(), Refusal>(())
    /// ```
    pub fn run(&mut self, events: &[Event]) -> Result<Answers, Refusal> {
        let bytes: Vec<[u8; 4]> = events.iter().map(|event| event.bytes()).collect();
        let mut answers = vec![0; events.len()];
        self.run_bytes(bytes.as_flattened(), &mut answers)?;
        Ok(Answers { numbers: answers.into_iter() })
    }

    /// The list call on any bytes and lent answers, which takes no memory: [`run`].
    #[inline]
    pub fn run_bytes(&mut self, events: &[u8], answers: &mut [u8]) -> Result<(), Refusal> {
        run(
            self.plan,
            self.states.as_mut(),
            self.votes.as_mut(),
            self.network.as_mut(),
            self.inboxes.as_mut(),
            self.summary.as_mut(),
            events,
            answers,
        )
    }
}

/// What the events of a list answered, in their order: an acceptance or a refusal for each, from [`Record::run`].
#[derive(Clone, Debug)]
pub struct Answers {
    numbers: std::vec::IntoIter<u8>,
}

impl Answers {
    /// The answers that are still to come as the list call wrote them, a byte each: 0, or the refusal's number.
    pub fn bytes(&self) -> &[u8] {
        self.numbers.as_slice()
    }

    fn of(number: u8) -> Result<(), Refusal> {
        match number {
            0 => Ok(()),
            number => Err(refused(number.into())),
        }
    }
}

impl Iterator for Answers {
    type Item = Result<(), Refusal>;

    fn next(&mut self) -> Option<Result<(), Refusal>> {
        self.numbers.next().map(Answers::of)
    }

    fn size_hint(&self) -> (usize, Option<usize>) {
        self.numbers.size_hint()
    }
}

impl DoubleEndedIterator for Answers {
    fn next_back(&mut self) -> Option<Result<(), Refusal>> {
        self.numbers.next_back().map(Answers::of)
    }
}

impl ExactSizeIterator for Answers {}
