//! What an accepted step did.

use crate::Refusal;

/// What an accepted step sent.
#[derive(Clone, Copy, Debug, PartialEq, Eq, Hash)]
pub enum Answer {
    /// The sent message stands in this slot of N, the first of equal ones; it may have stood there before.
    Slot(u16),
    /// Nothing was sent: a decision was taken (kind 2), or a message put into an inbox (kind 4).
    Quiet,
}

impl Answer {
    /// A step's number: a slot, 65535 for quiet, or 65536 and the refusal's.
    #[cfg_attr(
        not(any(feature = "rm", feature = "acceptor", feature = "leader", feature = "record")),
        allow(dead_code)
    )]
    #[inline]
    pub(crate) fn of(code: u32) -> Result<Answer, Refusal> {
        match code {
            0..1024 => Ok(Answer::Slot(code as u16)),
            65535 => Ok(Answer::Quiet),
            _ => Err(refused(code.wrapping_sub(65536))),
        }
    }
}

/// The refusal with a number that a call answered.
#[inline]
pub(crate) fn refused(number: u32) -> Refusal {
    match u8::try_from(number).ok().and_then(Refusal::from_number) {
        Some(refusal) => refusal,
        None => outside(),
    }
}

/// The contracts leave no other answer; a static library of another version might.
#[cold]
pub(crate) fn outside() -> ! {
    panic!("an answer outside the call's contract: is the static library of this version?")
}

#[cfg(test)]
mod tests {
    use super::*;

    #[test]
    fn numbers() {
        assert_eq!(Answer::of(0), Ok(Answer::Slot(0)));
        assert_eq!(Answer::of(1023), Ok(Answer::Slot(1023)));
        assert_eq!(Answer::of(65535), Ok(Answer::Quiet));
        for refusal in Refusal::ALL {
            assert_eq!(Answer::of(65536 + u32::from(refusal.number())), Err(refusal));
        }
    }

    #[test]
    fn numbers_outside_the_contract() {
        for code in [1024, 65534, 65536, 65536 + 21, 65536 + 256 + 1, u32::MAX] {
            assert!(std::panic::catch_unwind(|| Answer::of(code)).is_err(), "{code}");
        }
    }
}
