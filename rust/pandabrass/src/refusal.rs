//! The refusals by name.

use std::error::Error;
use std::fmt;

/// Why a call was refused. A refusal comes only under its stated condition and alters no byte.
#[derive(Clone, Copy, Debug, PartialEq, Eq, Hash, PartialOrd, Ord)]
#[repr(u8)]
pub enum Refusal {
    /// 1, of the plan: fewer than six bytes.
    TooShort = 1,
    /// 2, of the plan: R, A, P, S or a capacity outside its range.
    OutOfRange,
    /// 3, of the plan: wrong length or a fill bit set.
    WrongLength,
    /// 4, of the plan: a later field outside its range.
    BadField,
    /// 5, of the plan: a router joint not named back, a joint to the same router, or an interface
    /// without exactly one joint.
    BadJoint,
    /// 6, of the plan: a ring.
    HasRing,
    /// 7: not a state; of Start, state buffer too short.
    NotState,
    /// 8: another phase.
    WrongPhase,
    /// 9: a number out of range.
    BadNumber,
    /// 10, of Launch and Close: pair not served.
    NotServed,
    /// 11, of Launch: allowance 0.
    NoAllowance,
    /// 12, of Launch, Close and Reply: out-queue full.
    QueueFull,
    /// 13, of Reply, Look and Drop: in-queue empty.
    QueueEmpty,
    /// 14, of Reply and Drop: in-queue flag up.
    FlagUp,
    /// 15, of Drop: head is an unmarked NACK.
    Unmarked,
    /// 16, of Close: connection not accepted.
    NotAccepted,
}

impl Refusal {
    /// All refusals, by their numbers.
    pub const ALL: [Refusal; 16] = [
        Refusal::TooShort,
        Refusal::OutOfRange,
        Refusal::WrongLength,
        Refusal::BadField,
        Refusal::BadJoint,
        Refusal::HasRing,
        Refusal::NotState,
        Refusal::WrongPhase,
        Refusal::BadNumber,
        Refusal::NotServed,
        Refusal::NoAllowance,
        Refusal::QueueFull,
        Refusal::QueueEmpty,
        Refusal::FlagUp,
        Refusal::Unmarked,
        Refusal::NotAccepted,
    ];

    /// Its number in document 01's list.
    pub fn number(self) -> u32 {
        self as u32
    }

    /// The refusal of that number, 1 to 16.
    pub fn of(number: u32) -> Option<Refusal> {
        let at = (number as usize).checked_sub(1)?;
        Refusal::ALL.get(at).copied()
    }

    /// The documents' words.
    pub fn sentence(self) -> &'static str {
        match self {
            Refusal::TooShort => "fewer than six bytes",
            Refusal::OutOfRange => "R, A, P, S or a capacity outside its range",
            Refusal::WrongLength => "wrong length or a fill bit set",
            Refusal::BadField => "a later field outside its range",
            Refusal::BadJoint => {
                "a router joint not named back, a joint to the same router, \
                 or an interface without exactly one joint"
            }
            Refusal::HasRing => "a ring",
            Refusal::NotState => "not a state",
            Refusal::WrongPhase => "another phase",
            Refusal::BadNumber => "a number out of range",
            Refusal::NotServed => "pair not served",
            Refusal::NoAllowance => "allowance 0",
            Refusal::QueueFull => "out-queue full",
            Refusal::QueueEmpty => "in-queue empty",
            Refusal::FlagUp => "in-queue flag up",
            Refusal::Unmarked => "head is an unmarked NACK",
            Refusal::NotAccepted => "connection not accepted",
        }
    }

    /// What an answer on slices means.
    pub(crate) fn result(answer: u32) -> Result<(), Refusal> {
        match answer {
            0 => Ok(()),
            _ => Err(Refusal::of(answer).expect("the library answers 0 to 16")),
        }
    }
}

impl fmt::Display for Refusal {
    fn fmt(&self, f: &mut fmt::Formatter) -> fmt::Result {
        write!(f, "{}: {}", self.number(), self.sentence())
    }
}

impl Error for Refusal {}

#[cfg(test)]
mod tests {
    use super::Refusal;

    #[test]
    fn numbers_are_in_order() {
        for (at, refusal) in Refusal::ALL.into_iter().enumerate() {
            assert_eq!(refusal.number() as usize, at + 1);
            assert_eq!(Refusal::of(refusal.number()), Some(refusal));
        }
        assert_eq!((Refusal::of(0), Refusal::of(17)), (None, None));
    }

    #[test]
    fn a_refusal_is_told_by_number_and_sentence() {
        assert_eq!(Refusal::HasRing.to_string(), "6: a ring");
        assert_eq!(Refusal::NotAccepted.to_string(), "16: connection not accepted");
    }
}
