//! The name of a case: its operation, its kind, and a digest of what is asked.
//!
//! It stays the same as long as the case does, wherever it stands in a corpus and whatever stands beside it.

use super::flags;
use crate::protocol;
use differential::case::{Answer, Case};
use std::fmt::{self, Display, Formatter};

/// How a case ends.
#[derive(Clone, Copy, Debug, PartialEq, Eq)]
pub enum Kind {
    /// 0
    Success,
    /// 1
    ShortBuffer,
    /// 2
    Malformed,
    /// 3 of a tape
    TooLarge,
    /// 3 of what is made
    MadeTooLarge,
    /// Any other number
    Refused(u64),
}

impl Kind {
    pub fn of(case: &Case, answer: &Answer) -> Kind {
        match answer.number {
            0 => Kind::Success,
            1 => Kind::ShortBuffer,
            2 => Kind::Malformed,
            3 if flags::refused_tape(case).is_some() => Kind::TooLarge,
            3 => Kind::MadeTooLarge,
            number => Kind::Refused(number),
        }
    }
}

impl Display for Kind {
    fn fmt(&self, f: &mut Formatter) -> fmt::Result {
        match self {
            Kind::Success => f.write_str("success"),
            Kind::ShortBuffer => f.write_str("short-buffer"),
            Kind::Malformed => f.write_str("malformed"),
            Kind::TooLarge => f.write_str("too-large"),
            Kind::MadeTooLarge => f.write_str("made-too-large"),
            Kind::Refused(number) => write!(f, "refused-{number}"),
        }
    }
}

pub fn id(case: &Case, kind: Kind) -> String {
    // Behind the frame's length and its id stands what is asked.
    let asked = &protocol::request(0, case)[8..];
    format!("{}.{kind}.{:016x}", case.operation.name(), digest(asked))
}

/// FNV-1a with 64 bits.
fn digest(bytes: &[u8]) -> u64 {
    bytes.iter().fold(0xCBF2_9CE4_8422_2325, |hash, byte| (hash ^ u64::from(*byte)).wrapping_mul(0x0000_0100_0000_01B3))
}

#[cfg(test)]
mod tests {
    use super::*;

    /// The digests that FNV's authors publish.
    #[test]
    fn digests_are_fnv_1a() {
        assert_eq!(digest(b""), 0xCBF2_9CE4_8422_2325);
        assert_eq!(digest(b"a"), 0xAF63_DC4C_8601_EC8C);
        assert_eq!(digest(b"foobar"), 0x8594_4171_F739_67E8);
    }
}
