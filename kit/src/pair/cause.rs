//! What differences of one cause have in common: operation, the two numbers answered, and what differs first.

use super::difference::{Difference, first_codes};
use super::process::{Failure, Outcome};
use differential::case::Operation;
use std::fmt;

#[derive(Clone, Copy, Debug, PartialEq, Eq, PartialOrd, Ord)]
pub struct Cause {
    pub operation: Operation,
    pub answered: [Answered; 2],
    pub first: First,
}

/// What a head answered: its number, or that it did not.
#[derive(Clone, Copy, Debug, PartialEq, Eq, PartialOrd, Ord)]
pub enum Answered {
    Number(u64),
    Hangs,
    Dies,
    Garbage,
}

/// What differs first.
#[derive(Clone, Copy, Debug, PartialEq, Eq, PartialOrd, Ord)]
pub enum First {
    Field(Difference),
    /// Of a result that is a tape: the code that the first entry that differs has in each; none where a result has ended.
    Entry([Option<u8>; 2]),
}

impl Cause {
    pub fn of(operation: Operation, outcomes: &[Outcome; 2], difference: Difference) -> Cause {
        let codes = match outcomes {
            [Ok(a), Ok(b)] if difference == Difference::Result => first_codes(a, b),
            _ => None,
        };
        let first = codes.map_or(First::Field(difference), First::Entry);
        Cause { operation, answered: [0, 1].map(|i| Answered::of(&outcomes[i])), first }
    }

    /// Whether the other one is the same but for the operation: a smaller case may be one of another. Where one of them does
    /// not answer, what the other says does not matter.
    pub fn is_like(&self, other: &Cause) -> bool {
        let is_number = |answered: &Answered| matches!(answered, Answered::Number(_));
        let plain = |cause: &Cause| match cause.answered.iter().all(is_number) {
            true => cause.answered,
            false => cause.answered.map(|answered| if is_number(&answered) { Answered::Number(0) } else { answered }),
        };
        (plain(self), self.first) == (plain(other), other.first)
    }
}

impl Answered {
    fn of(outcome: &Outcome) -> Answered {
        match outcome {
            Ok(response) => Answered::Number(response.number()),
            Err(Failure::Hangs(_)) => Answered::Hangs,
            Err(Failure::Dies { .. }) => Answered::Dies,
            Err(Failure::Garbage(_)) => Answered::Garbage,
        }
    }
}

impl fmt::Display for Cause {
    fn fmt(&self, f: &mut fmt::Formatter) -> fmt::Result {
        let [a, b] = self.answered;
        write!(f, "{}, {a} in A and {b} in B, {}", self.operation.name(), self.first)
    }
}

impl fmt::Display for Answered {
    fn fmt(&self, f: &mut fmt::Formatter) -> fmt::Result {
        match self {
            Answered::Number(number) => write!(f, "{number}"),
            Answered::Hangs => f.write_str("no answer in time"),
            Answered::Dies => f.write_str("an end"),
            Answered::Garbage => f.write_str("garbage"),
        }
    }
}

impl fmt::Display for First {
    fn fmt(&self, f: &mut fmt::Formatter) -> fmt::Result {
        let code = |code: Option<u8>| code.map_or("nothing".to_string(), |code| code.to_string());
        match self {
            First::Field(difference) => write!(f, "first the {}", difference.field()),
            First::Entry([a, b]) => write!(f, "first an entry {} in A, {} in B", code(*a), code(*b)),
        }
    }
}

#[cfg(test)]
mod tests {
    use super::*;

    #[test]
    fn what_is_like_another_cause() {
        let entry = First::Entry([Some(43), Some(27)]);
        let cause = |operation, a, b, first| Cause { operation, answered: [a, b], first };
        let (number, failure) = (Answered::Number, First::Field(Difference::Failure));
        let expand = cause(Operation::Expand, number(0), number(0), entry);
        assert!(expand.is_like(&cause(Operation::Substitute, number(0), number(0), entry)));
        assert!(!expand.is_like(&cause(Operation::Expand, number(0), number(30), entry)));
        assert!(!expand.is_like(&cause(Operation::Expand, number(0), number(0), First::Entry([Some(43), None]))));
        let dies = cause(Operation::Expand, number(0), Answered::Dies, failure);
        assert!(dies.is_like(&cause(Operation::Check, number(30), Answered::Dies, failure)));
        assert!(!dies.is_like(&cause(Operation::Expand, number(0), Answered::Hangs, failure)));
        assert!(!dies.is_like(&cause(Operation::Expand, Answered::Dies, number(0), failure)));
    }
}
