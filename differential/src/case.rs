//! An input of one of the operations, and an answer.

use crate::tape::{LARGEST_TEXT, Sort};

#[derive(Clone, Copy, Debug, PartialEq, Eq, PartialOrd, Ord)]
pub enum Operation {
    Check,
    Registry,
    Substitute,
    Expand,
    Preview,
    CheckLibrary,
    CheckAt,
    Judge,
    Merge,
    Older,
    Profile,
    Provider,
    ArgumentToTerm,
    TermToArgument,
    /// The house sheet's program: its one tape is what it reads, its result what it prints.
    Sheet,
}

pub const OPERATIONS: [Operation; 15] = [
    Operation::Check,
    Operation::Registry,
    Operation::Substitute,
    Operation::Expand,
    Operation::Preview,
    Operation::CheckLibrary,
    Operation::CheckAt,
    Operation::Judge,
    Operation::Merge,
    Operation::Older,
    Operation::Profile,
    Operation::Provider,
    Operation::ArgumentToTerm,
    Operation::TermToArgument,
    Operation::Sheet,
];

impl Operation {
    /// The operation of this name.
    pub fn named(name: &str) -> Option<Operation> {
        OPERATIONS.into_iter().find(|operation| operation.name() == name)
    }

    pub fn name(self) -> &'static str {
        match self {
            Operation::Check => "check",
            Operation::Registry => "registry",
            Operation::Substitute => "substitute",
            Operation::Expand => "expand",
            Operation::Preview => "preview",
            Operation::CheckLibrary => "check_library",
            Operation::CheckAt => "check_at",
            Operation::Judge => "judge",
            Operation::Merge => "merge",
            Operation::Older => "older",
            Operation::Profile => "profile",
            Operation::Provider => "provider",
            Operation::ArgumentToTerm => "argument_to_term",
            Operation::TermToArgument => "term_to_argument",
            Operation::Sheet => "sheet",
        }
    }

    /// The operation's number in a list of vectors.
    pub fn number(self) -> u8 {
        match self {
            Operation::Check => 1,
            Operation::Registry => 2,
            Operation::Substitute => 3,
            Operation::Expand => 4,
            Operation::Preview => 5,
            Operation::CheckLibrary => 6,
            Operation::CheckAt => 7,
            Operation::Judge => 8,
            Operation::Merge => 9,
            Operation::Older => 10,
            Operation::Profile => 11,
            Operation::Provider => 12,
            Operation::ArgumentToTerm => 13,
            Operation::TermToArgument => 14,
            Operation::Sheet => 15,
        }
    }

    /// The roots of its tapes, in the order in which they are given.
    pub fn roots(self) -> &'static [Sort] {
        match self {
            Operation::Check => &[Sort::Definition],
            Operation::Registry | Operation::CheckLibrary | Operation::CheckAt => &[Sort::Definitions],
            Operation::Substitute => &[Sort::Definition, Sort::Call],
            Operation::Expand | Operation::Preview => &[Sort::Definitions, Sort::Condition],
            Operation::Judge => &[Sort::Definitions, Sort::Condition, Sort::Condition],
            Operation::Merge => &[Sort::Definitions, Sort::Definitions],
            Operation::Older => &[Sort::Any],
            Operation::Profile => &[Sort::Condition],
            Operation::Provider => &[Sort::Provider],
            Operation::ArgumentToTerm => &[Sort::ProviderArgument],
            Operation::TermToArgument => &[Sort::Term],
            Operation::Sheet => &[],
        }
    }

    /// The longest name, a text of 27 or 43, that one of its tapes may have: a generated one, where it may hold such.
    pub fn longest_name(self, tape: usize, file: u16) -> usize {
        match (self, tape) {
            (Operation::Judge, 2) if file == 0 => 75,
            (Operation::Judge, 2) | (Operation::Profile, _) => 81,
            _ => LARGEST_TEXT,
        }
    }

    /// The least sizes of its result, work and message buffers; 0 for one that it has not.
    pub fn buffers(self) -> [usize; 3] {
        match self {
            Operation::Check | Operation::Registry | Operation::CheckAt => [0, 0, LEAST_MESSAGE],
            Operation::CheckLibrary | Operation::Merge => [LEAST_RESULT, 0, LEAST_MESSAGE],
            Operation::Substitute | Operation::Expand | Operation::Judge => [LEAST_RESULT, LEAST_WORK, LEAST_MESSAGE],
            Operation::Preview => [0, LEAST_WORK, LEAST_MESSAGE],
            Operation::Older | Operation::ArgumentToTerm | Operation::TermToArgument => [LEAST_RESULT, 0, 0],
            Operation::Profile | Operation::Provider => [0; 3],
            Operation::Sheet => [LINES, 0, 0],
        }
    }

    /// Whether the operation hands back a registry state.
    pub fn has_counts(self) -> bool {
        matches!(self, Operation::Registry | Operation::Expand)
    }

    /// Whether the operation walks a body, with a limit for what is charged.
    pub fn charges(self) -> bool {
        matches!(self, Operation::Substitute | Operation::Expand | Operation::Preview | Operation::Judge)
    }
}

/// The most definitions that a registry's tape has room for. The registry state has a count for each.
pub const COUNTS: usize = 255;
pub type Counts = [u32; COUNTS];

/// The counts up to the last that is not 0. No more of them is ever written.
pub fn used(counts: &Counts) -> &[u32] {
    let used = counts.iter().rposition(|count| *count != 0).map_or(0, |last| last + 1);
    &counts[..used]
}

/// The same as they are sent: four bytes for each.
pub fn used_bytes(counts: &Counts) -> Vec<u8> {
    used(counts).iter().flat_map(|count| count.to_le_bytes()).collect()
}

/// Room for what the program prints: 32 lines of five numbers.
const LINES: usize = 4_096;

const LEAST_RESULT: usize = 12_296;
const LEAST_WORK: usize = 65_536;
const LEAST_MESSAGE: usize = 2_048;

#[derive(Clone, Debug, PartialEq, Eq)]
pub struct Case {
    pub operation: Operation,
    /// 0 where nothing is charged.
    pub limit: u32,
    /// The number of the file that the call or the condition is from; 0 where no name is generated.
    pub file: u16,
    /// The place of the definition that is asked for, from 0; otherwise 0.
    pub index: u32,
    /// The registry state that is given; zeros where the operation has none.
    pub counts: Counts,
    pub tapes: Vec<Vec<u8>>,
    /// Sizes of the result, work and message buffers; 0 for one that the operation has not.
    pub sizes: [usize; 3],
}

impl Case {
    /// From file 0, with a registry just built and buffers of the least sizes.
    pub fn new(operation: Operation, limit: u32, tapes: Vec<Vec<u8>>) -> Case {
        Case { operation, limit, file: 0, index: 0, counts: [0; COUNTS], tapes, sizes: operation.buffers() }
    }

    /// The bytes that this case takes in a list of vectors, its answer aside.
    pub fn bytes(&self) -> usize {
        self.tapes.iter().map(Vec::len).sum()
    }
}

/// What preview returns. The other operations return the first five.
pub type Words = [u64; 7];

/// What an operation returns, and what its buffers hold before the zeros. The work buffer is always zero.
#[derive(Clone, Debug, PartialEq, Eq)]
pub struct Answer {
    pub number: u64,
    pub start: u64,
    pub end: u64,
    pub charged: u64,
    /// Of a preview: the N and T that expansion's result has. Otherwise 0.
    pub size: [u64; 2],
    pub result: Vec<u8>,
    pub message: Vec<u8>,
    /// The registry state that is handed back.
    pub counts: Counts,
}

impl Answer {
    /// Success, with nothing charged, nothing written and these counts.
    pub fn success(counts: Counts) -> Answer {
        Answer { number: 0, start: 0, end: 0, charged: 0, size: [0; 2], result: vec![], message: vec![], counts }
    }

    /// The five numbers: number, start, end, message length, charged.
    pub fn numbers(&self) -> [u64; 5] {
        [self.number, self.start, self.end, self.message.len() as u64, self.charged]
    }

    /// The five numbers, and behind them N and T.
    pub fn words(&self) -> Words {
        let [number, start, end, length, charged] = self.numbers();
        [number, start, end, length, charged, self.size[0], self.size[1]]
    }
}

#[cfg(test)]
mod tests {
    use super::*;

    #[test]
    fn counts_are_written_up_to_the_last_that_is_not_0() {
        let mut counts = [0; COUNTS];
        assert_eq!(used(&counts), [0; 0]);
        (counts[0], counts[2]) = (7, 256);
        assert_eq!(used(&counts), [7, 0, 256]);
        assert_eq!(used_bytes(&counts), [7, 0, 0, 0, 0, 0, 0, 0, 0, 1, 0, 0]);
        counts[COUNTS - 1] = 1;
        assert_eq!(used(&counts).len(), COUNTS);
    }
}
