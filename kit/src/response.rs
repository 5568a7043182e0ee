//! What an expander answers to a case.

use crate::numbers;
use differential::case::{Case, Counts, Operation, Words};
use differential::vectors::without_zeros;

#[derive(Clone, Debug, PartialEq, Eq)]
pub struct Response {
    /// Number, start, end, message length, charged; and of a preview N and T, which are otherwise 0.
    pub words: Words,
    /// What the buffers hold before the zeros at their ends.
    pub result: Vec<u8>,
    pub message: Vec<u8>,
    /// The registry state that is handed back, where the operation has one.
    pub counts: Counts,
}

impl Response {
    pub fn new(case: &Case, mut words: Words, result: &[u8], message: &[u8], counts: Counts) -> Response {
        if case.operation != Operation::Preview {
            words[5..].fill(0);
        }
        let counts = if case.operation.has_counts() { counts } else { [0; _] };
        let [result, message] = [result, message].map(|buffer| without_zeros(buffer).to_vec());
        Response { words, result, message, counts }
    }

    pub fn number(&self) -> u64 {
        self.words[0]
    }

    pub fn span(&self) -> (u64, u64) {
        (self.words[1], self.words[2])
    }

    pub fn charged(&self) -> u64 {
        self.words[4]
    }

    /// What a refusal says: its message, or what its number means.
    pub fn said(&self) -> String {
        match &self.message[..] {
            [] => numbers::meaning(self.number()).to_string(),
            message => String::from_utf8_lossy(message).to_string(),
        }
    }
}

#[cfg(test)]
mod tests {
    use super::*;

    #[test]
    fn a_refusal_says_its_message_or_its_meaning() {
        let case = Case::new(Operation::Check, 0, vec![]);
        let said = |message: &[u8]| Response::new(&case, [30, 0, 0, 0, 0, 0, 0], &[], message, [0; _]).said();
        assert_eq!(said(b"unknown macro `m`\0\0"), "unknown macro `m`");
        assert_eq!(said(&[]), numbers::meaning(30));
    }
}
