//! The house sheet's program as a machine.

use crate::case::{Case, Operation};
use crate::compare::{Lent, Machine};
use std::io::Write;
use std::process::{Command, Stdio};

pub struct Program {
    pub path: String,
}

impl Machine for Program {
    fn has(&self, operation: Operation) -> bool {
        operation == Operation::Sheet
    }

    /// What it prints is the result; it has nothing else to say.
    fn run(&mut self, case: &Case, lent: Lent) {
        let mut child = Command::new(&self.path)
            .stdin(Stdio::piped())
            .stdout(Stdio::piped())
            .spawn()
            .unwrap_or_else(|e| panic!("{}: {e}", self.path));
        let (mut into, bytes) = (child.stdin.take().expect("piped"), case.tapes[0].clone());
        // It may end before it has read everything, and it may print before it has.
        let writing = std::thread::spawn(move || drop(into.write_all(&bytes)));
        let output = child.wait_with_output().expect("the program ends");
        writing.join().expect("what writes ends");
        lent.result.fill(if output.status.success() { 0 } else { 0xFF });
        let length = output.stdout.len().min(lent.result.len());
        lent.result[..length].copy_from_slice(&output.stdout[..length]);
        lent.answer[..5].fill(0);
    }
}
