//! What is printed. A write that failed is remembered, and the command ends with 2 for it whatever else came of it.

use std::fmt::Arguments;
use std::io::{self, ErrorKind, Write};
use std::sync::{Mutex, PoisonError};

/// The first write that failed, and to where.
static FAILED: Mutex<Option<(&str, io::Error)>> = Mutex::new(None);

pub fn line(words: Arguments) {
    remember("standard output", writeln!(io::stdout(), "{words}"));
}

/// Prints bytes as they are.
pub fn bytes(bytes: &[u8]) {
    remember("standard output", io::stdout().write_all(bytes));
}

pub fn note(words: Arguments) {
    remember("standard error", writeln!(io::stderr(), "{words}"));
}

fn remember(to: &'static str, written: io::Result<()>) {
    if let Err(error) = written {
        FAILED.lock().unwrap_or_else(PoisonError::into_inner).get_or_insert((to, error));
    }
}

/// Writes out what is still kept back. If a write failed, now or before, its reason, which is empty where a reader has gone, as
/// `head` does: that is no mistake that anybody has to be told.
pub fn finish() -> Result<(), String> {
    remember("standard output", io::stdout().flush());
    match FAILED.lock().unwrap_or_else(PoisonError::into_inner).take() {
        None => Ok(()),
        Some((_, error)) if error.kind() == ErrorKind::BrokenPipe => Err(String::new()),
        Some((to, error)) => Err(format!("{to}: {error}")),
    }
}
