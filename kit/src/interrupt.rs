//! Signals that ask for an end: the first one is remembered, so that a night that is ended still tells what it has seen.
//!
//! Rust's own library has nothing for signals. The C library that it links has, and one function of it is all that is needed.

use std::sync::atomic::{AtomicBool, Ordering};

/// SIGHUP, SIGINT and SIGTERM, which have these numbers wherever there are signals.
const ENDING: [i32; 3] = [1, 2, 15];

/// What stands in the place of a handler for what a signal does by itself, and for nothing at all.
const DEFAULT: usize = 0;
const IGNORED: usize = 1;

static ASKED: AtomicBool = AtomicBool::new(false);

unsafe extern "C" {
    fn signal(number: i32, handler: usize) -> usize;
}

/// From now on the first of these signals is remembered, and a second one ends the program at once.
pub fn watch() {
    set(remember as extern "C" fn(i32) as usize);
}

/// Whether an end was asked for.
pub fn is_asked() -> bool {
    ASKED.load(Ordering::Relaxed)
}

/// For what an end cuts short.
pub fn check() -> Result<(), String> {
    if is_asked() { Err("interrupted by a signal".to_string()) } else { Ok(()) }
}

/// A flag and calls of `signal`: both are allowed in a handler.
extern "C" fn remember(_: i32) {
    ASKED.store(true, Ordering::Relaxed);
    set(DEFAULT);
}

/// One that is ignored, as `nohup` has it, stays so.
fn set(handler: usize) {
    for number in ENDING {
        // SAFETY: `signal` takes these numbers, and each handler is a function for a signal, or one of the two constants.
        unsafe {
            if signal(number, handler) == IGNORED {
                signal(number, IGNORED);
            }
        }
    }
}
