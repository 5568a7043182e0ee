//! The pairing kit. See README.md.

/// Prints a line.
#[macro_export]
macro_rules! say {
    ($($words:tt)*) => { $crate::output::line(format_args!($($words)*)) };
}

/// Prints a line to standard error: what is said of an answer and is no part of it.
#[macro_export]
macro_rules! note {
    ($($words:tt)*) => { $crate::output::note(format_args!($($words)*)) };
}

pub mod archive;
pub mod commands;
pub mod corpus;
pub mod figures;
pub mod hex;
pub mod interrupt;
pub mod json;
pub mod nearest;
pub mod notation;
pub mod numbers;
pub mod output;
pub mod pair;
pub mod protocol;
pub mod reading;
pub mod response;
pub mod second;
pub mod serve;
pub mod source;
pub mod whole;
