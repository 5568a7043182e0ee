//! Two heads side by side.

mod blocks;
mod cases;
mod cause;
mod complaints;
mod difference;
mod edits;
mod formats;
mod found;
mod heads;
mod keeper;
mod limits;
mod malformed;
mod operations;
mod plain;
mod process;
mod progress;
mod report;
mod run;
mod shape;
mod shrink;
mod simpler;

pub use cases::Origin;
pub use cause::Cause;
pub use difference::{Compared, Difference, difference, first_entry_but_names};
pub use formats::{json, junit};
pub use heads::NotRun;
pub use limits::of_shape as figures;
pub use process::{Failure, Outcome, Process};
pub use progress::{Progress, clock, grouped};
pub use report::{counted, summary, text, trouble};
pub use run::{Found, Gathered, Pairing, Plan, State, Status, Went, pair, status};
pub use shape::Shape;
pub use shrink::{Effort, Shrunk, shrink};
