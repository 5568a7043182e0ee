//! Compares the archive with the Rust, by running. See README.md.

pub mod archive;
pub mod bench_cases;
pub mod brim;
pub mod by_hand;
pub mod case;
pub mod compare;
pub mod damage;
pub mod edges;
pub mod generate;
pub mod judge;
pub mod merge;
pub mod message;
pub mod model;
pub mod places;
pub mod profile;
pub mod program;
pub mod provider;
pub mod random;
pub mod record;
pub mod sheet;
mod shown;
pub mod tally;
pub mod tape;
pub mod texts;
pub mod trees;
pub mod upstream;
pub mod vectors;
