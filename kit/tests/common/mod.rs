//! What several tests use.

use std::path::PathBuf;
use std::{env, fs, process};

/// A folder of this run outside of the checkout, where rt would take crates for its own, and refuse links. Whoever makes it
/// removes it; of a test that fails it stays.
pub fn outside(name: &str) -> PathBuf {
    let path = env::temp_dir().join(format!("neukolja-{name}-{}", process::id()));
    fs::create_dir_all(&path).expect("a folder");
    path
}
