//! Prepares upstream's files for the compiler without changing them.
//!
//! - macros/mod.rs is written out byte for byte, and behind it one line that adds our adapter as a child module:
//!   what the adapter calls is private, and a child sees its parent's private items.
//! - error.rs and parser/mod.rs need crates that are not here, so the pieces that the expander uses are cut out of
//!   them, whole lines between two lines that must each stand there exactly once.

use std::path::{Path, PathBuf};
use std::{env, fs};

fn main() {
    let here = PathBuf::from(env::var("CARGO_MANIFEST_DIR").expect("set by cargo"));
    let out = PathBuf::from(env::var("OUT_DIR").expect("set by cargo"));
    let upstream = here.join("../upstream/dogwood-language/src");
    println!("cargo::rerun-if-changed=build.rs");

    let macros = read(&upstream.join("macros/mod.rs"));
    let adapter = here.join("src/adapter.rs");
    write(&out.join("macros.rs"), &format!("{macros}\n#[path = {adapter:?}]\npub mod adapter;\n"));
    write(&out.join("modules.rs"), &format!("#[path = {:?}]\npub mod macros;\n", out.join("macros.rs")));

    let error = read(&upstream.join("error.rs"));
    let span = cut(&error, "/// A byte range `[start, end)`", "impl From<Span> for SourceSpan");
    let cedarify = cut(&error, "/// An error produced while lowering", "// ─── Public, self-rendering");
    write(&out.join("error.rs"), &format!("{span}{cedarify}"));

    let parser = read(&upstream.join("parser/mod.rs"));
    let measure = cut(&parser, "/// The depth of `expr`, measured", "/// Translate a pest grammar `Rule`");
    write(&out.join("parser.rs"), &measure);
}

fn read(path: &Path) -> String {
    println!("cargo::rerun-if-changed={}", path.display());
    fs::read_to_string(path).unwrap_or_else(|e| panic!("{}: {e}", path.display()))
}

fn write(path: &Path, text: &str) {
    fs::write(path, text).unwrap_or_else(|e| panic!("{}: {e}", path.display()));
}

/// The lines from the one that starts with `from` up to the one that starts with `to`.
fn cut(text: &str, from: &str, to: &str) -> String {
    let start = line_that_starts(text, from);
    let end = line_that_starts(text, to);
    assert!(start < end, "`{from}` stands behind `{to}`");
    text.lines().skip(start).take(end - start).map(|line| format!("{line}\n")).collect()
}

fn line_that_starts(text: &str, with: &str) -> usize {
    let found: Vec<usize> =
        text.lines().enumerate().filter(|(_, line)| line.starts_with(with)).map(|(i, _)| i).collect();
    assert!(found.len() == 1, "{} lines start with `{with}`", found.len());
    found[0]
}
