//! `show` and `tape`: from tapes to text and back.

use super::args::Args;
use super::input;
use super::{Done, write_out};
use crate::notation::{self, Spans};
use crate::reading::{self, Entry, Sections};
use differential::tape::{Node, Sort};

pub fn show(words: &[String]) -> Result<Done, String> {
    let args = Args::parse(words, &["--rule"], &["--plain", "--entries", "--macros"])?;
    let [path] = args.all("show")?;
    let bytes = input::chosen(&args, path)?;
    if args.has("--entries") {
        let sections = reading::sections(&bytes).map_err(|why| format!("{path}: {why}"))?;
        say!("{}", entries(sections).trim_end());
        return Ok(Done::Well);
    }
    match reading::tree(&bytes, Sort::Any) {
        Ok(tree) => {
            let spans = if args.has("--plain") { Spans::Hidden } else { Spans::Written };
            say!("{}", notation::print(&tree, spans).trim_end());
            Ok(Done::Well)
        }
        Err(why) => {
            let how = if reading::sections(&bytes).is_ok() { "; `show --entries` shows its entries" } else { "" };
            say!("{path}: no tree: {why}{how}");
            Ok(Done::Refused)
        }
    }
}

/// One line for each entry: its place, code, and span, text or value.
pub fn entries(sections: Sections) -> String {
    let line = |(i, entry): (usize, Entry)| format!("{:5}  {:2}  {}\n", i + 1, entry.code, entry.shown());
    sections.entries().enumerate().map(line).collect()
}

pub fn tape(words: &[String]) -> Result<Done, String> {
    let args = Args::parse(words, &["-o", "--rule"], &["--macros"])?;
    let [path] = args.all("tape")?;
    write_out(args.value("-o"), &input::chosen(&args, path)?)
}

/// A result's tree as text, with spans if it has any, or why it is none.
pub fn result_text(result: &[u8]) -> String {
    let bytes = reading::with_zeros(result);
    match reading::tree(&bytes, Sort::Any) {
        Ok(tree) => notation::print(&tree, notation::spans_of([&tree])).trim_end().to_string(),
        Err(why) => format!("no tree: {why}"),
    }
}

/// The tree of a result, if it is one.
pub fn result_tree(result: &[u8]) -> Option<Node> {
    reading::tree(&reading::with_zeros(result), Sort::Any).ok()
}
