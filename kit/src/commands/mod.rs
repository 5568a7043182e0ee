//! What `./neukolja` can do.

mod args;
mod check;
mod expand;
mod help;
mod input;
mod mistakes;
mod pairing;
mod show;
mod tapes;

pub use args::Args;
pub use show::{entries, result_text, result_tree};

use crate::archive::{self, Expander, Who};
use crate::figures;
use crate::output;
use crate::response::Response;
use crate::source::Source;
use crate::whole::Whole;
use differential::case::{Case, Operation};
use std::io::IsTerminal;
use std::path::Path;

/// How a command ended: its exit status.
#[derive(Clone, Copy, Debug, PartialEq, Eq)]
pub enum Done {
    /// 0
    Well,
    /// 1: something was refused, or a difference was found.
    Refused,
}

pub fn run(words: &[String]) -> Result<Done, String> {
    let Some((first, rest)) = words.split_first() else { return said(help::ALL) };
    match (first.as_str(), rest) {
        ("--version", _) => said(&version()),
        ("help" | "--help" | "-h", []) => said(help::ALL),
        ("help" | "--help" | "-h", [name, ..]) => said(help::command(name)?.help),
        (name, _) => {
            let command = help::command(name)?;
            if asks_for_help(rest) { said(command.help) } else { (command.run)(rest) }
        }
    }
}

/// Wherever it stands before `--`, help is all that is wanted.
fn asks_for_help(words: &[String]) -> bool {
    words.iter().take_while(|word| *word != "--").any(|word| word == "--help" || word == "-h")
}

fn said(text: &str) -> Result<Done, String> {
    say!("{}", text.trim_end());
    Ok(Done::Well)
}

/// What the kit knows of itself. The commit is known to `../neukolja`, which says more.
fn version() -> String {
    let operations: Vec<&str> = Expander::default().operations().into_iter().map(Operation::name).collect();
    let archive = match archive::LINKED {
        None => "none; the model in differential/ answers".to_string(),
        Some(path) => format!("{path}, with {}", operations.join(" ")),
    };
    format!("neukolja, the kit by itself\narchive: {archive}\n{}", help::FORMAT)
}

/// `../neukolja` sets it where it has said what answers.
const SAID: &str = "NEUKOLJA_SAID";

/// Says so where the archive was not the one to answer, unless that was said before.
fn say_who(expander: &Expander, operation: Operation) {
    let why = match expander.who(operation) {
        Who::Archive => return,
        Who::Model if expander.has_archive() => "the archive has not",
        Who::Model if std::env::var_os(SAID).is_some() => return,
        Who::Model => "no archive is linked",
    };
    note!("({}: {why}; answered by the model in differential/)", operation.name());
}

/// A refusal: its place in the text where it has one, its number, and its message or what the number means.
fn refusal(response: &Response, source: Option<&Source>) -> String {
    let (start, end) = response.span();
    let what = format!("refused with {}: {}", response.number(), response.said());
    match source {
        Some(source) if end > 0 => source.pointed(start as usize, end as usize, &what),
        _ if end > 0 || start > 0 => format!("{what} (at {start}..{end})"),
        _ => what,
    }
}

/// A refusal with the figure that is passed, if it is 3.
fn with_figure(case: &Case, said: String) -> String {
    let Some((whose, passed)) = figures::explained(case) else { return said };
    let entry = passed.entry.map_or(String::new(), |entry| format!(", passed with entry {}", entry + 1));
    format!("{said}: {}{entry}", mistakes::large(whose, &passed))
}

/// Writes a tape to a file, or without one, as with `-`, to standard output if that is no terminal.
fn write_out(path: Option<&str>, bytes: &[u8]) -> Result<Done, String> {
    match path.filter(|path| *path != "-") {
        Some(path) => {
            Whole::open(Path::new(path)).and_then(|file| file.write(bytes)).map_err(|e| format!("{path}: {e}"))?
        }
        None if std::io::stdout().is_terminal() => return Err("a tape is no text: -o FILE, or a pipe".to_string()),
        None => output::bytes(bytes),
    }
    Ok(Done::Well)
}
