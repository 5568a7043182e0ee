//! What a case shows, in a few sentences: what is answered and why, and what of it no case before it has.

use super::{flags, tape_names};
use crate::numbers;
use differential::case::{Answer, Case, Operation};
use differential::model::{Notes, TooLarge};
use differential::tape::Unread;

/// Longer messages are not repeated.
const LONGEST_MESSAGE: usize = 200;
/// So many things that a case is the first to show are said.
const MOST_SHOWN: usize = 10;

pub fn comment(case: &Case, answer: &Answer, notes: &Notes, shows: &[String]) -> String {
    let shown = match shows {
        [] => String::new(),
        shows if shows.len() <= MOST_SHOWN => format!(" First to show: {}.", shows.join("; ")),
        shows => format!(" First to show: {}; and {} more.", shows[..MOST_SHOWN].join("; "), shows.len() - MOST_SHOWN),
    };
    answered(case, answer, notes) + &shown
}

fn answered(case: &Case, answer: &Answer, notes: &Notes) -> String {
    match answer.number {
        0 => succeeded(case, answer, notes),
        1 => short_buffer(case),
        2 | 3 => too_large_or_malformed(case, answer, notes),
        number => {
            let at = match (answer.start, answer.end) {
                (0, 0) => String::new(),
                (start, end) => format!(" at {start}..{end}"),
            };
            let what = match std::str::from_utf8(&answer.message) {
                Ok(message) if !message.is_empty() && message.len() <= LONGEST_MESSAGE => format!("{message:?}"),
                Ok("") => numbers::meaning(number).to_string(),
                _ => format!("{}, a message of {} bytes", numbers::meaning(number), answer.message.len()),
            };
            let charged =
                if case.operation.charges() { format!(", {} charged", answer.charged) } else { String::new() };
            format!("Refused with {number}{at}: {what}{charged}.")
        }
    }
}

fn succeeded(case: &Case, answer: &Answer, notes: &Notes) -> String {
    let charged = answer.charged;
    let definitions = |i: usize| notes.trees[i].children.len();
    match case.operation {
        Operation::Check => "The definition passes its body check.".to_string(),
        Operation::Registry => "The registry's names are free and distinct.".to_string(),
        Operation::Substitute => format!("The call is substituted, {charged} charged."),
        Operation::Expand => format!("The condition is expanded, {charged} charged."),
        Operation::Preview => {
            let [entries, text] = answer.size;
            format!("An expansion would charge {charged} and make {entries} entries and {text} bytes of text.")
        }
        Operation::CheckLibrary => {
            let refused = answer.result.len() / 16;
            format!("Of {} definitions {refused} are refused by their body checks, and listed.", definitions(0))
        }
        Operation::CheckAt if case.index as usize >= definitions(0) => {
            format!("Index {} is behind the last of {} definitions, which is no refusal.", case.index, definitions(0))
        }
        Operation::CheckAt => format!("The definition of index {}, from 0, passes its body check.", case.index),
        Operation::Judge => format!("The supplied tape is ours but for generated names, {charged} charged."),
        Operation::Merge => {
            let joined = notes.result.as_ref().map_or(0, |registry| registry.children.len());
            format!("{} and {} definitions are joined to {joined}.", definitions(0), definitions(1))
        }
        Operation::Older => "The tape for heads without weeks is made.".to_string(),
        Operation::Profile => "The condition is fit for the battery head.".to_string(),
        Operation::Provider => "The tape of a provider call, or of an argument alone, is accepted.".to_string(),
        Operation::ArgumentToTerm => "The argument becomes a term.".to_string(),
        Operation::TermToArgument => "The term becomes an argument.".to_string(),
        Operation::Sheet => "The sheet is gone through.".to_string(),
    }
}

fn short_buffer(case: &Case) -> String {
    let buffers = ["result", "work", "message"].into_iter().zip(case.sizes).zip(case.operation.buffers());
    let short = buffers.filter(|((_, size), least)| size < least);
    let short =
        short.map(|((name, size), least)| format!("the {name} buffer has {size} bytes, where {least} are the least"));
    format!("Refused with 1 whatever the tapes are: {}.", short.collect::<Vec<_>>().join("; "))
}

fn too_large_or_malformed(case: &Case, answer: &Answer, notes: &Notes) -> String {
    let number = answer.number;
    if let Some((i, unread)) = flags::refused_tape(case) {
        let why = match unread {
            Unread::Malformed(why) => malformed(why).to_string(),
            Unread::TooLarge(over) => format!("{} by {}", over_figure(over.figure), over.by),
        };
        let which = match tape_names(case.operation) {
            [_] => String::new(),
            names => format!(" of the {}", names[i]),
        };
        return format!("The tape{which} is refused with {number}: {why}.");
    }
    let what = match &notes.too_large {
        Some(TooLarge::Call { .. }) => "A call with its expanded arguments",
        Some(TooLarge::Outcome { .. }) => "What a call becomes",
        Some(TooLarge::Whole { .. }) => "The whole result",
        Some(TooLarge::Merged) => "The joined registry",
        None => "What is made",
    };
    let charged = if case.operation.charges() { format!(", {} charged", answer.charged) } else { String::new() };
    format!("{what} is refused with 3: {} by {}{charged}.", over_figure(notes.reason), notes.over_by)
}

/// The model's reasons, where they are too short for one who does not know it.
fn malformed(why: &'static str) -> &'static str {
    match why {
        "under 8 bytes" => "shorter than its two sizes",
        "length of the slice" => "another length than its two sizes say",
        "something left over, and too large" => {
            "entries or text left over, which comes before the figure that it is over"
        }
        why => why,
    }
}

fn over_figure(figure: &str) -> String {
    format!("over the largest figure for {figure}")
}
