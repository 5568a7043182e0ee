//! A pairing in words: what ran, and the differences as rules. It says nothing of time, so that it is the same wherever and
//! in how many jobs the cases were run.

use super::cases::older;
use super::complaints::Complaints;
use super::difference::{Difference, first_entry};
use super::heads::{NoHello, NotRun};
use super::limits;
use super::process::Outcome;
use super::progress::grouped;
use super::run::{Found, Gathered, Pairing, State, Status, Went, status};
use super::shape::shortened;
use crate::archive::{Expander, Who};
use crate::commands::result_text;
use crate::numbers;
use crate::reading;
use crate::response::Response;
use differential::case::{Case, Operation};

pub const LETTERS: [&str; 2] = ["A", "B"];

/// The report as text. The names are what the user calls the heads.
pub fn text(went: &Went, names: &[String; 2]) -> String {
    match went {
        Ok(pairing) => of_pairing(pairing, names),
        Err(not_run) => of_not_run(not_run, names),
    }
}

/// What a user has to be told where the status says neither that the heads are equal nor that they differ.
pub fn trouble(went: &Went, names: &[String; 2]) -> Option<String> {
    match went {
        _ if status(went) != Status::Trouble => None,
        Ok(pairing) => pairing.ended.as_ref().map(ToString::to_string),
        Err(not_run) => Some(of_not_run(not_run, names)),
    }
}

/// Why no case was asked.
pub fn of_not_run(not_run: &NotRun, names: &[String; 2]) -> String {
    match not_run {
        NotRun::Error(why) => why.clone(),
        NotRun::NoHello((i, failure, complaints)) if failure.is_missing() => {
            format!("{}, `{}`, cannot be started: {}", LETTERS[*i], names[*i], complaints.text())
        }
        NotRun::NoHello(no_hello) => of_no_hello(no_hello, names),
    }
}

/// Which head does not say hello, and all that it wrote.
fn of_no_hello((i, failure, complaints): &NoHello, names: &[String; 2]) -> String {
    let said = format!("{} ({}) does not say hello: it {failure}", LETTERS[*i], names[*i]);
    match complaints.one_line() {
        Some(line) => format!("{said}; {line}"),
        None => [vec![said], wrote(LETTERS[*i], complaints)].concat().join("\n"),
    }
}

fn of_pairing(pairing: &Pairing, names: &[String; 2]) -> String {
    let head = |i: usize| format!("{} is {} ({})", LETTERS[i], names[i], pairing.hellos[i].name);
    let mut lines = vec![head(0), head(1)];
    lines.extend(pairing.note.clone());
    lines.extend(old_cases(pairing));
    lines.push(summary(pairing));
    lines.extend(pairing.ended.iter().map(|why| format!("It ended behind these: {why}.")));
    for (i, gathered) in pairing.causes.iter().enumerate() {
        lines.push(String::new());
        if pairing.keep_going {
            lines.push(format!("Cause {} of {}: {}", i + 1, pairing.causes.len(), gathered.cause));
            lines.extend(cases(gathered));
        }
        lines.push(difference(&gathered.found));
    }
    lines.join("\n")
}

/// A cause, how many cases show it, and the smallest one.
pub fn of_cause(gathered: &Gathered) -> String {
    let lines = [vec![gathered.cause.to_string()], cases(gathered), vec![difference(&gathered.found)]];
    lines.concat().join("\n")
}

/// What became of the cases that were found before.
fn old_cases(pairing: &Pairing) -> Vec<String> {
    let said = |state| match state {
        State::Equal => "equal now",
        State::Differs => "differs still",
        State::LeftOut => "left out as not for both",
    };
    pairing.old.iter().map(|old| format!("{}: {}", old.origin, said(old.state))).collect()
}

/// How many cases ran and what came of them, in a line.
pub fn summary(pairing: &Pairing) -> String {
    let left_out = match pairing.left_out {
        0 => String::new(),
        n => format!(", {} left out as not for both", grouped(n)),
    };
    let ran = format!("{}{left_out}", counted(pairing.ran, "case"));
    let differing: u64 = pairing.causes.iter().map(Gathered::cases).sum();
    match &pairing.causes[..] {
        [] => format!("{ran}: no difference"),
        [gathered, ..] if !pairing.keep_going => {
            let last = if pairing.ran == 0 { "one found before" } else { "the last one" };
            format!("{ran}: a difference in {last}, {}", gathered.found.origin)
        }
        causes => {
            format!("{ran}: {} of difference in {}", counted(causes.len() as u64, "cause"), counted(differing, "case"))
        }
    }
}

/// `1 case`, `2,000 cases`
pub fn counted(n: u64, what: &str) -> String {
    format!("{} {what}{}", grouped(n), if n == 1 { "" } else { "s" })
}

/// How many cases show a cause, and as what.
fn cases(gathered: &Gathered) -> Vec<String> {
    let (first, shown) = (gathered.first(), &gathered.found.origin);
    let by_itself =
        if first == shown { String::new() } else { format!("; the first that shows it by itself is {shown}") };
    let mut lines = vec![format!("{}, the first is {first}{by_itself}", counted(gathered.cases(), "case"))];
    if gathered.seen.iter().any(|(cause, ..)| *cause != gathered.cause) {
        let as_seen = |(cause, origin, n): &_| format!("    {} as {cause}; {origin}", counted(*n, "case"));
        lines.extend(gathered.seen.iter().map(as_seen));
    }
    lines
}

fn difference(found: &Found) -> String {
    let shape = &found.smallest.shape;
    let mut lines = Vec::new();
    lines.extend(found.unexamined.iter().map(|why| format!("It is told as it was found: {why}.")));
    if found.needs_history {
        lines.push("Asked for by itself the case shows no difference: what was asked before it matters.".to_string());
    }
    let before = super::Shape::of(&found.case).entries();
    let [was, is] = [&found.case, &shape.case].map(|case| case.operation.name());
    let from = if was == is { String::new() } else { format!("{was} with ") };
    let (after, tries) = (shape.entries(), found.smallest.tries);
    lines.push(match tries {
        0 => format!("{is} with {after} entries, as it was found:"),
        _ => format!("{is} with {after} entries, made smaller from {from}{before} in {tries} tries:"),
    });
    lines.push(indented(&shape.readable()));
    lines.extend(limits::reached(found).into_iter().map(|figure| format!("a largest figure: {figure}")));
    if found.by_older {
        lines.push("One of the two has no weeks: results are shown and judged as their older tapes.".to_string());
    }
    for (letter, outcome) in LETTERS.iter().zip(&found.outcomes) {
        lines.push(format!("{letter}: {}", answered(outcome)));
    }
    lines.push(format!("the difference: {}", what_differs(found)));
    lines.extend(judged(found));
    for (letter, complaints) in LETTERS.iter().zip(&found.complaints) {
        lines.extend(wrote(letter, complaints));
    }
    lines.join("\n")
}

/// What a head wrote to standard error, if anything.
fn wrote(letter: &str, complaints: &Complaints) -> Vec<String> {
    let said = || format!("{letter} wrote to standard error:\n{}", indented(&complaints.text()));
    if complaints.is_empty() { vec![] } else { vec![said()] }
}

fn indented(text: &str) -> String {
    format!("    {}", text.replace('\n', "\n    "))
}

/// What a head answered: the result as text, or the refusal.
pub fn answered(outcome: &Outcome) -> String {
    match outcome {
        Err(failure) => failure.to_string(),
        Ok(response) if response.number() == 0 => {
            let charged = format!("success, {} charged", response.charged());
            let result = if response.result.is_empty() { String::new() } else { shown(response) };
            format!("{charged}{result}")
        }
        Ok(response) => {
            let (start, end) = response.span();
            let (number, said) = (response.number(), response.said());
            format!("refused with {number} at {start}..{end}, {} charged: {said}", response.charged())
        }
    }
}

fn shown(response: &Response) -> String {
    format!("\n{}", indented(&shortened(&result_text(&response.result))))
}

pub fn what_differs(found: &Found) -> String {
    let [Ok(a), Ok(b)] = &found.outcomes else { return "one of them does not answer".to_string() };
    let both = |name: &str, values: [String; 2]| format!("the {name}, {} in A and {} in B", values[0], values[1]);
    match found.difference {
        Difference::Failure => "one of them does not answer".to_string(),
        Difference::Number => both("number", [a, b].map(|r| r.number().to_string())),
        Difference::Span => both("span", [a, b].map(|r| format!("{}..{}", r.words[1], r.words[2]))),
        Difference::Charged => both("charge", [a, b].map(|r| r.charged().to_string())),
        Difference::Size => both("sizes N and T", [a, b].map(|r| format!("{:?}", &r.words[5..]))),
        Difference::Result => format!("the result; {}", first_entry(a, b)),
        Difference::Message => both("message", [a, b].map(|r| format!("{:?}", String::from_utf8_lossy(&r.message)))),
        Difference::Counts => {
            let i = (0..a.counts.len()).find(|i| a.counts[*i] != b.counts[*i]).unwrap_or(0);
            both(&format!("count of macro {i}"), [a, b].map(|r| r.counts[i].to_string()))
        }
    }
}

/// What `judge` says of each result of an expansion.
fn judged(found: &Found) -> Vec<String> {
    let case = found.smallest.shape.case();
    if case.operation != Operation::Expand {
        return vec![];
    }
    let mut expander = Expander::default();
    // An older result is judged beside the older tapes that it was made of.
    let asked_for = if found.by_older { older(&case, &mut expander) } else { Some(case) };
    let Some(case) = asked_for else { return vec![] };
    let who =
        if expander.who(Operation::Judge) == Who::Archive { "judge" } else { "judge (the model, not the archive)" };
    let mut verdict = |letter: &str, response: &Response| {
        let mut tapes = case.tapes.clone();
        tapes.push(reading::with_zeros(&response.result));
        let mut asked = Case::new(Operation::Judge, case.limit, tapes);
        asked.file = case.file;
        let number = expander.answer(&asked).number();
        format!("{who} of {letter}: {number}, {}", if number == 0 { "equal to ours" } else { numbers::meaning(number) })
    };
    let succeeded =
        LETTERS.into_iter().zip(&found.outcomes).filter_map(|(letter, outcome)| Some((letter, outcome.as_ref().ok()?)));
    succeeded.filter(|(_, r)| r.number() == 0).map(|(letter, response)| verdict(letter, response)).collect()
}
