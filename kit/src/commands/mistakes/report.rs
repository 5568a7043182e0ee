//! What is printed of mistakes: for readers, and as JSON.

use super::{At, Finding, Within};
use crate::commands::input::{File, Rules};
use crate::figures::{Passed, Whose};
use crate::json::Value;
use crate::notation;

/// A mistake with its place, its line, and what belongs to it.
pub fn text(rules: &Rules, finding: &Finding) -> String {
    let what = match finding.number {
        Some(number) => format!("refused with {number}: {}", finding.what),
        None => finding.what.clone(),
    };
    let pointed = match finding.at {
        Some(At { file, place }) => match &rules.files[file] {
            File::Text(source) => source.pointed(place.start, place.end, &what),
            File::Tape(name) => format!("{name}: entry {}: {what}", place.start + 1),
        },
        None => what,
    };
    let notes: Vec<String> =
        [within(&finding.within), other(rules, finding), meant(finding)].into_iter().flatten().collect();
    if notes.is_empty() { pointed } else { format!("{pointed}\n    {}", notes.join("; ")) }
}

fn within(within: &Within) -> Option<String> {
    match within {
        Within::Text => None,
        Within::Macros => Some("in the macros".to_string()),
        Within::Macro(name) => Some(format!("in macro `{name}`")),
        Within::Rule(name) => Some(format!("in rule `{}`", notation::visible(name))),
    }
}

fn other(rules: &Rules, finding: &Finding) -> Option<String> {
    let (at, what) = finding.other.as_ref()?;
    let is_same_file = finding.at.is_some_and(|own| own.file == at.file);
    Some(match &rules.files[at.file] {
        File::Text(source) => {
            let (line, column) = source.place(at.place.start);
            let file = if is_same_file { String::new() } else { format!("{}:", source.name) };
            format!("{what} at {file}{line}:{column}")
        }
        File::Tape(name) => format!("{what} at {name}: entry {}", at.place.start + 1),
    })
}

fn meant(finding: &Finding) -> Option<String> {
    finding.meant.as_ref().map(|meant| format!("did you mean `{meant}`?"))
}

/// Everything as one value: counts, and each mistake.
pub fn json(rules: &Rules, findings: &[Finding]) -> Value {
    Value::Object(vec![
        ("files", rules.files.iter().map(file_name).collect()),
        ("macros", rules.macros.len().into()),
        ("rules", rules.conditions.len().into()),
        ("mistakes", findings.iter().map(|finding| mistake(rules, finding)).collect()),
    ])
}

fn file_name(file: &File) -> &str {
    match file {
        File::Text(source) => &source.name,
        File::Tape(name) => name,
    }
}

fn mistake(rules: &Rules, finding: &Finding) -> Value {
    let (own_macro, rule) = match &finding.within {
        Within::Macro(name) => (Some(name.clone()), None),
        Within::Rule(name) => (None, Some(name.clone())),
        Within::Text | Within::Macros => (None, None),
    };
    let other = finding
        .other
        .as_ref()
        .map(|(at, what)| Value::Object([place(rules, *at), vec![("message", what.as_str().into())]].concat()));
    let own = [
        ("number", finding.number.into()),
        ("message", finding.what.as_str().into()),
        ("macro", own_macro.into()),
        ("rule", rule.into()),
        ("meant", finding.meant.clone().into()),
        ("figure", finding.passed.as_ref().map(|(whose, passed)| figure(*whose, passed)).into()),
        ("other", other.into()),
    ];
    let at = finding.at.map_or(vec![], |at| place(rules, at));
    Value::Object(at.into_iter().chain(own).collect())
}

/// Lines and columns from 1, the end behind the last character; of a tape the entry from 1.
fn place(rules: &Rules, At { file, place }: At) -> Vec<(&'static str, Value)> {
    let name = ("file", file_name(&rules.files[file]).into());
    let File::Text(source) = &rules.files[file] else { return vec![name, ("entry", (place.start + 1).into())] };
    let [start, end] = [place.start, place.end].map(|at| source.place(at));
    vec![
        name,
        ("line", start.0.into()),
        ("column", start.1.into()),
        ("end_line", end.0.into()),
        ("end_column", end.1.into()),
    ]
}

fn figure(whose: Whose, passed: &Passed) -> Value {
    let of = match whose {
        Whose::Tape(_) => "tape",
        Whose::Call => "call",
        Whose::Outcome => "outcome",
        Whose::Result => "result",
        Whose::Merged => "merged",
    };
    Value::Object(vec![
        ("name", passed.figure.name().into()),
        ("is", passed.is.into()),
        ("largest", passed.largest.into()),
        ("of", of.into()),
        ("rewritten", passed.rewritten.into()),
    ])
}
