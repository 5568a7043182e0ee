//! The report for other programs: JSON, and JUnit's XML.

use super::cause::{Answered, Cause, First};
use super::complaints::Complaints;
use super::heads::NotRun;
use super::limits;
use super::report::{self, LETTERS, answered, what_differs};
use super::run::{Found, Gathered, Old, Pairing, State, Status, Went, status};
use crate::hex;
use crate::json::Value;
use differential::case;
use std::fmt::Write;

// ------------------------------------------------------------------ JSON

/// The report as JSON: docs/SUPPLIER.md names its members.
pub fn json(went: &Went, names: &[String; 2]) -> Value {
    let heads: Value = (0..2).map(|i| head(went, names, i)).collect();
    let no_hello = match went {
        Err(NotRun::NoHello((i, failure, complaints))) => Value::Object(vec![
            ("head", LETTERS[*i].into()),
            ("how", failure.to_string().into()),
            ("standard_error", said(complaints)),
        ]),
        _ => Value::Null,
    };
    let number = match status(went) {
        Status::Equal => 0,
        Status::Differs => 1,
        Status::Trouble => 2,
    };
    let of = |value: &dyn Fn(&Pairing) -> Value| went.as_ref().map_or(Value::Null, value);
    Value::Object(vec![
        ("heads", heads),
        ("no_hello", no_hello),
        ("status", Value::Number(number)),
        ("error", report::trouble(went, names).into()),
        ("cases", of(&|pairing| pairing.ran.into())),
        ("left_out", of(&|pairing| pairing.left_out.into())),
        ("ended", of(&|pairing| pairing.ended.as_ref().map(ToString::to_string).into())),
        ("note", of(&|pairing| pairing.note.clone().into())),
        ("old", of(&|pairing| pairing.old.iter().map(old).collect())),
        ("causes", of(&|pairing| pairing.causes.iter().map(gathered).collect())),
    ])
}

fn head(went: &Went, names: &[String; 2], i: usize) -> Value {
    let says = went.as_ref().ok().map(|pairing| pairing.hellos[i].name.clone());
    Value::Object(vec![("head", LETTERS[i].into()), ("command", names[i].clone().into()), ("name", says.into())])
}

fn old(old: &Old) -> Value {
    Value::Object(vec![("case", old.origin.to_string().into()), ("state", state(old.state).into())])
}

fn state(state: State) -> &'static str {
    match state {
        State::Equal => "equal",
        State::Differs => "different",
        State::LeftOut => "left out",
    }
}

fn gathered(gathered: &Gathered) -> Value {
    let Gathered { found, cause, seen, .. } = gathered;
    let seen = seen.iter().map(|(cause, origin, cases)| {
        let more = [("cases", Value::from(*cases)), ("first", origin.to_string().into())];
        Value::Object(cause_members(cause).into_iter().chain(more).collect())
    });
    let mut members = cause_members(cause);
    members.extend([
        ("cases", gathered.cases().into()),
        ("first", gathered.first().to_string().into()),
        ("from", found.origin.to_string().into()),
        ("needs_history", found.needs_history.into()),
        ("unexamined", found.unexamined.clone().into()),
        ("seen", seen.collect()),
        ("tries", found.smallest.tries.into()),
        ("case", case(found)),
        ("figures", Value::from(limits::reached(found))),
        ("answers", found.outcomes.iter().map(answered).collect()),
        ("difference", what_differs(found).into()),
        ("standard_error", found.complaints.iter().map(said).collect()),
    ]);
    Value::Object(members)
}

/// Operation, what both answered, and what differs first: a field, or the codes of an entry.
fn cause_members(cause: &Cause) -> Vec<(&'static str, Value)> {
    let answered = |answered: Answered| match answered {
        Answered::Number(number) => Value::Number(number),
        Answered::Hangs => "hangs".into(),
        Answered::Dies => "dies".into(),
        Answered::Garbage => "garbage".into(),
    };
    let (field, codes) = match cause.first {
        First::Field(difference) => (difference.field(), Value::Null),
        First::Entry(codes) => ("entry", codes.into_iter().map(|code| code.map(u32::from)).collect()),
    };
    vec![
        ("operation", cause.operation.name().into()),
        ("numbers", cause.answered.into_iter().map(answered).collect()),
        ("differs", field.into()),
        ("codes", codes),
    ]
}

/// The smallest case, as it is asked.
fn case(found: &Found) -> Value {
    let shape = &found.smallest.shape;
    let case = shape.case();
    Value::Object(vec![
        ("operation", case.operation.name().into()),
        ("entries", shape.entries().into()),
        ("text", shape.readable().into()),
        ("limit", case.limit.into()),
        ("file", u32::from(case.file).into()),
        ("index", case.index.into()),
        ("buffers", case.sizes.into_iter().collect()),
        ("counts", case::used(&case.counts).iter().copied().collect()),
        ("tapes", case.tapes.iter().map(|tape| hex::of(tape)).collect()),
    ])
}

fn said(complaints: &Complaints) -> Value {
    complaints.text().into()
}

// ------------------------------------------------------------------ JUnit

/// The report as JUnit's XML: a test for each operation that was tried, and one for each case that was found before.
pub fn junit(went: &Went, names: &[String; 2]) -> String {
    let tests: Vec<Test> = match (went, report::trouble(went, names)) {
        (Ok(pairing), trouble) => {
            of_operations(pairing).chain(of_old(pairing)).chain(trouble.map(of_trouble)).collect()
        }
        (Err(_), Some(trouble)) => vec![of_trouble(trouble)],
        (Err(not_run), None) => {
            vec![Test { name: "hello".to_string(), came: Came::Failed(report::of_not_run(not_run, names)) }]
        }
    };
    let count = |is: fn(&Came) -> bool| tests.iter().filter(|test| is(&test.came)).count();
    let (failures, errors, skipped) = (
        count(|came| matches!(came, Came::Failed(_))),
        count(|came| matches!(came, Came::Broken(_))),
        count(|came| matches!(came, Came::Skipped)),
    );
    let suite = escaped(&format!("pair {} {}", names[0], names[1]));
    let all = tests.len();
    let counts = format!("tests=\"{all}\" failures=\"{failures}\" errors=\"{errors}\" skipped=\"{skipped}\"");
    let mut xml = "<?xml version=\"1.0\" encoding=\"UTF-8\"?>\n".to_string();
    let _ = write!(xml, "<testsuites {counts}>\n  <testsuite name=\"{suite}\" {counts}>\n");
    tests.iter().for_each(|test| xml.push_str(&test.xml()));
    xml + "  </testsuite>\n</testsuites>\n"
}

struct Test {
    name: String,
    came: Came,
}

/// What came of a test.
enum Came {
    Passed,
    Skipped,
    Failed(String),
    /// What JUnit calls an error: nothing that was tested.
    Broken(String),
}

fn of_trouble(why: String) -> Test {
    Test { name: "pair".to_string(), came: Came::Broken(why) }
}

impl Test {
    fn xml(&self) -> String {
        let open = format!("    <testcase classname=\"pair\" name=\"{}\"", escaped(&self.name));
        let with = |inside: &str| format!("{open}>\n      {inside}\n    </testcase>\n");
        let said = |element: &str, text: &str| {
            let message = escaped(text.lines().next().unwrap_or(""));
            with(&format!("<{element} message=\"{message}\">{}</{element}>", escaped(text)))
        };
        match &self.came {
            Came::Passed => format!("{open}/>\n"),
            Came::Skipped => with("<skipped/>"),
            Came::Failed(text) => said("failure", text),
            Came::Broken(text) => said("error", text),
        }
    }
}

/// An operation fails with the causes whose first case asks for it.
fn of_operations(pairing: &Pairing) -> impl Iterator<Item = Test> + '_ {
    pairing.operations.iter().map(move |operation| {
        let is_its = |gathered: &&Gathered| gathered.found.case.operation.name() == *operation;
        let causes: Vec<String> = pairing.causes.iter().filter(is_its).map(report::of_cause).collect();
        let came = if causes.is_empty() { Came::Passed } else { Came::Failed(causes.join("\n\n")) };
        Test { name: operation.to_string(), came }
    })
}

fn of_old(pairing: &Pairing) -> impl Iterator<Item = Test> + '_ {
    pairing.old.iter().map(|old| {
        let came = match old.state {
            State::Equal => Came::Passed,
            State::Differs => Came::Failed(format!("{} differs still", old.origin)),
            State::LeftOut => Came::Skipped,
        };
        Test { name: old.origin.to_string(), came }
    })
}

/// What XML has no character for, such as most controls, is shown as one that says so.
fn escaped(text: &str) -> String {
    let mut out = String::new();
    for c in text.chars() {
        match c {
            '&' => out.push_str("&amp;"),
            '<' => out.push_str("&lt;"),
            '>' => out.push_str("&gt;"),
            '"' => out.push_str("&quot;"),
            '\n' | '\t' => out.push(c),
            '\0'..=' ' | '\u{FFFE}' | '\u{FFFF}' if c != ' ' => out.push(char::REPLACEMENT_CHARACTER),
            c => out.push(c),
        }
    }
    out
}

#[cfg(test)]
mod tests {
    use super::*;

    #[test]
    fn what_xml_has_not_is_replaced() {
        assert_eq!(escaped("a<b> & \"c\"\n\u{1}\u{7f}é"), "a&lt;b&gt; &amp; &quot;c&quot;\n\u{FFFD}\u{7f}é");
    }
}
