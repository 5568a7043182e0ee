//! The corpus as JSON: a file for each operation, and the schema that describes them.

use super::{Entry, flags, tape_names};
use crate::hex;
use crate::json::Value;
use differential::case::{self, OPERATIONS, Operation};
use differential::compare::Witness;

/// Written by hand; the files are tested against it.
const SCHEMA: &str = include_str!("schema.json");
const SCHEMA_NAME: &str = "schema.json";

/// Files of another form would have another number.
const FORMAT: u32 = 1;

/// Names and texts. An operation without a case has its file too; the house sheet, which is no operation of a head, has none.
pub fn all(seed: u64, cases: u64, entries: &[Entry]) -> Vec<(String, String)> {
    let operations = OPERATIONS.into_iter().filter(|operation| *operation != Operation::Sheet);
    let schema = (SCHEMA_NAME.to_string(), SCHEMA.to_string());
    let file = |operation: Operation| (format!("{}.json", operation.name()), file(seed, cases, operation, entries));
    operations.map(file).chain([schema]).collect()
}

fn file(seed: u64, cases: u64, operation: Operation, entries: &[Entry]) -> String {
    let of_it = entries.iter().filter(|entry| entry.case.operation == operation);
    let value = Value::Object(vec![
        ("$schema", SCHEMA_NAME.into()),
        ("format", FORMAT.into()),
        ("operation", operation.name().into()),
        ("number", u32::from(operation.number()).into()),
        ("tapes", tape_names(operation).iter().copied().collect()),
        ("chosen_from", Value::Object(vec![("seed", seed.into()), ("cases", cases.into())])),
        ("cases", of_it.map(case).collect()),
    ]);
    format!("{value:#}\n")
}

fn case(entry: &Entry) -> Value {
    Value::Object(vec![
        ("id", entry.id.as_str().into()),
        ("frame", entry.frame.into()),
        ("comment", entry.comment.as_str().into()),
        ("flags", entry.flags.iter().map(|flag| flags::Flag::name(*flag)).collect()),
        ("text", entry.text.as_deref().ok().into()),
        ("witness", witness(entry.witness).into()),
        ("input", input(entry)),
        ("answer", answer(entry)),
    ])
}

fn input(entry: &Entry) -> Value {
    let case = &entry.case;
    let sizes = ["result", "work", "message"].into_iter().zip(case.sizes.map(Value::from)).collect();
    Value::Object(vec![
        ("limit", case.limit.into()),
        ("file", u32::from(case.file).into()),
        ("index", case.index.into()),
        ("sizes", Value::Object(sizes)),
        ("counts", hex::of(&case::used_bytes(&case.counts)).into()),
        ("tapes", case.tapes.iter().map(|tape| hex::of(tape)).collect()),
    ])
}

/// The seven words of a response by their names, and what the buffers hold before the zeros to their ends.
fn answer(entry: &Entry) -> Value {
    let response = entry.response();
    const WORDS: [&str; 7] = ["number", "start", "end", "message_length", "charged", "result_entries", "result_text"];
    let words = WORDS.into_iter().zip(response.words.map(Value::from));
    let buffers = [
        ("result", hex::of(&response.result)),
        // No operation leaves anything in it.
        ("work", hex::of(&[])),
        ("message", hex::of(&response.message)),
        ("counts", hex::of(&case::used_bytes(&response.counts))),
    ];
    Value::Object(words.chain(buffers.map(|(name, hex)| (name, hex.into()))).collect())
}

fn witness(witness: Witness) -> &'static str {
    match witness {
        Witness::ModelAlone => "model",
        Witness::Upstream => "upstream",
        Witness::UpstreamWithDays => "upstream-with-days",
        Witness::UpstreamMadeIt => "upstream-made-it",
        Witness::UpstreamHalted => "upstream-halted",
        Witness::UpstreamSubstituted => "upstream-substituted",
    }
}
