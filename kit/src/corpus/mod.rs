//! The corpus: cases that together show everything worth showing, as requests and responses of the protocol, and as JSON.
//!
//! A supplier needs nothing of ours to run it: the requests go to its head's standard input, and what comes out has to be
//! equal to the responses, byte for byte. The files of JSON say of each case what it shows and for whom, and have its inputs
//! and its answer for those who call an expander without a head around it.

mod comment;
mod covered;
mod files;
mod flags;
mod id;

pub use flags::{FLAGS, Flag, flags};
pub use id::{Kind, id};

use crate::pair::Shape;
use crate::protocol;
use crate::response::Response;
use covered::Covered;
use differential::case::{Answer, Case, OPERATIONS, Operation};
use differential::compare::{self, Witness};
use differential::record::{self, Recorded};
use std::path::Path;

/// Longer rules are not written out.
const LONGEST_RULE: usize = 600;

/// A case of a corpus, and what is said of it.
struct Entry {
    /// The id of its request and its response.
    frame: u32,
    id: String,
    comment: String,
    flags: Vec<Flag>,
    /// The case in the notation of rules, if it is not too long.
    text: Result<String, usize>,
    /// Why the number is 1, 2 or 3.
    reason: &'static str,
    witness: Witness,
    case: Case,
    answer: Answer,
}

pub struct Corpus {
    pub requests: Vec<u8>,
    pub responses: Vec<u8>,
    /// One paragraph for each case, and behind them what all of them cover.
    pub index: String,
    /// A file for each operation, and the schema that describes them: names and texts.
    pub files: Vec<(String, String)>,
    pub cases: usize,
}

/// The cases that differential's fixed list has, chosen from so many of the seed. Model and upstream agree on each answer.
/// `watch` hears how many have been looked through.
pub fn make(seed: u64, cases: u64, watch: &mut dyn FnMut(u64)) -> Result<Corpus, String> {
    let list = record::record(seed, cases, &OPERATIONS, watch)?;
    let entries =
        (1..).zip(list).map(|(frame, recorded)| Entry::new(frame, recorded)).collect::<Result<Vec<_>, _>>()?;
    let (mut requests, mut responses, mut index) = (vec![], vec![], String::new());
    let mut covered = Covered::default();
    for entry in &entries {
        index.push_str(&entry.paragraph((requests.len(), responses.len())));
        requests.extend(protocol::request(entry.frame, &entry.case));
        responses.extend(protocol::response(entry.frame, &entry.response()));
        covered.add(&entry.case, &entry.answer);
    }
    index.push_str(&covered.text());
    Ok(Corpus { requests, responses, index, files: files::all(seed, cases, &entries), cases: entries.len() })
}

pub fn write(corpus: &Corpus, folder: &Path) -> Result<(), String> {
    let put = |name: &str, bytes: &[u8]| {
        let path = folder.join(name);
        std::fs::write(&path, bytes).map_err(|e| format!("{}: {e}", path.display()))
    };
    std::fs::create_dir_all(folder).map_err(|e| format!("{}: {e}", folder.display()))?;
    put("cases.requests", &corpus.requests)?;
    put("cases.responses", &corpus.responses)?;
    put("cases.txt", corpus.index.as_bytes())?;
    corpus.files.iter().try_for_each(|(name, text)| put(name, text.as_bytes()))
}

impl Entry {
    fn new(frame: u32, Recorded { case, answer, shows }: Recorded) -> Result<Entry, String> {
        let (_, notes, witness) = compare::expected(&case)?;
        let kind = Kind::of(&case, &answer);
        let text = Some(Shape::of(&case).text()).filter(|text| !text.is_empty());
        let text = text.map_or(Err(0), |text| if text.len() <= LONGEST_RULE { Ok(text) } else { Err(text.len()) });
        Ok(Entry {
            frame,
            id: id(&case, kind),
            comment: comment::comment(&case, &answer, &notes, &shows),
            flags: flags(&case, &answer),
            text,
            reason: notes.reason,
            witness,
            case,
            answer,
        })
    }

    fn response(&self) -> Response {
        let answer = &self.answer;
        Response::new(&self.case, answer.words(), &answer.result, &answer.message, answer.counts)
    }

    /// What the index says of it, with the places of its request and its response in their files.
    fn paragraph(&self, places: (usize, usize)) -> String {
        let reason = if self.reason.is_empty() { String::new() } else { format!(" ({})", self.reason) };
        let rule = self.text.clone().unwrap_or_else(|length| format!("// {length} bytes of text\n"));
        let indented: String = rule.lines().map(|line| format!("    {line}\n")).collect();
        format!(
            "{}: {}, answer {}{reason}, by {:?}; request at byte {}, response at byte {}; {}\n{indented}",
            self.frame,
            self.case.operation.name(),
            self.answer.number,
            self.witness,
            places.0,
            places.1,
            self.id,
        )
    }
}

/// What the tapes of an operation are, in the order in which they are given.
fn tape_names(operation: Operation) -> &'static [&'static str] {
    match operation {
        Operation::Check => &["definition"],
        Operation::Registry | Operation::CheckLibrary | Operation::CheckAt => &["registry"],
        Operation::Substitute => &["definition", "call"],
        Operation::Expand | Operation::Preview => &["registry", "condition"],
        Operation::Judge => &["registry", "condition", "supplied result"],
        Operation::Merge => &["first registry", "second registry"],
        Operation::Older => &["any root"],
        Operation::Profile => &["condition"],
        Operation::Provider => &["provider call or argument"],
        Operation::ArgumentToTerm => &["argument"],
        Operation::TermToArgument => &["term"],
        Operation::Sheet => &[],
    }
}
