//! The cases of a pairing: those of a corpus, then those of a seed, each as both heads can take it.

use super::process::Outcome;
use crate::archive::Expander;
use crate::protocol::{self, Asked};
use crate::reading;
use crate::response::Response;
use crate::serve::Hello;
use differential::case::{COUNTS, Case, OPERATIONS, Operation};
use differential::generate;
use differential::tape::{self, Sort};
use differential::vectors::without_zeros;
use std::fs::ReadDir;
use std::io;
use std::path::Path;

/// Where a case is from.
#[derive(Clone, Debug, PartialEq, Eq)]
pub enum Origin {
    /// A case of a file of found ones, from 1, and where it is from.
    Found(String, usize, String),
    Corpus(String, u32),
    Seed(u64, u64),
}

impl std::fmt::Display for Origin {
    fn fmt(&self, f: &mut std::fmt::Formatter) -> std::fmt::Result {
        match self {
            Origin::Found(file, i, from) => write!(f, "case {i} of {file} ({from})"),
            Origin::Corpus(file, id) => write!(f, "case {id} of {file}"),
            Origin::Seed(seed, index) => write!(f, "case {index} of seed {seed}"),
        }
    }
}

/// What both heads can take.
#[derive(Clone, Debug)]
pub struct Common {
    pub operations: Vec<Operation>,
    pub counts: bool,
    pub files: bool,
    pub sizes: bool,
    pub utf8: bool,
    /// Which heads know weeks. One that does not is sent the older tape.
    pub weeks: [bool; 2],
}

impl Common {
    pub fn of(hellos: &[Hello; 2], only: Option<&[Operation]>) -> Common {
        let wanted = |operation: &Operation| {
            hellos.iter().all(|hello| hello.has_operation(*operation))
                && only.is_none_or(|only| only.contains(operation))
        };
        let both = |feature: &str| hellos.iter().all(|hello| hello.has(feature));
        Common {
            operations: OPERATIONS.into_iter().filter(wanted).collect(),
            counts: both("counts"),
            files: both("files"),
            sizes: both("sizes"),
            utf8: both("utf8"),
            weeks: [0, 1].map(|i| hellos[i].has("weeks")),
        }
    }

    /// The case with nothing that one of the heads does not take; none if its operation is not in common.
    pub fn fitted(&self, mut case: Case) -> Option<Case> {
        if !self.operations.contains(&case.operation) {
            return None;
        }
        if !self.utf8 {
            case.tapes.iter_mut().for_each(|tape| make_ascii(tape));
        }
        case.sizes = if self.sizes { case.sizes } else { case.operation.buffers() };
        case.file = if self.files { case.file } else { 0 };
        case.counts = if self.counts { case.counts } else { [0; COUNTS] };
        protocol::cut_to_fit(case)
    }

    /// Whether the two are compared by older tapes, as one of them has no weeks.
    pub fn by_older(&self) -> bool {
        self.weeks != [true; 2]
    }

    /// Two answers as they are compared.
    pub fn compared(&self, outcomes: [Outcome; 2]) -> [Outcome; 2] {
        if self.by_older() { outcomes.map(|outcome| outcome.map(with_older_result)) } else { outcomes }
    }

    /// The case as each of the heads is sent it: as it is, or with its tapes' older tapes, if they have such.
    pub fn for_both(&self, case: &Case, expander: &mut Expander) -> Option<[Case; 2]> {
        let older = if self.by_older() { Some(older(case, expander)?) } else { None };
        Some(self.weeks.map(|weeks| if weeks { case.clone() } else { older.clone().expect("made above") }))
    }
}

/// Puts a letter for each byte of a tape's text that is not ASCII. What is no tape has no text.
fn make_ascii(tape: &mut [u8]) {
    let Ok(length) = reading::sections(tape).map(|sections| sections.text.len()) else { return };
    let start = tape.len() - length;
    tape[start..].iter_mut().filter(|byte| !byte.is_ascii()).for_each(|byte| *byte = b'a' + *byte % 26);
}

/// The case with the older tape of each of its tapes, if each has one.
pub fn older(case: &Case, expander: &mut Expander) -> Option<Case> {
    let mut older = case.clone();
    for tape in &mut older.tapes {
        let response = expander.answer(&Case::new(Operation::Older, 0, vec![tape.clone()]));
        if response.number() != 0 {
            return None;
        }
        *tape = reading::with_zeros(&response.result);
    }
    Some(older)
}

/// The answer with the older tape of its result, for a comparison with a head that knows no weeks.
fn with_older_result(mut response: Response) -> Response {
    let tree = reading::tree(&reading::with_zeros(&response.result), Sort::Any);
    if let Some(older) = tree.ok().and_then(|tree| tape::older(&tape::withdrawn(&tree))) {
        response.result = without_zeros(&tape::encode(&older)).to_vec();
    }
    response
}

/// The cases in their order: place 0 is the first.
pub struct Cases {
    /// No case in the place of a frame that asks for an operation which the kit does not know.
    corpus: Vec<(Origin, Option<Case>)>,
    seed: u64,
    from: u64,
    count: u64,
    only: Vec<Operation>,
}

impl Cases {
    /// The corpus files of these folders, and so many cases of the seed.
    pub fn new(corpora: &[String], seed: u64, from: u64, count: u64, common: &Common) -> Result<Cases, String> {
        let mut corpus = Vec::new();
        for folder in corpora {
            corpus.extend(read_corpus(folder)?);
        }
        let count = count.min((u64::MAX - from).saturating_sub(corpus.len() as u64));
        Ok(Cases { corpus, seed, from, count, only: common.operations.clone() })
    }

    /// How many there are, those that no head takes among them.
    pub fn len(&self) -> u64 {
        self.corpus.len() as u64 + self.count
    }

    /// The case at a place. Nothing in the place of one whose operation is not in common: it need not be made, or cannot be.
    pub fn at(&self, place: u64) -> (Origin, Option<Case>) {
        let behind = place.checked_sub(self.corpus.len() as u64);
        let Some(index) = behind.map(|behind| self.from + behind) else {
            return self.corpus[place as usize].clone();
        };
        let is_common = self.only.contains(&generate::operation(self.seed, index));
        let case = is_common.then(|| generate::case(self.seed, index));
        (Origin::Seed(self.seed, index), case)
    }
}

/// The cases of a folder's files of requests.
fn read_corpus(folder: &str) -> Result<Vec<(Origin, Option<Case>)>, String> {
    let paths = |entries: ReadDir| entries.map(|entry| Ok(entry?.path())).collect::<io::Result<Vec<_>>>();
    let mut paths = std::fs::read_dir(folder).and_then(paths).map_err(|e| format!("{folder}: {e}"))?;
    paths.retain(|path| path.extension().is_some_and(|extension| extension == "requests"));
    paths.sort();
    if paths.is_empty() {
        return Err(format!("{folder}: no file of requests"));
    }
    let mut found = Vec::new();
    for path in paths {
        found.extend(read_requests(&path)?);
    }
    Ok(found)
}

fn read_requests(path: &Path) -> Result<Vec<(Origin, Option<Case>)>, String> {
    let bytes = std::fs::read(path).map_err(|e| format!("{}: {e}", path.display()))?;
    let named = |what: String| format!("{}: {what}", path.display());
    let mut rest = &bytes[..];
    let mut found = Vec::new();
    while let Some(body) = protocol::read_frame(&mut rest).map_err(|e| named(e.to_string()))? {
        let (id, asked) = protocol::read_request(&body).map_err(named)?;
        let file = path.file_name().map_or(String::new(), |name| name.to_string_lossy().to_string());
        let case = if let Asked::Case(case) = asked { Some(*case) } else { None };
        found.push((Origin::Corpus(file, id), case));
    }
    Ok(found)
}
