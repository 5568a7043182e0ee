//! A case whose tapes are trees, so that parts can be taken away and the rest shown as text.

use super::malformed;
use super::progress::grouped;
use crate::notation::{self, Rule, Spans};
use crate::reading::{self, Sections};
use differential::case::{self, COUNTS, Case, Operation};
use differential::tape::{self, Node, Sort};

#[derive(Clone, Debug, PartialEq, Eq)]
pub enum Part {
    Tree(Node),
    /// What is no tree.
    Bytes(Vec<u8>),
}

#[derive(Clone, Debug, PartialEq, Eq)]
pub struct Shape {
    /// What is asked of the parts. They are its tapes, whatever it has itself.
    pub case: Case,
    pub parts: Vec<Part>,
}

impl Shape {
    pub fn of(case: &Case) -> Shape {
        let roots = case.operation.roots().iter().map(Some).chain(std::iter::repeat(None));
        let parts = case.tapes.iter().zip(roots).map(|(bytes, root)| Part::of(bytes.clone(), root));
        Shape { case: case.clone(), parts: parts.collect() }
    }

    pub fn case(&self) -> Case {
        let bytes = |part: &Part| match part {
            Part::Tree(tree) => tape::encode(tree),
            Part::Bytes(bytes) => bytes.clone(),
        };
        let mut case = self.case.clone();
        case.tapes = self.parts.iter().map(bytes).collect();
        case
    }

    pub fn entries(&self) -> usize {
        self.each_entries().iter().sum()
    }

    /// The entries of each tape; of what is no tape, as many as its bytes have room for.
    pub fn each_entries(&self) -> Vec<usize> {
        let entries = |part: &Part| match part {
            Part::Tree(tree) => tape::measure(tree).entries,
            Part::Bytes(bytes) => bytes.len().saturating_sub(8).div_ceil(9),
        };
        self.parts.iter().map(entries).collect()
    }

    pub fn largest(&self) -> usize {
        self.each_entries().into_iter().max().unwrap_or(0)
    }

    /// How many of its parts are no trees.
    pub fn unreadable(&self) -> usize {
        self.parts.iter().filter(|part| part.tree().is_none()).count()
    }

    /// The same with another one for one of its parts.
    pub fn with(&self, part: usize, other: Part) -> Shape {
        let mut parts = self.parts[..part].to_vec();
        parts.push(other);
        parts.extend_from_slice(&self.parts[part + 1..]);
        Shape { case: self.case.clone(), parts }
    }

    /// The same with each of its trees edited.
    pub fn edited(&self, mut edit: impl FnMut(&mut Node)) -> Shape {
        let mut shape = self.clone();
        for part in &mut shape.parts {
            if let Part::Tree(tree) = part {
                edit(tree);
            }
        }
        shape
    }

    /// An operation asked of trees, with the usual buffers and counts.
    pub fn asking(operation: Operation, limit: u32, trees: Vec<Node>) -> Shape {
        let limit = if operation.charges() { limit } else { 0 };
        Shape { case: Case::new(operation, limit, vec![]), parts: trees.into_iter().map(Part::Tree).collect() }
    }

    /// The text, or of a long one both ends, and of many entries the first and the last ones.
    pub fn readable(&self) -> String {
        shortened(self.written(&few_entries).trim_end())
    }

    /// How much there is to read.
    pub fn length(&self) -> usize {
        let weight = |part: &Part| match part {
            Part::Tree(_) => 0,
            Part::Bytes(bytes) => malformed::weight(bytes),
        };
        self.written(&|_| String::new()).len() + self.parts.iter().map(weight).sum::<usize>()
    }

    /// What is asked, as text: limit, file number, macros and condition, or whatever else the tapes hold.
    pub fn text(&self) -> String {
        self.written(&|sections| crate::commands::entries(sections))
    }

    /// The text, where this is how the entries of what is no tree are shown.
    fn written(&self, entries: &dyn Fn(Sections) -> String) -> String {
        let mut text = self.options();
        let spans = notation::spans_of(self.parts.iter().filter_map(Part::tree));
        if let [Part::Tree(registry), Part::Tree(condition)] = &self.parts[..]
            && registry.code == 41
            && condition.code != 41
        {
            let rule = Rule { name: None, condition: condition.clone() };
            return text + &notation::print_items(&registry.children, &[rule], spans);
        }
        if spans == Spans::Written {
            text.push_str("spans 0..0\n");
        }
        for part in &self.parts {
            text.push_str(&match part {
                Part::Tree(tree) => notation::print_root(tree, spans).trim_end().to_string(),
                Part::Bytes(bytes) => shown_bytes(bytes, entries),
            });
            text.push('\n');
        }
        text
    }

    /// Whatever of limit, file number, index, counts and buffers is not the usual.
    fn options(&self) -> String {
        let case = &self.case;
        let mut lines = String::new();
        let mut line = |is_there: bool, text: String| {
            if is_there {
                lines.push_str(&text);
                lines.push('\n');
            }
        };
        line(case.operation.charges() && case.limit != u32::MAX, format!("limit {}", case.limit));
        line(case.file != 0, format!("file {}", case.file));
        line(case.index != 0, format!("// index {}", case.index));
        let used = case::used(&case.counts);
        line(!used.is_empty(), format!("// counts {:?}", &used[..used.len().min(8)]));
        line(case.sizes != case.operation.buffers(), format!("// buffers {:?}", case.sizes));
        lines
    }

    /// Everything usual that can be: no limit, file 0, a registry just built, the least buffers.
    pub fn usual(&self) -> Vec<Case> {
        let of = |change: &dyn Fn(&mut Case)| {
            let mut case = self.case.clone();
            change(&mut case);
            case
        };
        let limit = self.case.limit;
        let all: [Change; 10] = [
            Box::new(|case| case.sizes = case.operation.buffers()),
            Box::new(|case| case.counts = [0; COUNTS]),
            Box::new(|case| case.file = 0),
            Box::new(|case| case.file = 1),
            Box::new(|case| case.index = 0),
            Box::new(|case| case.index /= 2),
            Box::new(|case| case.limit = u32::MAX),
            Box::new(|case| case.limit = 0),
            Box::new(move |case| case.limit = limit / 2),
            Box::new(move |case| case.limit = limit.saturating_sub(1)),
        ];
        all.iter().map(|change| of(change)).filter(|case| *case != self.case).collect()
    }
}

impl Part {
    /// The tree of a tape with this root, or its bytes.
    pub fn of(bytes: Vec<u8>, root: Option<&Sort>) -> Part {
        let tree = root.and_then(|root| reading::tree(&bytes, *root).ok());
        tree.map_or_else(|| Part::Bytes(bytes), Part::Tree)
    }

    /// What is no tree.
    pub fn bytes(&self) -> Option<&[u8]> {
        match self {
            Part::Bytes(bytes) => Some(bytes),
            Part::Tree(_) => None,
        }
    }

    pub fn tree(&self) -> Option<&Node> {
        match self {
            Part::Tree(tree) => Some(tree),
            Part::Bytes(_) => None,
        }
    }
}

/// What makes a case more usual.
type Change = Box<dyn Fn(&mut Case)>;

/// Bytes that are no tree: their entries, or as they are.
fn shown_bytes(bytes: &[u8], entries: &dyn Fn(Sections) -> String) -> String {
    match reading::sections(bytes) {
        Ok(sections) => format!("// no tree:\n{}", entries(sections).trim_end()),
        Err(why) if bytes.len() <= MOST_BYTES => format!("// no tape, {why}: {bytes:02X?}"),
        Err(why) => format!("// no tape, {why}: {:02X?} and so on", &bytes[..MOST_BYTES]),
    }
}

/// So many bytes of what is no tape are shown.
const MOST_BYTES: usize = 40;

/// More entries than these are not shown one by one.
const MOST_ENTRIES: usize = 20;
const FIRST: usize = 8;
const LAST: usize = 4;

/// The entries of a tape, or the first and the last ones.
fn few_entries(sections: Sections) -> String {
    let all = crate::commands::entries(sections);
    let lines: Vec<&str> = all.lines().collect();
    if lines.len() <= MOST_ENTRIES {
        return all;
    }
    let between = format!("       {} entries more", grouped((lines.len() - FIRST - LAST) as u64));
    [&lines[..FIRST], &[&between], &lines[lines.len() - LAST..]].concat().join("\n")
}

/// So many bytes of a text are shown; of a longer one so many of its beginning and of its end.
const LONGEST_TEXT: usize = 1_600;
const BEGINNING: usize = 1_000;
const END: usize = 400;

/// A text, or of a long one both ends.
pub fn shortened(text: &str) -> String {
    if text.len() <= LONGEST_TEXT {
        return text.to_string();
    }
    let (first, last) = (text.floor_char_boundary(BEGINNING), text.ceil_char_boundary(text.len() - END));
    format!("{}\n// {} bytes of text left out\n{}", &text[..first], grouped((last - first) as u64), &text[last..])
}

#[cfg(test)]
mod tests {
    use super::*;

    #[test]
    fn of_what_is_long_both_ends_are_shown() {
        let short = "x".repeat(LONGEST_TEXT);
        assert_eq!(shortened(&short), short);
        // The letter over whose bytes the beginning would end is left out whole.
        let long = format!("{}é{}", "a".repeat(BEGINNING - 1), "b".repeat(LONGEST_TEXT));
        let shown = shortened(&long);
        assert!(shown.starts_with(&format!("{}\n// 1,202 bytes of text left out\nbb", "a".repeat(BEGINNING - 1))));
        assert!(shown.ends_with(&format!("\n{}", "b".repeat(END))), "{shown}");
    }

    /// A condition's tape that begins with as many entries as no condition has.
    fn malformed(entries: usize) -> Shape {
        let sizes = [entries as u32, 0].map(u32::to_le_bytes).concat();
        let tape = [sizes, vec![28; entries], vec![0; 8 * entries]].concat();
        Shape::of(&Case::new(Operation::Profile, 0, vec![tape]))
    }

    #[test]
    fn of_many_entries_the_first_and_the_last_ones() {
        assert_eq!(malformed(20).readable().lines().count(), 21);
        let lines: Vec<String> = malformed(1_025).readable().lines().map(str::to_string).collect();
        assert_eq!(lines.len(), 1 + FIRST + 1 + LAST, "{lines:?}");
        assert_eq!((lines[1].trim(), lines[9].trim()), ("1  28  0", "1,013 entries more"));
        assert_eq!(lines.last().map(|line| line.trim()), Some("1025  28  0"));
    }
}
