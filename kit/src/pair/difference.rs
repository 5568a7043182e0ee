//! Whether two outcomes differ, and in what.

use super::process::Outcome;
use super::report::LETTERS;
use crate::reading::{self, Entry};
use crate::response::Response;
use differential::tape::{self, Value};

/// What two outcomes differ in first.
#[derive(Clone, Copy, Debug, PartialEq, Eq, PartialOrd, Ord)]
pub enum Difference {
    /// One of them is no answer.
    Failure,
    Number,
    Span,
    Charged,
    /// Of a preview: N or T.
    Size,
    Result,
    Message,
    Counts,
}

/// What is compared beside the answer: the registry state only if both keep one.
#[derive(Clone, Copy, Debug)]
pub struct Compared {
    pub counts: bool,
}

pub fn difference(a: &Outcome, b: &Outcome, compared: Compared) -> Option<Difference> {
    let (Ok(a), Ok(b)) = (a, b) else { return Some(Difference::Failure) };
    let differs = [
        (a.number() != b.number(), Difference::Number),
        (a.span() != b.span(), Difference::Span),
        (a.charged() != b.charged(), Difference::Charged),
        (a.words[5..] != b.words[5..], Difference::Size),
        (a.result != b.result, Difference::Result),
        (a.message != b.message || a.words[3] != b.words[3], Difference::Message),
        (compared.counts && a.counts != b.counts, Difference::Counts),
    ];
    differs.into_iter().find(|(is, _)| *is).map(|(_, what)| what)
}

impl Difference {
    /// The field of an answer that differs.
    pub fn field(self) -> &'static str {
        match self {
            Difference::Failure => "answer",
            Difference::Number => "number",
            Difference::Span => "span",
            Difference::Charged => "charge",
            Difference::Size => "sizes",
            Difference::Result => "result",
            Difference::Message => "message",
            Difference::Counts => "counts",
        }
    }
}

/// The first entry in which two results differ, in words.
pub fn first_entry(a: &Response, b: &Response) -> String {
    match differing(&a.result, &b.result, |a, b| a == b) {
        Err(_) => "one of the results is no tape".to_string(),
        Ok(None) => "the entries are equal, what stands behind them is not".to_string(),
        Ok(Some(differing)) => differing.said(LETTERS),
    }
}

/// The codes of that entry in both, none in one that has ended before; nothing if no entry differs, or one is no tape.
pub fn first_codes(a: &Response, b: &Response) -> Option<[Option<u8>; 2]> {
    differing(&a.result, &b.result, |a, b| a == b).ok()?.map(|differing| differing.codes)
}

/// The first entry in which a result differs from ours, whatever names either has in the places of variables.
pub fn first_entry_but_names(ours: &[u8], theirs: &[u8]) -> String {
    let is_same = |a: &Entry, b: &Entry| a == b || a.code == b.code && matches!(a.code, 27 | 43);
    match differing(ours, theirs, is_same) {
        Err(_) => "one of the two is no tape".to_string(),
        Ok(None) => {
            "the entries are equal but for names, and no one-to-one renaming of generated ones makes these equal"
                .to_string()
        }
        Ok(Some(differing)) => differing.said(["ours", "the other"]),
    }
}

/// The first entry in which two results differ.
struct Differing {
    /// From 0.
    place: usize,
    /// What each has there, nothing if it has ended before.
    codes: [Option<u8>; 2],
    words: [String; 2],
}

impl Differing {
    fn said(&self, whose: [&str; 2]) -> String {
        let ([a, b], [one, other]) = (&self.words, whose);
        format!("entry {} is {a} in {one}, {b} in {other}", self.place + 1)
    }
}

fn differing(a: &[u8], b: &[u8], is_same: impl Fn(&Entry, &Entry) -> bool) -> Result<Option<Differing>, String> {
    let [a, b] = [a, b].map(reading::with_zeros);
    let (mut a, mut b) = (reading::sections(&a)?.entries(), reading::sections(&b)?.entries());
    let both = std::iter::from_fn(|| Some([a.next(), b.next()]).filter(|both| both.iter().any(Option::is_some)));
    let is_other = |both: &[Option<Entry>; 2]| match both {
        [Some(a), Some(b)] => !is_same(a, b),
        _ => true,
    };
    let first = both.enumerate().find(|(_, both)| is_other(both));
    Ok(first.map(|(place, both)| {
        let codes = both.map(|entry| entry.map(|entry| entry.code));
        Differing { place, codes, words: both.map(in_words) }
    }))
}

/// An entry's code, and its span, text or value.
fn in_words(entry: Option<Entry>) -> String {
    let Some(entry) = entry else { return "nothing".to_string() };
    let Entry { code, value, text } = entry;
    match tape::value(code) {
        Value::Span => format!("{code} at {}", entry.shown()),
        // There is not so much text: what is there may be the same in both.
        Value::TextLength if value != text.len() as u64 => format!("{code} {} of {value} bytes", entry.shown()),
        _ => format!("{code} {}", entry.shown()),
    }
}

#[cfg(test)]
mod tests {
    use super::*;
    use differential::case::{Case, Operation};
    use differential::tape::Node;

    fn response(tree: &Node) -> Response {
        let case = Case::new(Operation::Older, 0, vec![]);
        Response::new(&case, [0; 7], &tape::encode(tree), &[], [0; _])
    }

    fn compared(name: &[u8], value: u64) -> Node {
        let sides = [Node::with_text(27, name), Node::new(21, value, vec![])];
        Node::new(8, tape::span(3, 9), [vec![Node::new(53, 4, vec![])], sides.to_vec()].concat())
    }

    #[test]
    fn the_first_entry_is_said_in_words() {
        let of =
            |a: &Node, b: &Node| (first_entry(&response(a), &response(b)), first_codes(&response(a), &response(b)));
        let own = compared(b"x  y", 1);
        assert_eq!(of(&own, &own), ("the entries are equal, what stands behind them is not".to_string(), None));
        let (said, codes) = of(&own, &compared(b"z", u64::MAX));
        assert_eq!((said.as_str(), codes), (r#"entry 3 is 27 "x  y" in A, 27 "z" in B"#, Some([Some(27), Some(27)])));
        let (said, codes) = of(&own, &Node::new(3, tape::span(3, 9), vec![own.clone()]));
        assert_eq!((said.as_str(), codes), ("entry 1 is 8 at 3..9 in A, 3 at 3..9 in B", Some([Some(8), Some(3)])));
        let name = Node::with_text(27, b"x");
        let (said, _) = of(&name, &Node { value: 2, ..name.clone() });
        assert_eq!(said, r#"entry 1 is 27 "x" in A, 27 "x" of 2 bytes in B"#);
        let list = |items: Vec<Node>| Node { value: 2, ..Node::counted(29, 1, items) };
        let (said, codes) = of(&list(vec![Node::new(28, 0, vec![])]), &list(vec![]));
        assert_eq!((said.as_str(), codes), ("entry 2 is 28 0 in A, nothing in B", Some([Some(28), None])));
    }

    #[test]
    fn names_of_variables_may_be_others() {
        let of = |a: &Node, b: &Node| first_entry_but_names(&tape::encode(a), &tape::encode(b));
        let own = compared(b"x", 1);
        let (other, negative) = (compared(b"y", 1), compared(b"y", u64::MAX));
        assert!(of(&own, &other).starts_with("the entries are equal but for names"));
        assert_eq!(of(&own, &negative), "entry 4 is 21 1 in ours, 21 -1 in the other");
        assert_eq!(first_entry_but_names(&[1; 30], &tape::encode(&own)), "one of the two is no tape");
    }
}
