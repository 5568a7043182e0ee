//! The largest figures: what a tape comes to in each, which of them it passes, and with which entry.

use crate::pair::grouped;
use crate::reading;
use differential::case::Case;
use differential::model::{self, TooLarge};
use differential::tape::{
    LARGEST, LARGEST_CALLS, LARGEST_LITERAL, LARGEST_PARAMETERS, LARGEST_TEXT, Node, Sort, is_node,
};
use std::collections::BTreeMap;

#[derive(Clone, Copy, Debug, PartialEq, Eq, PartialOrd, Ord)]
pub enum Figure {
    Entries,
    /// Bytes of text.
    Text,
    /// Conditions, terms and aggregates on one path.
    Nesting,
    /// Calls inside one another.
    Calls,
    Parameters,
    /// Bytes of a string or a decimal.
    Literal,
    /// Bytes of any other text: a name, a path's part, an id.
    Name,
}

/// What something comes to in a figure, and the most that it may come to.
#[derive(Clone, Copy, Debug, PartialEq, Eq, PartialOrd, Ord)]
pub struct Measured {
    pub figure: Figure,
    pub largest: usize,
    pub is: usize,
}

/// A figure that is passed.
#[derive(Clone, Copy, Debug, PartialEq, Eq)]
pub struct Passed {
    pub figure: Figure,
    pub is: usize,
    pub largest: usize,
    /// Whether it is passed only when each Or is rewritten.
    pub rewritten: bool,
    /// The first entry with which it is passed, from 0, where that is known: of what is no tree, or is no tape that was given, it
    /// is not.
    pub entry: Option<usize>,
}

impl Figure {
    pub fn name(self) -> &'static str {
        match self {
            Figure::Entries => "entries",
            Figure::Text => "text",
            Figure::Nesting => "nesting",
            Figure::Calls => "calls",
            Figure::Parameters => "parameters",
            Figure::Literal => "literal",
            Figure::Name => "name",
        }
    }

    /// What there are so many of.
    pub fn noun(self) -> &'static str {
        match self {
            Figure::Entries => "entries",
            Figure::Text => "bytes of text",
            Figure::Nesting => "levels",
            Figure::Calls => "calls inside one another",
            Figure::Parameters => "parameters",
            Figure::Literal => "bytes of a literal",
            Figure::Name => "bytes of a name",
        }
    }
}

impl Measured {
    /// By how much it is passed, 0 if it is reached exactly.
    pub fn over(self) -> Option<usize> {
        self.is.checked_sub(self.largest)
    }
}

impl Passed {
    /// `1,030 entries, where 1,024 are the most`
    pub fn said(&self) -> String {
        let [is, largest] = [self.is, self.largest].map(|n| grouped(n as u64));
        let said = match self.figure {
            Figure::Entries => format!("{is} entries, where {largest} are the most"),
            Figure::Text => format!("{is} bytes of text, where {largest} are the most"),
            Figure::Nesting => format!("conditions and terms nested {is} deep, where {largest} is the deepest"),
            Figure::Calls => format!("{is} calls inside one another, where {largest} are the most"),
            Figure::Parameters => format!("{is} parameters, where {largest} are the most"),
            Figure::Literal => format!("a string or decimal of {is} bytes, where {largest} are the most"),
            Figure::Name => format!("a name of {is} bytes, where {largest} are the most"),
        };
        match (self.rewritten, self.figure) {
            (true, Figure::Entries) => said + " (3 more for each `||`, which is rewritten)",
            (true, _) => said + " (a `||`, which is rewritten, counts 3)",
            _ => said,
        }
    }
}

/// Entries, text, nesting and calls of a whole tree, as it is or with each Or rewritten. Of all figures these hold for what is
/// made as well as for what is given.
pub fn of_whole(tree: &Node, rewritten: bool) -> [Measured; 4] {
    Count::of(tree, rewritten).measured()
}

/// The longest list of parameters and the longest texts, for each figure. `longest_name` is for variables (27 and 43).
pub fn of_parts(tree: &Node, longest_name: usize) -> Vec<Measured> {
    let mut longest = BTreeMap::new();
    tree.visit(&mut |node| {
        let Measured { figure, largest, is } = of_entry(node, longest_name);
        let most = longest.entry((figure, largest)).or_insert(is);
        *most = is.max(*most);
    });
    longest.into_iter().map(|((figure, largest), is)| Measured { figure, largest, is }).collect()
}

/// Entries and bytes of text as the front of a tape has them, which need be no tree.
pub fn of_sizes(bytes: &[u8]) -> [Measured; 2] {
    let (entries, text) = reading::sizes(bytes).unwrap_or_default();
    [
        Measured { figure: Figure::Entries, largest: LARGEST.entries, is: entries },
        Measured { figure: Figure::Text, largest: LARGEST.text, is: text },
    ]
}

/// Every figure that a tree passes, in the order in which the scope paper looks at them: the whole, its entries, and the
/// whole again with each Or rewritten. `longest_name` is for variables (27 and 43).
pub fn passed(tree: &Node, longest_name: usize) -> Vec<Passed> {
    let [given, rewritten] = [false, true].map(|rewritten| of_all(tree, rewritten));
    let is_new = |passed: &&Passed| !given.iter().any(|other| other.figure == passed.figure);
    let later: Vec<Passed> = rewritten.iter().filter(is_new).copied().collect();
    [given, of_entries(tree, longest_name), later].concat()
}

/// Entries, text, nesting and calls of the whole.
fn of_all(tree: &Node, rewritten: bool) -> Vec<Passed> {
    let count = Count::of(tree, rewritten);
    let passed = |(Measured { figure, largest, is }, entry): (_, Option<usize>)| {
        entry.map(|_| Passed { figure, is, largest, rewritten, entry })
    };
    count.measured().into_iter().zip(count.over).filter_map(passed).collect()
}

/// What is counted on the way through a tree, and for each figure the first entry with which it is passed.
#[derive(Default)]
struct Count {
    rewritten: bool,
    at: usize,
    entries: usize,
    text: usize,
    nesting: usize,
    calls: usize,
    over: [Option<usize>; 4],
}

impl Count {
    fn of(tree: &Node, rewritten: bool) -> Count {
        let mut count = Count { rewritten, ..Count::default() };
        count.below(tree, 0, 0);
        count
    }

    fn measured(&self) -> [Measured; 4] {
        [
            Measured { figure: Figure::Entries, largest: LARGEST.entries, is: self.entries },
            Measured { figure: Figure::Text, largest: LARGEST.text, is: self.text },
            Measured { figure: Figure::Nesting, largest: LARGEST.nesting, is: self.nesting },
            Measured { figure: Figure::Calls, largest: LARGEST_CALLS, is: self.calls },
        ]
    }

    fn below(&mut self, node: &Node, nesting: usize, calls: usize) {
        let is_or = self.rewritten && node.code == 2;
        let nesting = nesting + if is_or { 3 } else { usize::from(is_node(node.code)) };
        let calls = calls + usize::from(node.code == 54);
        self.entries += if is_or { 4 } else { 1 };
        self.text += node.text.len();
        self.nesting = self.nesting.max(nesting);
        self.calls = self.calls.max(calls);
        let is_over = [
            self.entries > LARGEST.entries,
            self.text > LARGEST.text,
            nesting > LARGEST.nesting,
            calls > LARGEST_CALLS,
        ];
        for (first, _) in self.over.iter_mut().zip(is_over).filter(|(_, is_over)| *is_over) {
            first.get_or_insert(self.at);
        }
        self.at += 1;
        node.children.iter().for_each(|child| self.below(child, nesting, calls));
    }
}

/// Texts and parameters.
fn of_entries(tree: &Node, longest_name: usize) -> Vec<Passed> {
    let (mut found, mut at) = (Vec::new(), 0);
    tree.visit(&mut |node| {
        let Measured { figure, largest, is } = of_entry(node, longest_name);
        // Behind a definition stand its name and the list, then a span and a name for each parameter.
        let entry = if figure == Figure::Parameters { at + 3 + 2 * largest } else { at };
        found.extend((is > largest).then_some(Passed { figure, is, largest, rewritten: false, entry: Some(entry) }));
        at += 1;
    });
    found
}

/// The length of a definition's list of parameters, or of an entry's text.
fn of_entry(node: &Node, longest_name: usize) -> Measured {
    let (figure, largest, is) = match node.code {
        60 => (Figure::Parameters, LARGEST_PARAMETERS, node.children[1].value as usize),
        22 | 23 | 72 | 74 => (Figure::Literal, LARGEST_LITERAL, node.text.len()),
        27 | 43 => (Figure::Name, longest_name, node.text.len()),
        _ => (Figure::Name, LARGEST_TEXT, node.text.len()),
    };
    Measured { figure, largest, is }
}

/// Every figure that a tape passes. Of one that is too large and no tree the sizes at its front are known.
pub fn of_tape(bytes: &[u8], root: Sort, longest_name: usize) -> Vec<Passed> {
    let Ok(tree) = reading::tree(bytes, root) else {
        let over = of_sizes(bytes).into_iter().find(|size| size.is > size.largest);
        let whole = |Measured { figure, largest, is }| Passed { figure, is, largest, rewritten: false, entry: None };
        return over.map(whole).into_iter().collect();
    };
    passed(&tree, longest_name)
}

/// What passes a figure.
#[derive(Clone, Copy, Debug, PartialEq, Eq)]
pub enum Whose {
    /// One of the tapes that were given, from 0.
    Tape(usize),
    /// A call with its arguments expanded.
    Call,
    /// What a call becomes.
    Outcome,
    /// The whole result.
    Result,
    /// Two registries joined.
    Merged,
}

/// Why a case is answered with 3.
pub fn explained(case: &Case) -> Option<(Whose, Passed)> {
    let (answer, notes) = model::answer(case);
    let whose = match notes.too_large {
        _ if answer.number != 3 => return None,
        Some(TooLarge::Call { .. }) => Whose::Call,
        Some(TooLarge::Outcome { .. }) => Whose::Outcome,
        Some(TooLarge::Whole { .. }) => Whose::Result,
        Some(TooLarge::Merged) => Whose::Merged,
        None => return case.tapes.iter().enumerate().find_map(|(i, tape)| first_of(case, i, tape)),
    };
    let (figure, largest) = match notes.reason {
        "entries" => (Figure::Entries, LARGEST.entries),
        "text" => (Figure::Text, LARGEST.text),
        _ => (Figure::Nesting, LARGEST.nesting),
    };
    Some((whose, Passed { figure, is: largest + notes.over_by, largest, rewritten: false, entry: None }))
}

fn first_of(case: &Case, i: usize, tape: &[u8]) -> Option<(Whose, Passed)> {
    let root = *case.operation.roots().get(i)?;
    let passed = of_tape(tape, root, case.operation.longest_name(i, case.file));
    passed.first().map(|first| (Whose::Tape(i), *first))
}

#[cfg(test)]
mod tests {
    use super::*;
    use differential::case::Operation;
    use differential::generate;

    /// The model's name of a figure.
    fn model_name(passed: &Passed, at: &Node) -> String {
        let name = match (passed.figure, at.code) {
            (Figure::Name, 27 | 43) => "name",
            (Figure::Name, _) => "text of an entry",
            (figure, _) => figure.name(),
        };
        format!("{name}{}", if passed.rewritten { " when Or is rewritten" } else { "" })
    }

    fn nth(tree: &Node, entry: usize) -> Node {
        let mut all = Vec::new();
        tree.visit(&mut |node| all.push(node));
        all[entry].clone()
    }

    /// On all that is refused with 3 the figure, how much it is over and the part are the model's.
    #[test]
    fn the_figure_is_the_models() {
        let mut kinds = std::collections::BTreeSet::new();
        for index in 0..25_000 {
            let case = generate::case(7, index);
            let (answer, notes) = model::answer(&case);
            // The notation has no text for a provider's tape, so no figure is said of one.
            let has_text =
                case.operation.roots().iter().all(|root| !matches!(root, Sort::Provider | Sort::ProviderArgument));
            if answer.number != 3 || !has_text || case.operation == Operation::Sheet {
                continue;
            }
            let (whose, passed) = explained(&case).expect("a figure");
            assert_eq!(passed.is - passed.largest, notes.over_by, "{case:?}");
            let Whose::Tape(i) = whose else { continue };
            let Ok(tree) = reading::tree(&case.tapes[i], case.operation.roots()[i]) else { continue };
            let at = nth(&tree, passed.entry.expect("of a tree"));
            assert_eq!(model_name(&passed, &at), notes.reason, "{case:?}");
            kinds.insert((passed.figure.name(), passed.rewritten));
        }
        assert!(kinds.len() >= 8, "{kinds:?}");
    }

    /// A tree without the entry with which a figure is passed, and all behind it, does not pass it.
    #[test]
    fn the_entry_is_the_first() {
        let strings: Vec<Node> = (0..1100).map(|_| Node::with_text(23, &[b'a'; 3])).collect();
        let tree = Node::counted(29, 1, strings);
        let found = passed(&tree, LARGEST_TEXT);
        let is = |i: usize, figure, is, entry| {
            assert_eq!((found[i].figure, found[i].is, found[i].entry), (figure, is, Some(entry)));
        };
        is(0, Figure::Entries, 1101, 1024);
        is(1, Figure::Text, 3300, 1025);
        assert_eq!(found.len(), 2);
    }

    /// Two sizes and nothing behind them are too large, and have no entry.
    #[test]
    fn what_has_no_entries_passes_a_figure_with_none() {
        let case = Case::new(Operation::Profile, 0, vec![[2_000_u32.to_le_bytes(), [0; 4]].concat()]);
        let passed =
            Passed { figure: Figure::Entries, is: 2_000, largest: LARGEST.entries, rewritten: false, entry: None };
        assert_eq!(explained(&case), Some((Whose::Tape(0), passed)));
    }
}
