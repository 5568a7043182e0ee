//! What a corpus covers: the numbers, the codes, and the largest figures.

use crate::figures::{self, Figure, Measured};
use crate::reading;
use differential::case::{Answer, Case};
use differential::tape::{self, LARGEST_TEXT};
use std::collections::{BTreeMap, BTreeSet};

/// What a corpus covers.
#[derive(Default)]
pub struct Covered {
    numbers: BTreeMap<&'static str, BTreeSet<u64>>,
    codes: BTreeSet<u8>,
    figures: BTreeSet<(Figure, usize)>,
}

impl Covered {
    pub fn add(&mut self, case: &Case, answer: &Answer) {
        self.numbers.entry(case.operation.name()).or_default().insert(answer.number);
        for (bytes, root) in case.tapes.iter().zip(case.operation.roots()) {
            // What is over in entries or text may be refused for its sizes alone, and then need be no tree.
            self.measure(figures::of_sizes(bytes).into_iter().filter(|size| size.is > size.largest));
            // Those of a provider have no text in the notation, but codes of their own.
            let tree = reading::tree(bytes, *root).ok().or_else(|| tape::accept(bytes, *root, LARGEST_TEXT).ok());
            if let Some(tree) = tree {
                tree.visit(&mut |node| {
                    self.codes.insert(node.code);
                });
                self.measure(figures::of_whole(&tree, false).into_iter().chain(figures::of_parts(&tree, LARGEST_TEXT)));
            }
        }
    }

    /// Keeps those that are at a limit, or one beyond.
    fn measure(&mut self, figures: impl Iterator<Item = Measured>) {
        let at = figures.filter(|measured| measured.over().is_some_and(|over| over <= 1));
        self.figures.extend(at.map(|measured| (measured.figure, measured.is)));
    }

    pub fn text(&self) -> String {
        let list = |items: Vec<String>| items.join(" ");
        let mut text = "\nIn it:\n".to_string();
        for (operation, numbers) in &self.numbers {
            text.push_str(&format!("{operation}: {}\n", list(numbers.iter().map(u64::to_string).collect())));
        }
        text.push_str(&format!("codes: {}\n", list(self.codes.iter().map(u8::to_string).collect())));
        let figures = self.figures.iter().map(|(figure, n)| format!("{n} {}", figure.noun())).collect::<Vec<_>>();
        text.push_str(&format!("at a limit, and one beyond: {}\n", figures.join(", ")));
        text
    }
}
