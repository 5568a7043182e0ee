//! What came up in a campaign.

use crate::case::{Answer, Case, OPERATIONS, Operation};
use crate::compare::{WITNESSES, Witness};
use crate::model::{Notes, TooLarge};
use crate::places::{self, Place};
use crate::tape::{self, Node, Sort};
use std::collections::{BTreeMap, BTreeSet};

/// The numbers that an operation can answer.
pub fn possible(operation: Operation) -> Vec<u64> {
    match operation {
        Operation::Check => vec![0, 1, 2, 3, 20, 21, 22],
        Operation::Registry | Operation::CheckLibrary => vec![0, 1, 2, 3, 10, 11],
        Operation::CheckAt => vec![0, 1, 2, 3, 10, 11, 20, 21, 22],
        Operation::Substitute => [vec![0, 1, 2, 3, 31, 34, 35], (41..=48).collect()].concat(),
        Operation::Expand | Operation::Preview => [vec![0, 1, 2, 3, 10, 11], (30..=48).collect()].concat(),
        Operation::Judge => [vec![0, 1, 2, 3, 10, 11, 50], (30..=48).collect()].concat(),
        Operation::Merge => vec![0, 1, 2, 3, 10, 11, 51],
        Operation::Older => vec![0, 1, 2, 3, 52],
        Operation::Profile => vec![0, 2, 3, 53, 54, 55],
        Operation::Provider => vec![0, 2, 3],
        // The numbers of its lines.
        Operation::Sheet => [vec![0, 2, 3, 10, 11, 57], (30..=48).collect()].concat(),
        Operation::ArgumentToTerm => vec![0, 1, 2, 3, 56],
        Operation::TermToArgument => vec![0, 1, 2, 3, 58],
    }
}

#[derive(Default)]
pub struct Tally {
    numbers: BTreeMap<(u64, Operation), u64>,
    reasons: BTreeMap<(u64, String), u64>,
    witnesses: BTreeMap<Witness, u64>,
    judged: BTreeMap<(u64, &'static str), u64>,
    places: BTreeMap<Operation, BTreeSet<Place>>,
    /// How many texts have a character of so many bytes: of accepted tapes, of results, and messages.
    characters: BTreeMap<(&'static str, usize), u64>,
    /// How many accepted tapes, registries and results were of which size, and how many charges a success made.
    sizes: BTreeMap<(&'static str, usize), u64>,
}

/// The last number of each class in which sizes are counted.
const CLASSES: [usize; 9] = [0, 3, 20, 63, 255, 511, 767, 1023, 1024];

impl Tally {
    pub fn add(&mut self, case: &Case, answer: &Answer, notes: &Notes, witness: Witness) {
        if case.operation == Operation::Sheet {
            let lines = str::from_utf8(&answer.result).expect("digits").lines();
            let numbers = lines.filter_map(|line| line.split(' ').nth(1)?.parse().ok());
            numbers.for_each(|number| *self.numbers.entry((number, case.operation)).or_default() += 1);
        } else {
            *self.numbers.entry((answer.number, case.operation)).or_default() += 1;
        }
        *self.witnesses.entry(witness).or_default() += 1;
        if let Some(why) = notes.judged {
            *self.judged.entry((answer.number, why)).or_default() += 1;
        }
        if let Some(reason) = reason(answer, notes) {
            *self.reasons.entry((answer.number, reason)).or_default() += 1;
        }
        self.places.entry(case.operation).or_default().extend(places::seen(&notes.given));
        for (tree, root) in notes.given.iter().zip(case.operation.roots()) {
            self.count("entries on an accepted tape", tape::measure(tree).entries);
            if *root == Sort::Definitions {
                self.count("definitions of a registry", tree.children.len());
            }
        }
        self.count_characters("accepted tapes", &notes.given);
        self.count_characters("results", notes.result.as_slice());
        self.count_characters("messages", &[Node::with_text(40, &answer.message)]);
        if let Some(result) = &notes.result {
            self.count("entries of a result", tape::measure(result).entries);
            self.count("charges of a success", notes.charges);
        }
    }

    fn count_characters(&mut self, what: &'static str, trees: &[Node]) {
        let mut count = |node: &Node| {
            let text = std::str::from_utf8(&node.text).expect("well-formed");
            let bytes: BTreeSet<usize> = text.chars().map(char::len_utf8).collect();
            bytes.into_iter().for_each(|n| *self.characters.entry((what, n)).or_default() += 1);
        };
        trees.iter().for_each(|tree| tree.visit(&mut count));
    }

    fn count(&mut self, what: &'static str, size: usize) {
        let class = CLASSES.iter().position(|last| size <= *last).expect("1,024 is the most");
        *self.sizes.entry((what, class)).or_default() += 1;
    }

    /// The numbers that an operation can answer and did not.
    pub fn missing(&self) -> Vec<(Operation, u64)> {
        OPERATIONS
            .into_iter()
            .flat_map(|op| possible(op).into_iter().map(move |n| (op, n)))
            .filter(|(op, n)| !self.numbers.contains_key(&(*n, *op)))
            .collect()
    }

    pub fn print(&self) {
        println!("{:>8}{}", "number", OPERATIONS.map(|op| format!(" {:>16}", op.name())).concat());
        let numbers: BTreeSet<u64> = self.numbers.keys().map(|(n, _)| *n).collect();
        for number in numbers {
            let of = |op| self.numbers.get(&(number, op)).map_or("-".to_string(), u64::to_string);
            println!("{number:>8}{}", OPERATIONS.map(|op| format!(" {:>16}", of(op))).concat());
        }
        println!("why 1, 2 and 3:");
        for ((number, reason), count) in &self.reasons {
            println!("{count:>10} {number} {reason}");
        }
        println!("why a judge says 0 or 50:");
        for ((number, why), count) in &self.judged {
            println!("{count:>10} {number} {why}");
        }
        println!("who stands behind the answers:");
        for (witness, text) in WITNESSES {
            println!("{:>10} {text}", self.witnesses.get(&witness).unwrap_or(&0));
        }
        println!("codes in places, on accepted tapes:");
        for op in OPERATIONS {
            let all = places::all(op.roots());
            let none = BTreeSet::new();
            let seen = self.places.get(&op).unwrap_or(&none);
            let unseen: Vec<_> =
                all.difference(seen).map(|(above, .., code)| format!("{code} below {above}")).collect();
            print!("{:>10} of {} {}", all.len() - unseen.len(), all.len(), op.name());
            println!("{}", if unseen.len() < 10 { format!(" {}", unseen.join(", ")) } else { String::new() });
        }
        println!("texts with a character of 1, 2, 3 and 4 bytes:");
        for what in ["accepted tapes", "results", "messages"] {
            let of = |n| self.characters.get(&(what, n)).unwrap_or(&0);
            println!("{:>10} {:>10} {:>10} {:>10} of {what}", of(1), of(2), of(3), of(4));
        }
        self.print_sizes();
    }

    fn print_sizes(&self) {
        println!("sizes:");
        let mut first = 0;
        print!("{:>30}", "");
        for last in CLASSES {
            print!(" {:>9}", if first == last { format!("{last}") } else { format!("{first}-{last}") });
            first = last + 1;
        }
        println!();
        for what in
            ["entries on an accepted tape", "definitions of a registry", "entries of a result", "charges of a success"]
        {
            print!("{what:>30}");
            (0..CLASSES.len()).for_each(|i| print!(" {:>9}", self.sizes.get(&(what, i)).unwrap_or(&0)));
            println!();
        }
    }
}

/// What was too short, malformed or too large.
pub fn reason(answer: &Answer, notes: &Notes) -> Option<String> {
    let what = match &notes.too_large {
        Some(TooLarge::Call { .. }) => "of a 54 with its arguments: ",
        Some(TooLarge::Outcome { .. }) => "of a call's outcome: ",
        Some(TooLarge::Whole { .. }) => "of the whole result: ",
        Some(TooLarge::Merged) => "of the merged registry: ",
        None if answer.number == 3 => "of a tape: ",
        None => "",
    };
    matches!(answer.number, 1..=3).then(|| format!("{what}{}", notes.reason))
}
