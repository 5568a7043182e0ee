//! A second head: an expander that links nothing of the archive, as another supplier would write it, from the scope paper.
//! It can be given one fault at a time, so that it is seen that `pair` finds each.

mod accept;
mod fault;
mod walk;

pub use fault::{FAULTS, Fault};

use crate::protocol;
use crate::response::Response;
use crate::serve::{Head, Hello};
use differential::case::{COUNTS, Case, Operation};
use differential::message;
use differential::tape::{self, Node};
use std::io::{self, Write};
use walk::{Refused, Walk, name, refuse};

pub struct Second {
    pub fault: Fault,
}

/// What it has.
const HAS: [Operation; 6] = [
    Operation::Check,
    Operation::Registry,
    Operation::Substitute,
    Operation::Expand,
    Operation::Preview,
    Operation::Older,
];

const RESERVED: [&str; 16] = [
    "decimal", "datetime", "duration", "ip", "let", "in", "where", "for", "sum", "count", "tp", "formerly", "previous",
    "since", "true", "false",
];

impl Head for Second {
    fn hello(&self) -> Hello {
        Hello::of("the kit's second head", &HAS)
    }

    fn answer(&mut self, case: &Case) -> Response {
        let mut charged = 0;
        let mut counts = if case.operation == Operation::Registry { [0; COUNTS] } else { case.counts };
        let made = self.operate(case, &mut charged, &mut counts);
        let mut words = [0; 7];
        let (mut result, mut message) = (vec![], vec![]);
        match made {
            Ok(tree) if case.operation == Operation::Preview => {
                let measure = tree.map(|tree| tape::measure(&tree)).unwrap_or_default();
                (words[5], words[6]) = (measure.entries as u64, measure.text as u64);
            }
            Ok(tree) => result = tree.map(|tree| tape::encode(&tree)).unwrap_or_default(),
            Err(Refused { number, span, message: text }) => {
                words[..3].copy_from_slice(&[number, tape::span_start(span), tape::span_end(span)]);
                message = self.spelled(text);
            }
        }
        (words[3], words[4]) = (message.len() as u64, self.figure(charged));
        Response::new(case, words, &result, &message, counts)
    }

    fn send(&mut self, id: u32, case: &Case, out: &mut dyn Write) -> io::Result<()> {
        let meets = |code: u8| {
            let roots = case.operation.roots();
            let mut trees = case.tapes.iter().zip(roots).map(|(tape, root)| accept::accept(tape, *root, Fault::None));
            trees.any(|tree| tree.is_ok_and(|tree| accept::holds(&tree, code)))
        };
        match self.fault {
            Fault::Hangs if meets(13) => loop {
                std::thread::sleep(std::time::Duration::from_secs(60));
            },
            Fault::Dies if meets(30) => std::process::exit(3),
            Fault::Garbage if meets(3) => out.write_all(b"\x07\0\0\0garbage"),
            _ => out.write_all(&protocol::response(id, &self.answer(case))),
        }
    }
}

impl Second {
    fn spelled(&self, message: String) -> Vec<u8> {
        let mut bytes = message.into_bytes();
        if self.fault == Fault::MessageWrong
            && let Some(last) = bytes.last_mut()
        {
            *last ^= 1;
        }
        bytes
    }

    fn figure(&self, charged: u64) -> u64 {
        if self.fault == Fault::InventedCharge && charged > 0 { 7 } else { charged }
    }

    fn operate(&self, case: &Case, charged: &mut u64, counts: &mut [u32; COUNTS]) -> Result<Option<Node>, Refused> {
        let least = case.operation.buffers();
        if (0..3).any(|i| case.sizes[i] < least[i]) {
            return refuse(1, 0, String::new());
        }
        let mut trees = Vec::new();
        for (tape, root) in case.tapes.iter().zip(case.operation.roots()) {
            match accept::accept(tape, *root, self.fault) {
                Ok(tree) => trees.push(tree),
                Err(number) => return refuse(number, 0, String::new()),
            }
        }
        let walk = |definitions| Walk::new(self.fault, case.limit, case.file, definitions);
        match (case.operation, &trees[..]) {
            (Operation::Check, [definition]) => walk(&[]).check(definition).map(|()| None),
            (Operation::Registry, [registry]) => names(registry).map(|()| None),
            (Operation::Substitute, [definition, call]) => {
                let mut walk = walk(&[]);
                let result = walk.substitute_alone(definition, call);
                *charged = walk.charged;
                result.map(|tree| Some(self.finished(tree, None)))
            }
            (Operation::Expand | Operation::Preview, [registry, condition]) => {
                names(registry)?;
                let mut walk = walk(&registry.children);
                let result = expanded(&mut walk, condition);
                *charged = walk.charged;
                if case.operation == Operation::Expand && (result.is_ok() || self.fault == Fault::CountsOnRefusal) {
                    walk.calls.iter().for_each(|place| counts[*place] = counts[*place].saturating_add(1));
                }
                result.map(|tree| Some(self.finished(tree, Some(condition))))
            }
            (_, [tree]) => match tape::older(tree) {
                Some(older) => Ok(Some(older)),
                None => refuse(52, 0, String::new()),
            },
            _ => unreachable!("as many tapes as roots"),
        }
    }

    /// The result, or what a fake gives for it.
    fn finished(&self, tree: Node, condition: Option<&Node>) -> Node {
        match (self.fault, condition) {
            (Fault::FixedTree, Some(_)) => Node::new(10, 0, vec![Node::with_text(43, b"q")]),
            (Fault::HandsBack, Some(condition)) => condition.clone(),
            (Fault::WeeksAsDays, _) => tape::older(&tree).unwrap_or(tree),
            _ => tree,
        }
    }
}

fn expanded(walk: &mut Walk, condition: &Node) -> Result<Node, Refused> {
    let result = walk.expand(condition)?;
    if walk.fits(&result) { Ok(result) } else { refuse(3, 0, String::new()) }
}

/// 10 and 11.
fn names(registry: &Node) -> Result<(), Refused> {
    let definitions = &registry.children;
    for (i, definition) in definitions.iter().enumerate() {
        let own = name(definition);
        if RESERVED.iter().any(|word| word.as_bytes() == own) {
            return refuse(10, definition.value, message::reserved(own));
        }
        if let Some(first) = definitions[..i].iter().find(|other| name(other) == own) {
            return refuse(11, definition.value, message::duplicate(own, tape::span_start(first.value)));
        }
    }
    Ok(())
}

#[cfg(test)]
mod tests {
    use super::*;
    use crate::archive;
    use differential::generate;

    fn answers_differ(fault: Fault, index: u64) -> bool {
        let case = generate::case(1, index);
        let mut head = Second { fault };
        HAS.contains(&case.operation) && head.answer(&case) != archive::by_model(&case)
    }

    #[test]
    fn without_a_fault_it_is_right() {
        let wrong = (0..4_000).find(|index| answers_differ(Fault::None, *index));
        assert_eq!(wrong, None);
    }

    #[test]
    fn with_a_fault_it_is_wrong() {
        let answers = |fault: &Fault| !matches!(fault, Fault::Hangs | Fault::Dies | Fault::Garbage);
        for (name, fault, _) in FAULTS.iter().filter(|(_, fault, _)| answers(fault)) {
            assert!((0..40_000).any(|index| answers_differ(*fault, index)), "{name}");
        }
    }
}
