//! Systematic cases at the edges that document 02's points name. They are the same in every run: each list goes through
//! all cases of its kind, and says of each what must come, before the model, upstream or the archive is asked.

mod arguments;
mod changes;
mod counts;
mod judge;
mod least;
mod library;
mod merge;
mod preview;
mod profile;
mod provider;
mod sheet;
mod tried;

pub use least::{Place, Site, fewest, places};
pub use tried::{Tried, print, try_list};

use crate::case::{Case, Counts, Operation};
use crate::tape::{self, Node};

/// The cases of one line of a request.
#[derive(Clone, Copy)]
pub struct List {
    pub point: u8,
    pub line: &'static str,
    /// Each of these numbers has to come up.
    pub numbers: &'static [u64],
    pub cases: fn(&mut dyn FnMut(Edge)),
}

impl List {
    const fn new(point: u8, line: &'static str, numbers: &'static [u64], cases: fn(&mut dyn FnMut(Edge))) -> List {
        List { point, line, numbers, cases }
    }
}

/// A case, and what its list says of the answer.
#[derive(Clone)]
pub struct Edge {
    pub case: Case,
    pub wanted: Wanted,
}

/// What must be answered; what is not said here is compared all the same, but not known to the list.
#[derive(Clone, Default)]
pub struct Wanted {
    /// Of a sheet its lines are wanted, as its result.
    pub number: Option<u64>,
    pub span: Option<u64>,
    pub charged: Option<u64>,
    /// Why it is 1, 2 or 3.
    pub reason: Option<&'static str>,
    pub result: Option<Vec<u8>>,
    pub counts: Option<Box<Counts>>,
}

impl Edge {
    fn new(case: Case, number: u64) -> Edge {
        Edge { case, wanted: Wanted { number: Some(number), ..Wanted::default() } }
    }

    fn of_sheet(case: Case, lines: &str) -> Edge {
        Edge { case, wanted: Wanted { result: Some(lines.as_bytes().to_vec()), ..Wanted::default() } }
    }

    fn at(mut self, span: u64) -> Edge {
        self.wanted.span = Some(span);
        self
    }

    fn charging(mut self, nodes: u64) -> Edge {
        self.wanted.charged = Some(nodes);
        self
    }

    fn because(mut self, reason: &'static str) -> Edge {
        self.wanted.reason = Some(reason);
        self
    }

    fn making(mut self, result: Vec<u8>) -> Edge {
        self.wanted.result = Some(result);
        self
    }

    fn leaving(mut self, counts: Counts) -> Edge {
        self.wanted.counts = Some(Box::new(counts));
        self
    }
}

/// All lists, point by point as they landed. The preview's goes over those of the others.
pub fn lists() -> Vec<List> {
    let lists = [
        counts::LISTS,
        library::LISTS,
        merge::LISTS,
        profile::LISTS,
        judge::LISTS,
        provider::LISTS,
        sheet::LISTS,
        arguments::LISTS,
        preview::LISTS,
    ];
    lists.concat()
}

/// A case of these trees, with a limit that nothing comes to.
fn of(operation: Operation, trees: &[&Node]) -> Case {
    let limit = if operation.charges() { u32::MAX } else { 0 };
    Case::new(operation, limit, trees.iter().map(|tree| tape::encode(tree)).collect())
}
