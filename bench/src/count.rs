//! Instructions, counted by callgrind: this program runs itself under valgrind, once for each input and side.

use differential::case::{Case, Operation};
use differential::compare::{Lent, Machine};
use differential::tape::{self, LARGEST_TEXT, Sort};
use differential::upstream::{self, Reach};
use dogwood::ast::MacroDef;
use dogwood::extension::temporal::ast::Condition;
use dogwood::macros::adapter::{self, Ended, Ran};
use std::hint::black_box;
use std::process::Command;

#[derive(Clone, Copy)]
pub enum Side {
    Archive,
    Upstream,
}

impl Side {
    pub fn named(name: &str) -> Option<Side> {
        [Side::Archive, Side::Upstream].into_iter().find(|side| side.name() == name)
    }

    fn name(self) -> &'static str {
        match self {
            Side::Archive => "archive",
            Side::Upstream => "upstream",
        }
    }

    /// The function whose instructions count, with all that it calls.
    fn function(self, operation: Operation) -> String {
        match self {
            Side::Archive => format!("neukolja_{}", operation.name()),
            Side::Upstream => format!("upstream_{}", operation.name()),
        }
    }
}

/// valgrind counts `rep stosb` once for each byte, so the C library is to fill memory with vector instructions.
const FILLING: (&str, &str) = ("GLIBC_TUNABLES", "glibc.cpu.x86_rep_stosb_threshold=1000000000");

/// The instructions of the input with this key: `once KEY SIDE` under callgrind.
pub fn instructions(key: usize, case: &Case, side: Side) -> u64 {
    let function = side.function(case.operation);
    let output = Command::new("valgrind")
        .args(["--tool=callgrind", "--callgrind-out-file=/dev/null"])
        .arg(format!("--toggle-collect={function}"))
        .arg(std::env::current_exe().expect("this program has a path"))
        .args(["once", &key.to_string(), side.name()])
        .env(FILLING.0, FILLING.1)
        .output()
        .expect("valgrind is installed");
    let text = String::from_utf8_lossy(&output.stderr);
    assert!(output.status.success(), "under valgrind: {text}");
    let collected =
        text.lines().find_map(|line| line.split_once("Collected :")).expect("callgrind says what it collected");
    let count = collected.1.trim().parse().expect("a number");
    assert!(count > 0, "{function} was not called");
    count
}

/// What `once` does: the input, by one side.
pub fn once(case: &Case, side: Side, machine: Option<Box<dyn Machine>>) {
    match (side, machine) {
        (Side::Upstream, _) => by_upstream(case),
        (Side::Archive, Some(mut machine)) => by_archive(case, machine.as_mut()),
        (Side::Archive, None) => panic!("no archive is linked"),
    }
}

pub fn by_archive(case: &Case, machine: &mut dyn Machine) {
    lend(case, |lent| machine.run(case, lent));
}

/// Runs something with buffers of the sizes that the case names. The counts are on the heap as these are: this frame is
/// part of what `bench stack` measures.
pub fn lend(case: &Case, run: impl FnOnce(Lent)) {
    let [mut result, mut work, mut message] = case.sizes.map(|size| vec![1; size]);
    let (mut counts, mut answer) = (Box::new(case.counts), [0; 7]);
    run(Lent { result: &mut result, work: &mut work, message: &mut message, counts: &mut counts, answer: &mut answer });
    black_box(answer);
}

fn by_upstream(case: &Case) {
    let registry = tape::accept(&case.tapes[0], Sort::Definitions, LARGEST_TEXT).expect("accepted");
    let defs = upstream::macro_defs(&registry);
    match case.operation {
        Operation::Registry => drop(black_box(upstream_registry(&defs))),
        Operation::Expand => {
            let condition = tape::accept(&case.tapes[1], Sort::Condition, LARGEST_TEXT).expect("accepted");
            let tree = upstream::condition(&condition);
            drop(black_box(upstream_expand(&defs, tree, Reach::limit(case.limit as usize))));
        }
        _ => unreachable!("not counted"),
    }
}

// Functions that callgrind knows by these names: what is collected begins and ends with them.

#[unsafe(no_mangle)]
#[inline(never)]
fn upstream_registry(defs: &[MacroDef]) -> Result<(), Ended> {
    adapter::registry(defs)
}

#[unsafe(no_mangle)]
#[inline(never)]
fn upstream_expand(defs: &[MacroDef], condition: Condition, reach: Reach) -> Ran<Condition> {
    adapter::expand(defs, condition, reach)
}
