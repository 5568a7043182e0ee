//! Times the archive against upstream: one run, the same inputs, both release builds. See README.md.

mod count;
mod families;
mod inputs;
mod stack;

use count::Side;
use differential::archive;
use differential::case::{Answer, Case, Operation};
use differential::compare::{self, Lent, Machine};
use differential::model::Notes;
use differential::tape::{self, LARGEST_TEXT, Sort};
use differential::upstream::{self, End, Reach};
use dogwood::macros::adapter;
use families::Member;
use std::hint::black_box;
use std::time::{Duration, Instant};

/// Rounds in which all are timed one after the other; the least time of each counts, so that what else the machine
/// does falls out.
const ROUNDS: usize = 40;
/// A round takes about so long for each.
const ROUND: Duration = Duration::from_millis(10);

fn main() {
    upstream::quiet_panics();
    let mut machine = archive::linked().filter(|machine| machine.has(Operation::Expand));
    let args: Vec<String> = std::env::args().skip(1).collect();
    if let [once, key, side] = &args[..]
        && once == "once"
    {
        let key: usize = key.parse().expect("the place of an input");
        let case = counted().swap_remove(key).case;
        return count::once(&case, Side::named(side).expect("archive or upstream"), machine);
    }
    if machine.is_none() {
        println!("without an archive that expands: upstream alone");
    }
    match args.first().map(String::as_str) {
        None => print_times(&mut machine),
        Some("instructions") => print_instructions(true, &mut machine),
        Some("growth") => print_instructions(false, &mut machine),
        Some("stack") => machine.iter_mut().for_each(|machine| print_stack(machine.as_mut())),
        Some(other) => panic!("no command {other}: instructions, growth, stack, or none for the times"),
    }
}

/// All inputs whose instructions are counted: the three that are timed, and the families.
fn counted() -> Vec<Member> {
    let timed = |(name, case): (&str, Case)| Member { family: TIMED, size: name.to_string(), case };
    inputs::all().into_iter().map(timed).chain(families::all()).collect()
}

/// The family of the three inputs that are timed.
const TIMED: &str = "expansion";

/// Those of the three inputs, or those of the families.
fn print_instructions(timed: bool, machine: &mut Option<Box<dyn Machine>>) {
    println!("| input | | archive | upstream | archive to upstream |\n|---|---|---|---|---|");
    for (key, member) in counted().iter().enumerate().filter(|(_, member)| (member.family == TIMED) == timed) {
        agree(&member.case, machine);
        let upstream = count::instructions(key, &member.case, Side::Upstream);
        let archive = machine.is_some().then(|| count::instructions(key, &member.case, Side::Archive));
        let [of_archive, of_upstream] = [archive, Some(upstream)].map(|n| n.map_or("-".to_string(), thousands));
        let ratio = archive.map_or("-".to_string(), |n| format!("{:.2}", n as f64 / upstream as f64));
        println!("| {} | {} | {of_archive} | {of_upstream} | {ratio} |", member.family, member.size);
    }
    println!("\nThousands of instructions for one call, counted by callgrind, memory filled with vector instructions.");
}

/// In thousands, with one figure behind the point.
fn thousands(n: u64) -> String {
    let tenths = (n + 50) / 100;
    let digits = (tenths / 10).to_string();
    let grouped: Vec<&str> = digits.as_bytes().rchunks(3).rev().map(|g| str::from_utf8(g).expect("digits")).collect();
    format!("{}.{}", grouped.join(","), tenths % 10)
}

fn print_stack(machine: &mut dyn Machine) {
    println!("| operation | deepest input | bytes of stack |\n|---|---|---|");
    for (function, what, bytes) in stack::measured(machine) {
        println!("| {function} | {what} | {bytes} |");
    }
}

fn print_times(machine: &mut Option<Box<dyn Machine>>) {
    let head = ["registry", "rule", "result", "trees", "tapes", "archive", "to trees", "to tapes"];
    println!("{:>34}{}", "", head.map(|h| format!("{h:>10}")).concat());
    for (name, case) in inputs::all() {
        let (answer, notes) = agree(&case, machine);
        let [registry, rule, result] = entries(&answer, notes).map(|n| n.to_string());
        let [trees, tapes, archive] = time(&case, machine);
        let shown = |time: Option<f64>| time.map_or("-".to_string(), |t| format!("{t:.0}"));
        let ratio = |to: Option<f64>| match (archive, to) {
            (Some(a), Some(to)) => format!("{:.2}", a / to),
            _ => "-".to_string(),
        };
        let line = [registry, rule, result, shown(trees), shown(tapes), shown(archive), ratio(trees), ratio(tapes)];
        println!("{name:>34}{}", line.map(|h| format!("{h:>10}")).concat());
    }
    println!("Times in nanoseconds for one expansion, the least of {ROUNDS} rounds. README.md says what is in each.");
}

/// Both must give the same answer.
fn agree(case: &Case, machine: &mut Option<Box<dyn Machine>>) -> (Answer, Notes) {
    let (answer, notes, _) = compare::expected(case).expect("model and upstream agree");
    if let Some(machine) = machine {
        compare::judge(machine.as_mut(), case, &answer).expect("the archive agrees");
    }
    (answer, notes)
}

/// Entries of the registry, the rule and the result.
fn entries(answer: &Answer, notes: Notes) -> [usize; 3] {
    assert_eq!(answer.number, 0, "what is timed is an expansion that succeeds");
    let result = notes.result.as_ref().expect("a success has a result");
    [&notes.trees[0], &notes.trees[1], result].map(|tree| tape::measure(tree).entries)
}

/// Runs something so many times, and says how long that took.
type Timed<'a> = Box<dyn FnMut(usize) -> Duration + 'a>;

/// Upstream on trees, upstream from tapes to a tape, and the archive.
fn time(case: &Case, machine: &mut Option<Box<dyn Machine>>) -> [Option<f64>; 3] {
    let mut timed = vec![on_trees(case), on_tapes(case)];
    timed.extend(machine.as_mut().map(|machine| on_archive(case, machine.as_mut())));
    let counts: Vec<usize> = timed.iter_mut().map(per_round).collect();
    let mut least = [None; 3];
    for _ in 0..ROUNDS {
        for (i, run) in timed.iter_mut().enumerate() {
            let each = run(counts[i]).as_nanos() as f64 / counts[i] as f64;
            least[i] = Some(least[i].map_or(each, |l: f64| l.min(each)));
        }
    }
    least
}

/// Upstream alone. Each expansion takes a tree of its own, which is made before the clock runs; what comes of it is
/// freed after the clock stops.
fn on_trees(case: &Case) -> Timed<'_> {
    let registry = tape::accept(&case.tapes[0], Sort::Definitions, LARGEST_TEXT).expect("accepted");
    let condition = tape::accept(&case.tapes[1], Sort::Condition, LARGEST_TEXT).expect("accepted");
    let (defs, tree) = (upstream::macro_defs(&registry), upstream::condition(&condition));
    Box::new(move |n| {
        let inputs: Vec<_> = (0..n).map(|_| tree.clone()).collect();
        let mut results = Vec::with_capacity(n);
        let start = Instant::now();
        for input in inputs {
            results.push(adapter::expand(&defs, input, Reach::limit(case.limit as usize)));
        }
        let time = start.elapsed();
        black_box(results);
        time
    })
}

/// Upstream with what this tool does to come from tapes to its trees and back.
fn on_tapes(case: &Case) -> Timed<'_> {
    Box::new(move |n| {
        let start = Instant::now();
        for _ in 0..n {
            let registry = tape::accept(black_box(&case.tapes[0]), Sort::Definitions, LARGEST_TEXT).expect("accepted");
            let condition = tape::accept(black_box(&case.tapes[1]), Sort::Condition, LARGEST_TEXT).expect("accepted");
            let run = upstream::expand(&registry, &condition, Reach::limit(case.limit as usize));
            let End::Tree(tree) = run.end else { unreachable!("it succeeds") };
            black_box(tape::encode(&tree));
        }
        start.elapsed()
    })
}

/// The archive, from tapes to a tape, zeroing of all buffers included.
fn on_archive<'a>(case: &'a Case, machine: &'a mut dyn Machine) -> Timed<'a> {
    let [mut result, mut work, mut message] = case.sizes.map(|size| vec![1; size]);
    let (mut counts, mut answer) = (case.counts, [0; 7]);
    Box::new(move |n| {
        let start = Instant::now();
        for _ in 0..n {
            let lent = Lent {
                result: &mut result,
                work: &mut work,
                message: &mut message,
                counts: &mut counts,
                answer: &mut answer,
            };
            machine.run(black_box(case), lent);
        }
        start.elapsed()
    })
}

/// How many runs fill a round.
fn per_round(run: &mut Timed) -> usize {
    let mut n = 1;
    while run(n) < ROUND {
        n *= 2;
    }
    n
}
