//! The commands. See README.md.

use differential::case::{Answer, Case, OPERATIONS, Operation};
use differential::compare::Machine;
use differential::program::Program;
use differential::tally::Tally;
use differential::tape::{self, Node};
use differential::{archive, compare, edges, generate, model, record, sheet, upstream, vectors};
use std::process::ExitCode;

const USAGE: &str = "differential COMMAND
  run [--seed N] [--cases N] [--from N] [--only OPERATION,..]   compare on cases from a seed
  show [--seed N] [--from N]   print one of them, with its answer
  replay FILE                  compare on a list of vectors, and with what it expects
  edges [--point N]            compare on the systematic cases of document 02's points, or of one
  (run, replay and edges take --program PATH, the house sheet's program)
  record FILE [--seed N] [--cases N] [--only OPERATION,..]   write the fixed list, from 400,000 cases";

/// Each has something behind it.
const OPTIONS: [&str; 6] = ["--seed", "--cases", "--from", "--only", "--point", "--program"];

/// After so many differences a campaign ends.
const ENOUGH: u64 = 20;

fn main() -> ExitCode {
    upstream::quiet_panics();
    let args: Vec<String> = std::env::args().skip(1).collect();
    let unknown = args.iter().find(|arg| arg.starts_with("--") && !OPTIONS.contains(&arg.as_str()));
    if let Some(unknown) = unknown {
        eprintln!("no option {unknown}\n{USAGE}");
        return ExitCode::from(2);
    }
    let done = match args.first().map(String::as_str) {
        Some("run") => option(&args, "--seed", 1).and_then(|seed| {
            let (from, cases) = (option(&args, "--from", 0)?, option(&args, "--cases", 100_000)?);
            Ok(run(seed, from, cases, &only(&args)?, machines(&args)?))
        }),
        Some("show") => option(&args, "--seed", 1).and_then(|seed| Ok(show(seed, option(&args, "--from", 0)?))),
        Some("edges") => option(&args, "--point", 0).and_then(|point| Ok(edges(point, machines(&args)?))),
        Some("replay") if has_file(&args) => machines(&args).and_then(|machines| replay(&args[1], machines)),
        Some("record") if has_file(&args) => option(&args, "--seed", 1)
            .and_then(|seed| record(&args[1], seed, option(&args, "--cases", 400_000)?, &only(&args)?)),
        _ => Err(USAGE.to_string()),
    };
    match done {
        Ok(true) => ExitCode::SUCCESS,
        Ok(false) => ExitCode::FAILURE,
        Err(message) => {
            eprintln!("{message}");
            ExitCode::from(2)
        }
    }
}

/// Whether a file stands behind the command.
fn has_file(args: &[String]) -> bool {
    args.get(1).is_some_and(|file| !file.starts_with("--"))
}

/// The number behind `name`, or `otherwise`.
fn option(args: &[String], name: &str, otherwise: u64) -> Result<u64, String> {
    match args.iter().position(|a| a == name) {
        None => Ok(otherwise),
        Some(i) => args.get(i + 1).and_then(|n| n.parse().ok()).ok_or(format!("a number belongs behind {name}")),
    }
}

/// The operations behind `--only`, or all.
fn only(args: &[String]) -> Result<Vec<Operation>, String> {
    let Some(i) = args.iter().position(|a| a == "--only") else { return Ok(OPERATIONS.to_vec()) };
    let named = args.get(i + 1).ok_or("operations belong behind --only")?;
    let find = |name: &str| OPERATIONS.into_iter().find(|o| o.name() == name).ok_or_else(|| no_operation(name));
    named.split(',').map(find).collect()
}

fn no_operation(name: &str) -> String {
    format!("no operation {name}; there are {}", OPERATIONS.map(Operation::name).join(", "))
}

/// The archive, if one is linked, and the house sheet's program, if one is given.
fn machines(args: &[String]) -> Result<Vec<Box<dyn Machine>>, String> {
    let mut machines = Vec::new();
    match archive::linked() {
        None => println!("without an archive: model and upstream alone"),
        Some(machine) => {
            let has: Vec<_> = OPERATIONS.into_iter().filter(|o| machine.has(*o)).map(Operation::name).collect();
            let steps = if machine.has_steps() { ", and the steps of a sheet" } else { "" };
            println!("with the archive, which has {}{steps}", has.join(", "));
            machines.push(machine);
        }
    }
    if let Some(i) = args.iter().position(|a| a == "--program") {
        let path = args.get(i + 1).ok_or("the house sheet's program belongs behind --program")?.clone();
        machines.push(Box::new(Program { path }));
    }
    Ok(machines)
}

/// Upstream, the model and the archive on one case.
fn compare_all(case: &Case, machines: &mut [Box<dyn Machine>], tally: &mut Tally) -> Result<Answer, String> {
    let (answer, notes, witness) = compare::expected(case)?;
    tally.add(case, &answer, &notes, witness);
    for machine in machines {
        if machine.has(case.operation) {
            compare::judge(machine.as_mut(), case, &answer).map_err(|e| format!("the machine: {e}"))?;
        }
        if case.operation == Operation::Sheet && machine.has_steps() {
            for (budget, file) in [(sheet::LIMIT, sheet::FILE), (0, 1), (25, 65_535), (u32::MAX, 9)] {
                let steps = compare::judge_steps(machine.as_mut(), &case.tapes[0], budget, file);
                steps.map_err(|e| format!("the steps, budget {budget}: {e}"))?;
            }
        }
    }
    Ok(answer)
}

fn run(seed: u64, from: u64, cases: u64, only: &[Operation], mut machines: Vec<Box<dyn Machine>>) -> bool {
    let mut tally = Tally::default();
    let (mut index, mut ran, mut differences) = (from, 0, 0);
    while ran < cases && differences < ENOUGH {
        if only.contains(&generate::operation(seed, index)) {
            let case = generate::case(seed, index);
            if let Err(difference) = compare_all(&case, &mut machines, &mut tally) {
                println!("case {index}, {}: {difference}", case.operation.name());
                differences += 1;
            }
            ran += 1;
            if ran % 100_000 == 0 {
                eprintln!("{ran} cases");
            }
        }
        index += 1;
    }
    tally.print();
    for (operation, number) in tally.missing().into_iter().filter(|(operation, _)| only.contains(operation)) {
        println!("{} did not answer {number}", operation.name());
    }
    println!("seed {seed}, {ran} cases from {from}: {differences} differences");
    differences == 0
}

fn replay(path: &str, mut machines: Vec<Box<dyn Machine>>) -> Result<bool, String> {
    let bytes = std::fs::read(path).map_err(|e| format!("{path}: {e}"))?;
    let list = vectors::read(&bytes)?;
    let mut tally = Tally::default();
    let mut differences = 0;
    for (i, expected) in list.iter().enumerate() {
        let outcome = compare_all(&expected.case, &mut machines, &mut tally).and_then(|answer| {
            let as_listed = answer.words() == expected.words
                && vectors::without_zeros(&answer.result) == expected.result
                && vectors::without_zeros(&answer.message) == expected.message
                && (answer.counts == expected.counts || !expected.case.operation.has_counts());
            if as_listed { Ok(()) } else { Err(format!("{:?}, the list has {:?}", answer.words(), expected.words)) }
        });
        if let Err(difference) = outcome {
            println!("vector {i}, {}: {difference}", expected.case.operation.name());
            differences += 1;
        }
    }
    tally.print();
    println!("{} vectors: {differences} differences", list.len());
    Ok(differences == 0)
}

/// The lists of one point, or with 0 of all.
fn edges(point: u64, mut machines: Vec<Box<dyn Machine>>) -> bool {
    let lists = edges::lists().into_iter().filter(|list| point == 0 || u64::from(list.point) == point);
    let tried: Vec<_> = lists.map(|list| (list, edges::try_list(&list, &mut machines))).collect();
    edges::print(&tried);
    !tried.is_empty() && tried.iter().all(|(_, tried)| tried.differences == 0)
}

fn record(path: &str, seed: u64, cases: u64, only: &[Operation]) -> Result<bool, String> {
    let list = record::record(seed, cases, only, &mut |_| ())?;
    let list: Vec<_> = list.into_iter().map(|recorded| (recorded.case, recorded.answer)).collect();
    let bytes = vectors::write(&list);
    std::fs::write(path, &bytes).map_err(|e| format!("{path}: {e}"))?;
    println!("{} vectors, {} bytes", list.len(), bytes.len());
    Ok(true)
}

fn show(seed: u64, index: u64) -> bool {
    let case = generate::case(seed, index);
    println!("{}, limit {}, file {}, index {}", case.operation.name(), case.limit, case.file, case.index);
    println!("result, work and message buffer: {:?}", case.sizes);
    for (i, (bytes, root)) in case.tapes.iter().zip(case.operation.roots()).enumerate() {
        match tape::accept(bytes, *root, case.operation.longest_name(i, case.file)) {
            Ok(tree) => print_tree(&tree, 0),
            Err(why) => println!("{why:?}: {bytes:02X?}"),
        }
    }
    let (answer, notes) = model::answer(&case);
    println!("number, start, end, message length, charged, N, T: {:?}", answer.words());
    if case.operation.has_counts() {
        println!("counts {:?}\nbecome {:?}", case.counts, answer.counts);
    }
    println!("{}", String::from_utf8_lossy(&answer.message));
    notes.result.iter().for_each(|tree| print_tree(tree, 0));
    true
}

fn print_tree(node: &Node, depth: usize) {
    let text = String::from_utf8_lossy(&node.text);
    let value = match tape::value(node.code) {
        tape::Value::Span => format!("{}..{}", tape::span_start(node.value), tape::span_end(node.value)),
        tape::Value::TextLength => format!("\"{text}\""),
        _ => node.value.to_string(),
    };
    println!("{:indent$}{} {value}", "", node.code, indent = 2 * depth);
    node.children.iter().for_each(|child| print_tree(child, depth + 1));
}
