//! A list run on model, upstream and machines, and what came of it.

use super::{Edge, List, Wanted};
use crate::case::{Answer, Case, Operation};
use crate::compare::{self, Machine, Witness};
use crate::model::Notes;
use crate::sheet;
use crate::tape;
use std::collections::BTreeMap;

/// After so many differences of one list the others of it are not shown.
const SHOWN: usize = 5;

/// What came of a list.
#[derive(Default)]
pub struct Tried {
    pub cases: u64,
    /// How many of them the archive was run on, and the house sheet's program.
    pub archive: u64,
    pub program: u64,
    /// For how many upstream stands behind the answer.
    pub upstream: u64,
    pub numbers: BTreeMap<u64, u64>,
    pub differences: u64,
    pub shown: Vec<String>,
}

impl Tried {
    fn differs(&mut self, difference: String) {
        self.differences += 1;
        if self.shown.len() < SHOWN {
            self.shown.push(difference);
        }
    }

    fn add(&mut self, other: &Tried) {
        self.cases += other.cases;
        self.archive += other.archive;
        self.program += other.program;
        self.upstream += other.upstream;
        self.differences += other.differences;
    }
}

/// Every case of a list: what the list wants, upstream, the model and each machine.
pub fn try_list(list: &List, machines: &mut [Box<dyn Machine>]) -> Tried {
    let mut tried = Tried::default();
    (list.cases)(&mut |edge| {
        let index = tried.cases;
        tried.cases += 1;
        if let Err(difference) = try_edge(&edge, machines, &mut tried) {
            tried.differs(format!("case {index}, {}: {difference}", edge.case.operation.name()));
        }
    });
    let missing: Vec<_> = list.numbers.iter().filter(|n| !tried.numbers.contains_key(n)).collect();
    if !missing.is_empty() {
        tried.differs(format!("{missing:?} did not come up"));
    }
    tried
}

fn try_edge(edge: &Edge, machines: &mut [Box<dyn Machine>], tried: &mut Tried) -> Result<(), String> {
    let case = &edge.case;
    if case.operation == Operation::Sheet {
        return try_sheet(edge, machines, tried);
    }
    let (answer, notes, witness) = compare::expected(case)?;
    *tried.numbers.entry(answer.number).or_default() += 1;
    tried.upstream += u64::from(witness != Witness::ModelAlone);
    keeps_to(case, &answer)?;
    is_wanted(&edge.wanted, &answer, &notes)?;
    for machine in machines.iter_mut().filter(|machine| machine.has(case.operation)) {
        compare::judge(machine.as_mut(), case, &answer).map_err(|e| format!("the machine: {e}"))?;
        tried.archive += 1;
    }
    Ok(())
}

/// A sheet under the limit and file of its case, step by step; with the program's own also through the program.
fn try_sheet(edge: &Edge, machines: &mut [Box<dyn Machine>], tried: &mut Tried) -> Result<(), String> {
    let (case, input) = (&edge.case, &edge.case.tapes[0]);
    let printed = sheet::lines_under(input, case.limit, case.file);
    let numbers = printed.lines().filter_map(|line| line.split(' ').nth(1)?.parse().ok());
    numbers.for_each(|number| *tried.numbers.entry(number).or_default() += 1);
    if let Some(wanted) = &edge.wanted.result
        && printed.as_bytes() != wanted
    {
        return Err(format!("the list wants {:?}, not {printed:?}", String::from_utf8_lossy(wanted)));
    }
    let heard = compare::hear_of_sheet(input, case.limit, case.file)?.unwrap_or_default();
    tried.upstream += u64::from(heard.iter().any(|witness| *witness != Witness::ModelAlone));
    let of_program = Case::new(Operation::Sheet, sheet::LIMIT, vec![input.clone()]);
    for machine in machines {
        // Without a registry in the input there is nothing to open.
        if machine.has_steps() && sheet::split(input).is_some() {
            let steps = compare::judge_steps(machine.as_mut(), input, case.limit, case.file);
            steps.map_err(|e| format!("the steps: {e}"))?;
            tried.archive += 1;
        }
        if machine.has(Operation::Sheet) && (case.limit, case.file) == (sheet::LIMIT, sheet::FILE) {
            let (answer, ..) = compare::expected(&of_program)?;
            compare::judge(machine.as_mut(), &of_program, &answer).map_err(|e| format!("the program: {e}"))?;
            tried.program += 1;
        }
    }
    Ok(())
}

/// What holds of every answer: which numbers have a message, and that a refusal leaves the counts.
fn keeps_to(case: &Case, answer: &Answer) -> Result<(), String> {
    let has_message = matches!(answer.number, 10..48);
    if answer.message.is_empty() == has_message {
        return Err(format!("{} with a message of {} bytes", answer.number, answer.message.len()));
    }
    if case.operation == Operation::Expand && answer.number != 0 && answer.counts != case.counts {
        return Err(format!("{} changed the counts", answer.number));
    }
    Ok(())
}

fn is_wanted(wanted: &Wanted, answer: &Answer, notes: &Notes) -> Result<(), String> {
    wants("number", wanted.number, answer.number)?;
    let span = wanted.span.map(|span| (tape::span_start(span), tape::span_end(span)));
    wants("span", span, (answer.start, answer.end))?;
    wants("charge", wanted.charged, answer.charged)?;
    wants("reason", wanted.reason, notes.reason)?;
    wants("result", wanted.result.as_ref(), &answer.result)?;
    wants("counts", wanted.counts.as_deref(), &answer.counts)
}

fn wants<T: PartialEq + std::fmt::Debug>(what: &str, wanted: Option<T>, is: T) -> Result<(), String> {
    match wanted {
        Some(wanted) if wanted != is => Err(format!("the list wants the {what} {wanted:?}, not {is:?}")),
        _ => Ok(()),
    }
}

// ------------------------------------------------------------------ the table

/// A row for each list, with the differences below it, and a last row for all.
pub fn print(all: &[(List, Tried)]) {
    let row = |point: &str, line: &str, tried: &Tried, numbers: &str| {
        println!(
            "{point:>5}  {line:<65} {:>7} {:>8} {:>8} {:>8} {:>11}  {numbers}",
            tried.cases, tried.upstream, tried.archive, tried.program, tried.differences
        );
    };
    println!(
        "{:>5}  {:<65} {:>7} {:>8} {:>8} {:>8} {:>11}  number: how often",
        "point", "line", "cases", "upstream", "archive", "program", "differences"
    );
    let mut sum = Tried::default();
    for (list, tried) in all {
        let numbers: Vec<String> = tried.numbers.iter().map(|(number, n)| format!("{number}: {n}")).collect();
        row(&list.point.to_string(), list.line, tried, &numbers.join(", "));
        tried.shown.iter().for_each(|difference| println!("       {difference}"));
        sum.add(tried);
    }
    row("", "all", &sum, "");
}
