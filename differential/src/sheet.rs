//! The house sheet: many conditions expanded under one budget, and the program that prints their lines.

use crate::case::{Answer, Case, Counts, Operation};
use crate::damage::damage;
use crate::model;
use crate::random::Random;
use crate::tape;
use crate::trees::{DEPTH, Ground, Trees};

/// The program's limit and file.
pub const LIMIT: u32 = 1_000;
pub const FILE: u16 = 0;

pub const MOST_CONDITIONS: u32 = 32;
pub const LONGEST_SHEET: usize = 65_536;
pub const LONGEST_REGISTRY: usize = 12_296;

/// Registry and sheet in what the program reads, if it has a registry.
pub fn split(input: &[u8]) -> Option<(&[u8], &[u8])> {
    let (length, rest) = input.split_first_chunk::<4>()?;
    let length = u32::from_le_bytes(*length) as usize;
    if length > LONGEST_REGISTRY { None } else { rest.split_at_checked(length) }
}

/// The conditions of a sheet, or the refusal with which it is opened.
pub fn open<'a>(registry: &[u8], sheet: &'a [u8]) -> Result<Vec<&'a [u8]>, Box<Answer>> {
    let names = model::answer(&Case::new(Operation::Registry, 0, vec![registry.to_vec()])).0;
    if names.number != 0 {
        return Err(Box::new(names));
    }
    let refused = |number: u64| Err(Box::new(Answer { number, ..names.clone() }));
    let count = sheet.first_chunk::<4>().map(|n| u32::from_le_bytes(*n));
    if sheet.len() > LONGEST_SHEET || count.is_some_and(|n| n > MOST_CONDITIONS) {
        return refused(57);
    }
    match conditions(sheet) {
        Some(conditions) => Ok(conditions),
        None => refused(2),
    }
}

/// The parts of a sheet that its count and lengths fill exactly.
fn conditions(sheet: &[u8]) -> Option<Vec<&[u8]>> {
    let (count, mut rest) = sheet.split_first_chunk::<4>()?;
    let mut all = Vec::new();
    for _ in 0..u32::from_le_bytes(*count) {
        let (length, behind) = rest.split_first_chunk::<4>()?;
        let (condition, behind) = behind.split_at_checked(u32::from_le_bytes(*length) as usize)?;
        all.push(condition);
        rest = behind;
    }
    rest.is_empty().then_some(all)
}

/// The expansions that a sheet's conditions become, one after the other, with their answers.
pub fn steps(registry: &[u8], conditions: &[&[u8]], budget: u32, file: u16, counts: Counts) -> Vec<(Case, Answer)> {
    let (mut left, mut counts) = (budget, counts);
    let step = |condition: &&[u8]| {
        let tapes = vec![registry.to_vec(), condition.to_vec()];
        let case = Case { file, counts, ..Case::new(Operation::Expand, left, tapes) };
        let (answer, _) = model::answer(&case);
        left -= answer.charged as u32;
        counts = answer.counts;
        (case, answer)
    };
    conditions.iter().map(step).collect()
}

/// What the program prints.
pub fn lines(input: &[u8]) -> String {
    lines_under(input, LIMIT, FILE)
}

/// What it would print with another limit and file.
pub fn lines_under(input: &[u8], limit: u32, file: u16) -> String {
    let line = |place: usize, answer: &Answer| {
        let [number, start, end, _, charged] = answer.numbers();
        format!("{place} {number} {start} {end} {charged}\n")
    };
    let Some((registry, sheet)) = split(input) else { return "0 2 0 0 0\n".to_string() };
    match open(registry, sheet) {
        Err(refused) => line(0, &refused),
        Ok(conditions) => {
            let steps = steps(registry, &conditions, limit, file, [0; _]);
            steps.iter().enumerate().map(|(i, (_, answer))| line(i + 1, answer)).collect()
        }
    }
}

// ------------------------------------------------------------------ random inputs

/// The bytes behind their length.
pub fn with_length(bytes: &[u8]) -> Vec<u8> {
    [&(bytes.len() as u32).to_le_bytes()[..], bytes].concat()
}

/// What the program is to read: good, refused or damaged.
pub fn input(g: &mut Trees, registry: &tape::Node) -> Vec<u8> {
    let mut registry = tape::encode(registry);
    if g.random.chance(5) {
        damage(g.random, &mut registry);
    }
    if g.random.chance(2) {
        registry.resize(g.random.within(LONGEST_REGISTRY - 1, LONGEST_REGISTRY + 1), 0);
    }
    let mut sheet = sheet(g);
    if g.random.chance(8) {
        spoil(g.random, &mut sheet);
    }
    let mut input = [with_length(&registry), sheet].concat();
    if g.random.chance(6) {
        input.truncate(g.random.below(input.len() + 1));
    }
    input
}

/// A count, and conditions each with its length. Now and then one condition is repeated until the budget is used up.
fn sheet(g: &mut Trees) -> Vec<u8> {
    let count = match g.random.weighted(&[5, 60, 25, 10]) {
        0 => 0,
        1 => g.random.within(1, 5),
        2 => g.random.within(6, 31),
        _ => g.random.within(31, 33),
    };
    let repeated = g.random.chance(30);
    let mut all: Vec<Vec<u8>> = Vec::new();
    for _ in 0..count {
        let condition = match all.last() {
            Some(last) if repeated && g.random.chance(80) => last.clone(),
            _ => condition(g),
        };
        all.push(condition);
    }
    let parts: Vec<u8> = all.iter().flat_map(|condition| with_length(condition)).collect();
    [&(count as u32).to_le_bytes()[..], &parts].concat()
}

fn condition(g: &mut Trees) -> Vec<u8> {
    g.fuel = g.random.size(60);
    let mut tape = tape::encode(&g.condition(Ground::Entered, DEPTH));
    match g.random.weighted(&[90, 6, 4]) {
        0 => {}
        1 => damage(g.random, &mut tape),
        _ => tape.clear(),
    }
    tape
}

/// Counts and lengths that do not fit, bytes behind the last condition, and the longest sheets.
fn spoil(random: &mut Random, sheet: &mut Vec<u8>) {
    match random.below(6) {
        0 => sheet.truncate(random.below(sheet.len() + 1)),
        1 => sheet.push(0),
        2 => sheet[0] = sheet[0].wrapping_add(*random.pick(&[1, 255])),
        3 => sheet[..4].copy_from_slice(&(*random.pick(&[33, 255, 65_536, u32::MAX])).to_le_bytes()),
        4 => {
            // One more condition, of zeros, that makes the sheet as long as it may be, or longer.
            let length = (LONGEST_SHEET + random.below(3)).saturating_sub(sheet.len() + 5);
            sheet[0] += 1;
            sheet.extend(with_length(&vec![0; length]));
        }
        _ => {
            let at = random.below(sheet.len());
            sheet[at] ^= 1 << random.below(8);
        }
    }
}
