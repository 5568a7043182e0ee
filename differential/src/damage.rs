//! Damaged copies of tapes.

use crate::random::Random;
use crate::tape::LARGEST;

const EXTREME_VALUES: [u64; 9] = [0, 1, 17, 1 << 16, u32::MAX as u64, 1 << 32, 1 << 63, u64::MAX - 1, u64::MAX];

/// One to three damages.
pub fn damage(random: &mut Random, tape: &mut Vec<u8>) {
    for _ in 0..random.weighted(&[0, 75, 20, 5]) {
        damage_once(random, tape);
    }
}

fn damage_once(random: &mut Random, tape: &mut Vec<u8>) {
    let parts = Parts::of(tape);
    let end = tape.len();
    match random.weighted(&[12, 14, 14, 6, 6, 6, 8, 12, 6, 6, 5, 5]) {
        0 => flip(random, tape, 0, end),
        1 => flip(random, tape, parts.codes, parts.values),
        2 => flip(random, tape, parts.values, parts.text),
        3 => flip(random, tape, parts.text, end),
        4 => tape.truncate(random.below(end + 1)),
        5 => {
            let more = random.size(20);
            tape.extend((0..more).map(|_| 0x41));
        }
        6 => change_a_size(random, tape),
        7 => change_a_value(random, tape, &parts),
        8 => change_a_code(random, tape, &parts),
        9 => remove_an_entry(random, tape, &parts),
        10 => repeat_an_entry(random, tape, &parts),
        _ => swap_two_codes(random, tape, &parts),
    }
}

/// Where the sections of a tape begin, as far as its sizes can be believed.
struct Parts {
    entries: usize,
    codes: usize,
    values: usize,
    text: usize,
}

impl Parts {
    fn of(tape: &[u8]) -> Parts {
        let whole = tape.len();
        let entries = match tape.first_chunk::<4>() {
            Some(n) => (u32::from_le_bytes(*n) as usize).min(whole.saturating_sub(8) / 9),
            None => 0,
        };
        Parts { entries, codes: whole.min(8), values: whole.min(8 + entries), text: whole.min(8 + 9 * entries) }
    }

    fn value(&self, entry: usize) -> usize {
        self.values + 8 * entry
    }
}

fn flip(random: &mut Random, tape: &mut [u8], first: usize, end: usize) {
    if first < end {
        tape[first + random.below(end - first)] ^= 1 << random.below(8);
    }
}

fn change_a_size(random: &mut Random, tape: &mut [u8]) {
    if tape.len() < 8 {
        return;
    }
    let at = 4 * random.below(2);
    let now = u32::from_le_bytes(tape[at..at + 4].try_into().expect("4 bytes"));
    let new = match random.below(6) {
        0 => now.wrapping_add(1),
        1 => now.wrapping_sub(1),
        2 => (LARGEST.entries + random.below(3)) as u32,
        3 => (LARGEST.text + random.below(3)) as u32,
        4 => u32::MAX,
        _ => random.number() as u32,
    };
    tape[at..at + 4].copy_from_slice(&new.to_le_bytes());
}

fn change_a_value(random: &mut Random, tape: &mut [u8], parts: &Parts) {
    if parts.entries == 0 {
        return;
    }
    let at = parts.value(random.below(parts.entries));
    let now = u64::from_le_bytes(tape[at..at + 8].try_into().expect("8 bytes"));
    let new = match random.below(4) {
        0 => now.wrapping_add(1),
        1 => now.wrapping_sub(1),
        2 => *random.pick(&EXTREME_VALUES),
        _ => now.wrapping_add(random.size(8) as u64),
    };
    tape[at..at + 8].copy_from_slice(&new.to_le_bytes());
}

fn change_a_code(random: &mut Random, tape: &mut [u8], parts: &Parts) {
    if parts.entries > 0 {
        tape[parts.codes + random.below(parts.entries)] = random.below(80) as u8;
    }
}

fn remove_an_entry(random: &mut Random, tape: &mut Vec<u8>, parts: &Parts) {
    if parts.entries == 0 {
        return;
    }
    let entry = random.below(parts.entries);
    let value = parts.value(entry);
    tape.drain(value..value + 8);
    tape.remove(parts.codes + entry);
    set_entries(tape, parts.entries - 1);
}

fn repeat_an_entry(random: &mut Random, tape: &mut Vec<u8>, parts: &Parts) {
    if parts.entries == 0 {
        return;
    }
    let entry = random.below(parts.entries);
    let value = parts.value(entry);
    let bytes: Vec<u8> = tape[value..value + 8].to_vec();
    tape.splice(value..value, bytes);
    tape.insert(parts.codes + entry, tape[parts.codes + entry]);
    set_entries(tape, parts.entries + 1);
}

fn set_entries(tape: &mut [u8], entries: usize) {
    tape[..4].copy_from_slice(&(entries as u32).to_le_bytes());
}

fn swap_two_codes(random: &mut Random, tape: &mut [u8], parts: &Parts) {
    if parts.entries > 1 {
        let (a, b) = (random.below(parts.entries), random.below(parts.entries));
        tape.swap(parts.codes + a, parts.codes + b);
    }
}
