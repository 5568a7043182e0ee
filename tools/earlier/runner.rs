//! Replays lists of vectors (ORACLEV1, ORACLEV2) on an archive. Built and started by `run`; see README.
//!
//! cfg has="NAME": the archive has neukolja_NAME. cfg file: substitute and expand take a file number (from point 6 on).
//! cfg counts: registry and expand take counts (from point 9 on).

use std::collections::BTreeMap;
use std::io::Write;
use std::process::{Command, ExitCode, Stdio};

type Words = [u64; 7];
const WORDS: usize = 7;
const COUNTS: usize = 255;
type Counts = [u32; COUNTS];

const NAMES: [&str; 17] = [
    "?", "check", "registry", "substitute", "expand", "preview", "check_library", "check_at", "judge", "merge", "older",
    "profile", "provider", "argument_to_term", "term_to_argument", "sheet program", "sheet functions",
];

#[rustfmt::skip]
#[allow(dead_code)]
unsafe extern "C" {
    #[cfg(has = "check")]
    fn neukolja_check(d: *const u8, dn: usize, m: *mut u8, mn: usize, a: *mut u64);
    #[cfg(all(has = "registry", not(counts)))]
    fn neukolja_registry(r: *const u8, rn: usize, m: *mut u8, mn: usize, a: *mut u64);
    #[cfg(all(has = "registry", counts))]
    fn neukolja_registry(r: *const u8, rn: usize, m: *mut u8, mn: usize, c: *mut u32, a: *mut u64);
    #[cfg(all(has = "substitute", not(file)))]
    fn neukolja_substitute(d: *const u8, dn: usize, c: *const u8, cn: usize, limit: u32, r: *mut u8, rn: usize, w: *mut u8, wn: usize, m: *mut u8, mn: usize, a: *mut u64);
    #[cfg(all(has = "substitute", file))]
    fn neukolja_substitute(d: *const u8, dn: usize, c: *const u8, cn: usize, limit: u32, file: u16, r: *mut u8, rn: usize, w: *mut u8, wn: usize, m: *mut u8, mn: usize, a: *mut u64);
    #[cfg(all(has = "expand", not(file), not(counts)))]
    fn neukolja_expand(d: *const u8, dn: usize, c: *const u8, cn: usize, limit: u32, r: *mut u8, rn: usize, w: *mut u8, wn: usize, m: *mut u8, mn: usize, a: *mut u64);
    #[cfg(all(has = "expand", file, not(counts)))]
    fn neukolja_expand(d: *const u8, dn: usize, c: *const u8, cn: usize, limit: u32, file: u16, r: *mut u8, rn: usize, w: *mut u8, wn: usize, m: *mut u8, mn: usize, a: *mut u64);
    #[cfg(all(has = "expand", counts))]
    fn neukolja_expand(d: *const u8, dn: usize, c: *const u8, cn: usize, limit: u32, file: u16, r: *mut u8, rn: usize, w: *mut u8, wn: usize, m: *mut u8, mn: usize, n: *mut u32, a: *mut u64);
    #[cfg(has = "preview")]
    fn neukolja_preview(d: *const u8, dn: usize, c: *const u8, cn: usize, limit: u32, file: u16, w: *mut u8, wn: usize, m: *mut u8, mn: usize, a: *mut u64);
    #[cfg(has = "check_library")]
    fn neukolja_check_library(d: *const u8, dn: usize, r: *mut u8, rn: usize, m: *mut u8, mn: usize, a: *mut u64);
    #[cfg(has = "check_at")]
    fn neukolja_check_at(d: *const u8, dn: usize, index: u32, m: *mut u8, mn: usize, a: *mut u64);
    #[cfg(has = "judge")]
    fn neukolja_judge(d: *const u8, dn: usize, c: *const u8, cn: usize, s: *const u8, sn: usize, limit: u32, file: u16, r: *mut u8, rn: usize, w: *mut u8, wn: usize, m: *mut u8, mn: usize, a: *mut u64);
    #[cfg(has = "merge")]
    fn neukolja_merge(d: *const u8, dn: usize, c: *const u8, cn: usize, r: *mut u8, rn: usize, m: *mut u8, mn: usize, a: *mut u64);
    #[cfg(has = "older")]
    fn neukolja_older(d: *const u8, dn: usize, r: *mut u8, rn: usize, a: *mut u64);
    #[cfg(has = "profile")]
    fn neukolja_profile(d: *const u8, dn: usize, a: *mut u64);
    #[cfg(has = "provider")]
    fn neukolja_provider(d: *const u8, dn: usize, a: *mut u64);
    #[cfg(has = "argument_to_term")]
    fn neukolja_argument_to_term(d: *const u8, dn: usize, r: *mut u8, rn: usize, a: *mut u64);
    #[cfg(has = "term_to_argument")]
    fn neukolja_term_to_argument(d: *const u8, dn: usize, r: *mut u8, rn: usize, a: *mut u64);
    #[cfg(has = "sheet_open")]
    fn neukolja_sheet_open(d: *const u8, dn: usize, s: *const u8, sn: usize, budget: u32, file: u16, m: *mut u8, mn: usize, state: *mut u64, a: *mut u64);
    #[cfg(has = "sheet_next")]
    fn neukolja_sheet_next(d: *const u8, dn: usize, s: *const u8, sn: usize, state: *mut u64, r: *mut u8, rn: usize, w: *mut u8, wn: usize, m: *mut u8, mn: usize, n: *mut u32, a: *mut u64);
    fn signal(number: i32, handler: usize) -> usize;
    fn write(to: i32, bytes: *const u8, n: usize) -> isize;
    fn _exit(status: i32) -> !;
}

// ------------------------------------------------------------------ lists

struct Vector {
    operation: u8,
    limit: u32,
    file: u16,
    index: u32,
    tapes: Vec<Vec<u8>>,
    sizes: [usize; 3],
    counts: Option<Box<(Counts, Counts)>>,
    words: Words,
    result: Vec<u8>,
    message: Vec<u8>,
}

struct Reader<'a> {
    rest: &'a [u8],
}

impl<'a> Reader<'a> {
    fn take(&mut self, n: usize) -> &'a [u8] {
        assert!(n <= self.rest.len(), "the list ends inside a vector");
        let (taken, rest) = self.rest.split_at(n);
        self.rest = rest;
        taken
    }
    fn number(&mut self, n: usize) -> u64 {
        self.take(n).iter().rev().fold(0, |sum, b| sum << 8 | u64::from(*b))
    }
    fn bytes(&mut self) -> Vec<u8> {
        let n = self.number(4) as usize;
        self.take(n).to_vec()
    }
    fn sizes(&mut self) -> [usize; 3] {
        [(); 3].map(|()| self.number(4) as usize)
    }
    fn words(&mut self, n: usize) -> Words {
        let mut words = [0; WORDS];
        words[..n].iter_mut().for_each(|w| *w = self.number(8));
        words
    }
    fn counts(&mut self) -> Counts {
        let mut counts = [0; COUNTS];
        counts.iter_mut().for_each(|c| *c = self.number(4) as u32);
        counts
    }
    fn first(&mut self) -> Vector {
        let operation = self.number(1) as u8;
        let limit = self.number(4) as u32;
        let (a, b) = (self.bytes(), self.bytes());
        let tapes = if operation <= 2 { vec![a] } else { vec![a, b] };
        let (sizes, words) = (self.sizes(), self.words(5));
        let (result, message) = (self.bytes(), self.bytes());
        Vector { operation, limit, file: 0, index: 0, tapes, sizes, counts: None, words, result, message }
    }
    fn second(&mut self) -> Vector {
        let operation = self.number(1) as u8;
        let (limit, file, index) = (self.number(4) as u32, self.number(2) as u16, self.number(4) as u32);
        let tapes = (0..self.number(1)).map(|_| self.bytes()).collect();
        let sizes = self.sizes();
        let given = (self.number(1) == 1).then(|| self.counts());
        let words = self.words(7);
        let (result, message) = (self.bytes(), self.bytes());
        let counts = given.map(|given| Box::new((given, self.counts())));
        Vector { operation, limit, file, index, tapes, sizes, counts, words, result, message }
    }
}

fn read(path: &str) -> Vec<Vector> {
    let bytes = std::fs::read(path).unwrap_or_else(|e| panic!("{path}: {e}"));
    let mut r = Reader { rest: &bytes };
    let second = match r.take(8) {
        b"ORACLEV1" => false,
        b"ORACLEV2" => true,
        _ => panic!("{path} is no list of vectors"),
    };
    let count = r.number(4);
    let list: Vec<Vector> = (0..count).map(|_| if second { r.second() } else { r.first() }).collect();
    assert!(r.rest.is_empty(), "{path}: bytes behind the last vector");
    list
}

// ------------------------------------------------------------------ buffers

const FILL: u8 = 0xA5;
const MARGIN: usize = 33;

struct Framed(Vec<u8>);

impl Framed {
    fn new(size: usize) -> Framed {
        Framed(vec![FILL; size + 2 * MARGIN])
    }
    fn parts(&mut self) -> (*mut u8, usize) {
        let n = self.0.len() - 2 * MARGIN;
        (self.0[MARGIN..].as_mut_ptr(), n)
    }
    fn inner(&self) -> &[u8] {
        &self.0[MARGIN..self.0.len() - MARGIN]
    }
    fn check(&self, what: &str, head: &[u8]) -> Result<(), String> {
        let end = self.0.len() - MARGIN;
        if self.0[..MARGIN].iter().chain(&self.0[end..]).any(|b| *b != FILL) {
            return Err(format!("{what}: written outside the buffer"));
        }
        let inner = self.inner();
        let wanted = |i: usize| head.get(i).copied().unwrap_or(0);
        match (0..inner.len().max(head.len())).find(|i| inner.get(*i).copied() != Some(wanted(*i))) {
            None => Ok(()),
            Some(i) => Err(format!(
                "{what}: byte {i} of {}\n    expected {}\n    got      {}",
                inner.len(),
                hex(head),
                hex(without_zeros(inner))
            )),
        }
    }
}

fn without_zeros(bytes: &[u8]) -> &[u8] {
    &bytes[..bytes.iter().rposition(|b| *b != 0).map_or(0, |i| i + 1)]
}

fn hex(bytes: &[u8]) -> String {
    let shown: String = bytes.iter().take(200).map(|b| format!("{b:02x}")).collect();
    if bytes.len() > 200 { format!("{shown}.. ({} bytes)", bytes.len()) } else { shown }
}

fn tape(bytes: &[u8]) -> String {
    let shown: String = bytes.iter().take(800).map(|b| format!("{b:02x}")).collect();
    if bytes.len() > 800 { format!("{shown}.. ({} bytes)", bytes.len()) } else { shown }
}

// ------------------------------------------------------------------ one vector

fn has(operation: u8) -> bool {
    match operation {
        1 => cfg!(has = "check"),
        2 => cfg!(has = "registry"),
        3 => cfg!(has = "substitute"),
        4 => cfg!(has = "expand"),
        5 => cfg!(has = "preview"),
        6 => cfg!(has = "check_library"),
        7 => cfg!(has = "check_at"),
        8 => cfg!(has = "judge"),
        9 => cfg!(has = "merge"),
        10 => cfg!(has = "older"),
        11 => cfg!(has = "profile"),
        12 => cfg!(has = "provider"),
        13 => cfg!(has = "argument_to_term"),
        14 => cfg!(has = "term_to_argument"),
        16 => cfg!(all(has = "sheet_open", has = "sheet_next")),
        _ => false,
    }
}

#[allow(unused_variables, unreachable_patterns, unused_unsafe)]
fn call(v: &Vector, r: (*mut u8, usize), w: (*mut u8, usize), m: (*mut u8, usize), counts: &mut Counts, words: &mut Words) {
    let t = |i: usize| (v.tapes[i].as_ptr(), v.tapes[i].len());
    let (a, c) = (words.as_mut_ptr(), counts.as_mut_ptr());
    // Every pointer comes with its length from a buffer that outlives the call.
    unsafe {
        match v.operation {
            #[cfg(has = "check")]
            1 => neukolja_check(t(0).0, t(0).1, m.0, m.1, a),
            #[cfg(all(has = "registry", not(counts)))]
            2 => neukolja_registry(t(0).0, t(0).1, m.0, m.1, a),
            #[cfg(all(has = "registry", counts))]
            2 => neukolja_registry(t(0).0, t(0).1, m.0, m.1, c, a),
            #[cfg(all(has = "substitute", not(file)))]
            3 => neukolja_substitute(t(0).0, t(0).1, t(1).0, t(1).1, v.limit, r.0, r.1, w.0, w.1, m.0, m.1, a),
            #[cfg(all(has = "substitute", file))]
            3 => neukolja_substitute(t(0).0, t(0).1, t(1).0, t(1).1, v.limit, v.file, r.0, r.1, w.0, w.1, m.0, m.1, a),
            #[cfg(all(has = "expand", not(file), not(counts)))]
            4 => neukolja_expand(t(0).0, t(0).1, t(1).0, t(1).1, v.limit, r.0, r.1, w.0, w.1, m.0, m.1, a),
            #[cfg(all(has = "expand", file, not(counts)))]
            4 => neukolja_expand(t(0).0, t(0).1, t(1).0, t(1).1, v.limit, v.file, r.0, r.1, w.0, w.1, m.0, m.1, a),
            #[cfg(all(has = "expand", counts))]
            4 => neukolja_expand(t(0).0, t(0).1, t(1).0, t(1).1, v.limit, v.file, r.0, r.1, w.0, w.1, m.0, m.1, c, a),
            #[cfg(has = "preview")]
            5 => neukolja_preview(t(0).0, t(0).1, t(1).0, t(1).1, v.limit, v.file, w.0, w.1, m.0, m.1, a),
            #[cfg(has = "check_library")]
            6 => neukolja_check_library(t(0).0, t(0).1, r.0, r.1, m.0, m.1, a),
            #[cfg(has = "check_at")]
            7 => neukolja_check_at(t(0).0, t(0).1, v.index, m.0, m.1, a),
            #[cfg(has = "judge")]
            8 => neukolja_judge(t(0).0, t(0).1, t(1).0, t(1).1, t(2).0, t(2).1, v.limit, v.file, r.0, r.1, w.0, w.1, m.0, m.1, a),
            #[cfg(has = "merge")]
            9 => neukolja_merge(t(0).0, t(0).1, t(1).0, t(1).1, r.0, r.1, m.0, m.1, a),
            #[cfg(has = "older")]
            10 => neukolja_older(t(0).0, t(0).1, r.0, r.1, a),
            #[cfg(has = "profile")]
            11 => neukolja_profile(t(0).0, t(0).1, a),
            #[cfg(has = "provider")]
            12 => neukolja_provider(t(0).0, t(0).1, a),
            #[cfg(has = "argument_to_term")]
            13 => neukolja_argument_to_term(t(0).0, t(0).1, r.0, r.1, a),
            #[cfg(has = "term_to_argument")]
            14 => neukolja_term_to_argument(t(0).0, t(0).1, r.0, r.1, a),
            _ => unreachable!("not in the archive"),
        }
    }
}

/// What differs, all of it.
fn differences(v: &Vector) -> Vec<String> {
    let [mut result, mut work, mut message] = v.sizes.map(Framed::new);
    let untouched = u64::from_le_bytes([FILL; 8]);
    let mut words = [untouched; WORDS];
    let answers = if v.operation == 5 { 7 } else { 5 };
    let mut counts = match &v.counts {
        Some(counts) => counts.0,
        None if v.operation == 2 => [0xA5A5_A5A5; COUNTS],
        None => [0; COUNTS],
    };
    call(v, result.parts(), work.parts(), message.parts(), &mut counts, &mut words);
    let mut all = Vec::new();
    if words[..answers] != v.words[..answers] {
        all.push(format!(
            "number, start, end, message length, charged{}\n    expected {:?}\n    got      {:?}",
            if answers == 7 { ", N, T" } else { "" },
            &v.words[..answers],
            &words[..answers]
        ));
    }
    if words[answers..].iter().any(|w| *w != untouched) {
        all.push(format!("written behind the {answers} words"));
    }
    all.extend(result.check("result", &v.result).err());
    all.extend(work.check("work", &[]).err());
    all.extend(message.check("message", &v.message).err());
    if cfg!(counts)
        && let Some(expected) = &v.counts
        && counts != expected.1
    {
        let i = (0..COUNTS).find(|i| counts[*i] != expected.1[*i]).unwrap();
        all.push(format!(
            "count of definition {i} (given {:08x})\n    expected {:08x}\n    got      {:08x}",
            expected.0[i], expected.1[i], counts[i]
        ));
    }
    all
}

// ------------------------------------------------------------------ the house sheet

fn standard_input(v: &Vector) -> Vec<u8> {
    match &v.tapes[..] {
        [whole] => whole.clone(),
        [registry, sheet] => [&(registry.len() as u32).to_le_bytes()[..], registry, sheet].concat(),
        _ => panic!("one tape or two"),
    }
}

fn program_differs(v: &Vector, program: &str) -> Vec<String> {
    let mut child = Command::new(program).stdin(Stdio::piped()).stdout(Stdio::piped()).spawn().expect("the program starts");
    let mut input = child.stdin.take().unwrap();
    let bytes = standard_input(v);
    let writer = std::thread::spawn(move || drop(input.write_all(&bytes)));
    let output = child.wait_with_output().expect("the program ends");
    writer.join().unwrap();
    let mut all = lines_differ(v, &output.stdout);
    if !output.status.success() {
        all.push(format!("the program ended with {}", output.status));
    }
    all
}

fn lines_differ(v: &Vector, got: &[u8]) -> Vec<String> {
    if got == v.result {
        return vec![];
    }
    let text = |b: &[u8]| String::from_utf8_lossy(b).replace('\n', " | ");
    vec![format!("lines\n    expected {}\n    got      {}", text(&v.result), text(got))]
}

/// The same lines by open and next. None where the input's own rules decide (it ends early, or the length is too large).
#[cfg(all(has = "sheet_open", has = "sheet_next"))]
fn functions_differ(v: &Vector) -> Option<Vec<String>> {
    let input = standard_input(v);
    let n = u32::from_le_bytes(input.get(..4)?.try_into().ok()?) as usize;
    if n > 12_296 || input.len() < 4 + n {
        return None;
    }
    let (registry, sheet) = input[4..].split_at(n);
    let mut state = [u64::MAX; 5];
    let mut words = [u64::MAX; WORDS];
    let mut counts = [0u32; COUNTS];
    let mut out = String::new();
    let line = |place: u64, w: &Words| format!("{place} {} {} {} {}\n", w[0], w[1], w[2], w[4]);
    unsafe {
        let (r, s) = ((registry.as_ptr(), registry.len()), (sheet.as_ptr(), sheet.len()));
        let mut m = Framed::new(2_048);
        let mp = m.parts();
        neukolja_sheet_open(r.0, r.1, s.0, s.1, 1_000, 0, mp.0, mp.1, state.as_mut_ptr(), words.as_mut_ptr());
        if words[0] != 0 {
            out += &line(0, &words);
        } else {
            let mut place = 0;
            while state[1] != 0 && place < 40 {
                let (mut rb, mut wb, mut mb) = (Framed::new(12_296), Framed::new(65_536), Framed::new(2_048));
                let (rp, wp, mp) = (rb.parts(), wb.parts(), mb.parts());
                neukolja_sheet_next(
                    r.0, r.1, s.0, s.1, state.as_mut_ptr(), rp.0, rp.1, wp.0, wp.1, mp.0, mp.1, counts.as_mut_ptr(),
                    words.as_mut_ptr(),
                );
                place += 1;
                out += &line(place, &words);
            }
        }
    }
    Some(lines_differ(v, out.as_bytes()))
}

#[cfg(not(all(has = "sheet_open", has = "sheet_next")))]
fn functions_differ(_: &Vector) -> Option<Vec<String>> {
    None
}

// ------------------------------------------------------------------ all

static AT: std::sync::atomic::AtomicU64 = std::sync::atomic::AtomicU64::new(0);

extern "C" fn crashed(number: i32) {
    let at = AT.load(std::sync::atomic::Ordering::Relaxed);
    let text = format!("the archive was ended by signal {number} at vector {} (operation {})\n", at >> 8, at & 255);
    unsafe {
        write(1, text.as_ptr(), text.len());
        _exit(3)
    }
}

fn main() -> ExitCode {
    let (mut program, mut shown, mut files, mut only) = (None, 5, vec![], None);
    let mut args = std::env::args().skip(1);
    while let Some(arg) = args.next() {
        let mut value = || args.next().unwrap_or_else(|| panic!("something belongs behind {arg}"));
        match arg.as_str() {
            "--program" => program = Some(value()),
            "--shown" => shown = value().parse().expect("a number"),
            "--vector" => only = Some(value().parse::<usize>().expect("a number")),
            _ => files.push(arg),
        }
    }
    for number in [4, 6, 7, 8, 11] {
        unsafe { signal(number, crashed as *const () as usize) };
    }
    // The deepest inputs take some 340 KB of stack; a thread has 2 MB.
    let done = std::thread::Builder::new()
        .stack_size(16 << 20)
        .spawn(move || files.iter().map(|file| replay(file, program.as_deref(), shown, only)).sum::<usize>())
        .unwrap()
        .join();
    match done {
        Ok(0) => ExitCode::SUCCESS,
        _ => ExitCode::FAILURE,
    }
}

fn replay(path: &str, program: Option<&str>, shown: usize, only: Option<usize>) -> usize {
    let list = read(path);
    // by operation: agreeing, all, not run
    let mut tally: BTreeMap<u8, [usize; 3]> = BTreeMap::new();
    let mut printed: BTreeMap<u8, usize> = BTreeMap::new();
    println!("{path}: {} vectors", list.len());
    for (i, v) in list.iter().enumerate().filter(|(i, _)| only.is_none_or(|o| o == *i)) {
        AT.store((i as u64) << 8 | u64::from(v.operation), std::sync::atomic::Ordering::Relaxed);
        let mut ran: Vec<(u8, Option<Vec<String>>)> = Vec::new();
        match v.operation {
            15 => {
                ran.push((15, program.map(|p| program_differs(v, p))));
                if has(16) {
                    ran.push((16, functions_differ(v)));
                }
            }
            o => ran.push((o, has(o).then(|| differences(v)))),
        }
        for (operation, found) in ran {
            let counts = tally.entry(operation).or_default();
            counts[1] += 1;
            match found {
                None => counts[2] += 1,
                Some(found) if found.is_empty() => counts[0] += 1,
                Some(found) => {
                    let n = printed.entry(operation).or_default();
                    *n += 1;
                    if *n <= shown {
                        print_difference(i, operation, v, &found);
                    }
                }
            }
        }
    }
    let mut differ = 0;
    for (operation, [agree, all, not_run]) in &tally {
        differ += all - agree - not_run;
        let rest = if *not_run > 0 { format!(", {not_run} not run") } else { String::new() };
        println!("{:>18}: {agree} of {all} agree{rest}", NAMES[usize::from(*operation)]);
    }
    println!("{:>18}: {differ} differ", "all");
    differ
}

fn print_difference(i: usize, operation: u8, v: &Vector, found: &[String]) {
    println!("vector {i}, {}, limit {}, file {}, index {}, buffers {:?}", NAMES[usize::from(operation)], v.limit, v.file, v.index, v.sizes);
    for (k, t) in v.tapes.iter().enumerate() {
        println!("  tape {k} ({} bytes) {}", t.len(), tape(t));
    }
    if !v.message.is_empty() {
        println!("  expected message: {}", String::from_utf8_lossy(&v.message));
    }
    found.iter().for_each(|f| println!("  {f}"));
}
