//! A head that answers by the model of an earlier version's `differential`: for pairing with a version whose archive nobody
//! has built, and for the tests, which have no archive. `kit/heads/build-model` compiles it. What that version has beyond the
//! first one, file numbers, counts, the index of check_at, the sizes of a preview, weeks and accents, is read from its source,
//! and is a feature here.

#[cfg(feature = "counts")]
use differential::case::{COUNTS, Counts};
use differential::case::{Case, OPERATIONS, Operation};
use differential::model;
use std::io::{self, Read, Write};

struct Frame<'a> {
    rest: &'a [u8],
}

impl<'a> Frame<'a> {
    fn take(&mut self, n: usize) -> &'a [u8] {
        let (taken, rest) = self.rest.split_at(n);
        self.rest = rest;
        taken
    }

    fn u32(&mut self) -> u32 {
        u32::from_le_bytes(self.take(4).try_into().expect("4 bytes"))
    }

    #[cfg(feature = "files")]
    fn u16(&mut self) -> u16 {
        u16::from_le_bytes(self.take(2).try_into().expect("2 bytes"))
    }

    fn bytes(&mut self) -> &'a [u8] {
        let length = self.u32() as usize;
        self.take(length)
    }
}

fn without_zeros(bytes: &[u8]) -> &[u8] {
    &bytes[..bytes.iter().rposition(|byte| *byte != 0).map_or(0, |last| last + 1)]
}

fn put_bytes(out: &mut Vec<u8>, bytes: &[u8]) {
    out.extend((bytes.len() as u32).to_le_bytes());
    out.extend_from_slice(bytes);
}

fn response(id: u32, words: [u64; 7], result: &[u8], message: &[u8], counts: &[u8]) -> Vec<u8> {
    let mut body = id.to_le_bytes().to_vec();
    words.iter().for_each(|word| body.extend(word.to_le_bytes()));
    [without_zeros(result), without_zeros(message), counts].iter().for_each(|bytes| put_bytes(&mut body, bytes));
    [&(body.len() as u32).to_le_bytes()[..], &body].concat()
}

fn hello(id: u32) -> Vec<u8> {
    let names: Vec<&str> = OPERATIONS.into_iter().map(|operation| operation.name()).collect();
    let mut features = vec!["sizes"];
    features.extend(cfg!(feature = "counts").then_some("counts"));
    features.extend(cfg!(feature = "files").then_some("files"));
    features.extend(cfg!(feature = "utf8").then_some("utf8"));
    features.extend(cfg!(feature = "weeks").then_some("weeks"));
    let (names, features) = (names.join(" "), features.join(" "));
    let hello = format!("name an earlier version's model\noperations {names}\nfeatures {features}\n");
    response(id, [0; 7], hello.as_bytes(), &[], &[])
}

#[cfg(feature = "counts")]
fn counts_of(bytes: &[u8]) -> Counts {
    let mut counts = [0; COUNTS];
    let words = bytes.chunks_exact(4).map(|word| u32::from_le_bytes(word.try_into().expect("4 bytes")));
    counts.iter_mut().zip(words).for_each(|(count, word)| *count = word);
    counts
}

/// Without the zeros at their end, and nothing where the operation hands none back.
#[cfg(feature = "counts")]
fn counts_bytes(case: &Case, counts: &Counts) -> Vec<u8> {
    let last = counts.iter().rposition(|count| *count != 0).filter(|_| case.operation.has_counts());
    last.map_or(vec![], |last| counts[..=last].iter().flat_map(|count| count.to_le_bytes()).collect())
}

/// The case of a request, whose id and operation are read.
fn case(operation: Operation, frame: &mut Frame) -> Case {
    let mut case = Case::new(operation, frame.u32(), vec![]);
    #[cfg(feature = "files")]
    (case.file = frame.u16());
    #[cfg(not(feature = "files"))]
    frame.take(2);
    let _index = frame.u32();
    #[cfg(feature = "index")]
    (case.index = _index);
    case.sizes = [frame.u32(), frame.u32(), frame.u32()].map(|size| size as usize);
    let _counts = frame.bytes();
    #[cfg(feature = "counts")]
    (case.counts = counts_of(_counts));
    let count = frame.take(1)[0];
    case.tapes = (0..count).map(|_| frame.bytes().to_vec()).collect();
    case
}

fn answer(body: &[u8]) -> Vec<u8> {
    let mut frame = Frame { rest: body };
    let (id, number) = (frame.u32(), frame.take(1)[0]);
    let Some(operation) = OPERATIONS.into_iter().find(|operation| operation.number() == number) else {
        return hello(id);
    };
    let case = case(operation, &mut frame);
    let (a, _) = model::answer(&case);
    #[cfg(feature = "preview")]
    let [entries, text] = a.size;
    #[cfg(not(feature = "preview"))]
    let [entries, text] = [0; 2];
    #[cfg(feature = "counts")]
    let counts = counts_bytes(&case, &a.counts);
    #[cfg(not(feature = "counts"))]
    let counts = [];
    let words = [a.number, a.start, a.end, a.message.len() as u64, a.charged, entries, text];
    response(id, words, &a.result, &a.message, &counts)
}

fn main() -> io::Result<()> {
    let (mut from, mut to) = (io::stdin().lock(), io::stdout().lock());
    let mut length = [0; 4];
    while from.read_exact(&mut length).is_ok() {
        let mut body = vec![0; u32::from_le_bytes(length) as usize];
        from.read_exact(&mut body)?;
        to.write_all(&answer(&body))?;
        to.flush()?;
    }
    Ok(())
}
