//! Lists of cases with their answers, in the format that README.md gives.

use crate::case::{self, Answer, COUNTS, Case, Counts, OPERATIONS, Operation, Words};

const MARK: &[u8; 8] = b"ORACLEV3";
/// Lists from elsewhere, with another spelling of the counts; read and not written.
const OTHER_MARK: &[u8; 8] = b"ORACLEV2";

pub fn write(vectors: &[(Case, Answer)]) -> Vec<u8> {
    let mut out = MARK.to_vec();
    put_u32(&mut out, vectors.len());
    for (case, answer) in vectors {
        out.push(case.operation.number());
        put_u32(&mut out, case.limit as usize);
        out.extend_from_slice(&case.file.to_le_bytes());
        put_u32(&mut out, case.index as usize);
        out.push(case.tapes.len() as u8);
        case.tapes.iter().for_each(|tape| put_bytes(&mut out, tape));
        case.sizes.iter().for_each(|n| put_u32(&mut out, *n));
        answer.words().iter().for_each(|n| out.extend_from_slice(&n.to_le_bytes()));
        put_bytes(&mut out, without_zeros(&answer.result));
        put_bytes(&mut out, without_zeros(&answer.message));
        [&case.counts, &answer.counts].into_iter().for_each(|counts| put_counts(&mut out, counts));
    }
    out
}

fn put_u32(out: &mut Vec<u8>, n: usize) {
    out.extend_from_slice(&u32::try_from(n).expect("below 2^32").to_le_bytes());
}

fn put_bytes(out: &mut Vec<u8>, bytes: &[u8]) {
    put_u32(out, bytes.len());
    out.extend_from_slice(bytes);
}

fn put_counts(out: &mut Vec<u8>, counts: &Counts) {
    put_bytes(out, &case::used_bytes(counts));
}

/// What stands before the zeros at the end of a buffer.
pub fn without_zeros(bytes: &[u8]) -> &[u8] {
    let end = bytes.iter().rposition(|b| *b != 0).map_or(0, |i| i + 1);
    &bytes[..end]
}

/// A case with what a list expects of it: the seven words, the two buffers without the zeros at their ends, the counts.
pub struct Expected {
    pub case: Case,
    pub words: Words,
    pub result: Vec<u8>,
    pub message: Vec<u8>,
    pub counts: Counts,
}

pub fn read(bytes: &[u8]) -> Result<Vec<Expected>, String> {
    let mut r = Reader { rest: bytes };
    let mark = r.take(8)?;
    if mark != MARK && mark != OTHER_MARK {
        return Err("no list of vectors".to_string());
    }
    let count = r.u32()?;
    let vectors = (0..count).map(|_| r.vector(mark == MARK)).collect::<Result<Vec<_>, _>>()?;
    if r.rest.is_empty() { Ok(vectors) } else { Err(format!("{} bytes behind the last vector", r.rest.len())) }
}

struct Reader<'a> {
    rest: &'a [u8],
}

impl<'a> Reader<'a> {
    fn take(&mut self, n: usize) -> Result<&'a [u8], String> {
        let (taken, rest) = self.rest.split_at_checked(n).ok_or("the list ends inside a vector")?;
        self.rest = rest;
        Ok(taken)
    }

    fn u32(&mut self) -> Result<u32, String> {
        Ok(u32::from_le_bytes(self.take(4)?.try_into().expect("4 bytes")))
    }

    fn u64(&mut self) -> Result<u64, String> {
        Ok(u64::from_le_bytes(self.take(8)?.try_into().expect("8 bytes")))
    }

    fn bytes(&mut self) -> Result<Vec<u8>, String> {
        let n = self.u32()?;
        Ok(self.take(n as usize)?.to_vec())
    }

    fn operation(&mut self) -> Result<Operation, String> {
        let number = self.take(1)?[0];
        OPERATIONS.into_iter().find(|o| o.number() == number).ok_or(format!("no operation {number}"))
    }

    /// Counts in so many bytes, and zeros behind them.
    fn counts(&mut self, length: usize) -> Result<Counts, String> {
        let mut counts = [0; COUNTS];
        let (words, rest) = self.take(length)?.as_chunks::<4>();
        if !rest.is_empty() || words.len() > COUNTS {
            return Err(format!("counts of {length} bytes"));
        }
        words.iter().zip(&mut counts).for_each(|(word, count)| *count = u32::from_le_bytes(*word));
        Ok(counts)
    }

    fn vector(&mut self, ours: bool) -> Result<Expected, String> {
        let (operation, limit) = (self.operation()?, self.u32()?);
        let file = u16::from_le_bytes(self.take(2)?.try_into().expect("2 bytes"));
        let index = self.u32()?;
        let count = self.take(1)?[0];
        let mut tapes = (0..count).map(|_| self.bytes()).collect::<Result<Vec<_>, _>>()?;
        if let (Operation::Sheet, [registry, sheet]) = (operation, &tapes[..]) {
            // They are what the program reads, the registry with its length before it.
            tapes = vec![[&(registry.len() as u32).to_le_bytes()[..], registry, sheet].concat()];
        }
        let mut sizes = [self.u32()? as usize, self.u32()? as usize, self.u32()? as usize];
        if operation == Operation::Sheet {
            sizes = operation.buffers();
        }
        let given = !ours && self.take(1)?[0] == 1;
        let mut counts = if given { self.counts(4 * COUNTS)? } else { [0; COUNTS] };
        let mut words = [0; 7];
        for word in &mut words {
            *word = self.u64()?;
        }
        let (result, message) = (self.bytes()?, self.bytes()?);
        if ours {
            let length = self.u32()? as usize;
            counts = self.counts(length)?;
        }
        let length = if ours { self.u32()? as usize } else { 4 * COUNTS * usize::from(given) };
        let case = Case { operation, limit, file, index, counts, tapes, sizes };
        Ok(Expected { case, words, result, message, counts: self.counts(length)? })
    }
}
