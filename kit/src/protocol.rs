//! Requests and responses as bytes. docs/SUPPLIER.md describes them.

use crate::response::Response;
use differential::case::{self, COUNTS, Case, Counts, OPERATIONS, Operation};
use differential::vectors::without_zeros;
use std::io::{self, BufRead, Read};

/// The operation of the request that asks what a head is and what it can do.
pub const HELLO: u8 = 0;

/// Longer frames are garbage: a request holds at most three tapes, or one sheet.
pub const LONGEST_FRAME: usize = 1 << 20;

/// No operation takes a tape that is as long as this: the longest that is accepted has 12,296 bytes.
const LONGEST_TAPE: usize = 1 << 16;

/// A frame as it goes over a pipe: its length and its bytes.
fn framed(body: &[u8]) -> Vec<u8> {
    [&(body.len() as u32).to_le_bytes(), body].concat()
}

/// The next frame, or nothing where the stream ends before one.
pub fn read_frame(from: &mut impl BufRead) -> io::Result<Option<Vec<u8>>> {
    let mut length = [0; 4];
    let Some(first) = from.by_ref().bytes().next().transpose()? else { return Ok(None) };
    length[0] = first;
    from.read_exact(&mut length[1..])?;
    let length = u32::from_le_bytes(length) as usize;
    if length > LONGEST_FRAME {
        return Err(io::Error::other(format!("a frame of {length} bytes, where {LONGEST_FRAME} are the most")));
    }
    let mut body = vec![0; length];
    from.read_exact(&mut body)?;
    Ok(Some(body))
}

pub fn hello(id: u32) -> Vec<u8> {
    let mut body = id.to_le_bytes().to_vec();
    body.push(HELLO);
    framed(&body)
}

pub fn request(id: u32, case: &Case) -> Vec<u8> {
    let mut body = id.to_le_bytes().to_vec();
    body.push(case.operation.number());
    body.extend(case.limit.to_le_bytes());
    body.extend(case.file.to_le_bytes());
    body.extend(case.index.to_le_bytes());
    case.sizes.iter().for_each(|size| body.extend((*size as u32).to_le_bytes()));
    put_bytes(&mut body, &case::used_bytes(&case.counts));
    body.push(case.tapes.len() as u8);
    case.tapes.iter().for_each(|tape| put_bytes(&mut body, tape));
    framed(&body)
}

pub fn response(id: u32, response: &Response) -> Vec<u8> {
    let mut body = id.to_le_bytes().to_vec();
    response.words.iter().for_each(|word| body.extend(word.to_le_bytes()));
    put_bytes(&mut body, &response.result);
    put_bytes(&mut body, &response.message);
    put_bytes(&mut body, &case::used_bytes(&response.counts));
    framed(&body)
}

/// Whether the request is no longer than a frame may be.
pub fn fits(case: &Case) -> bool {
    let is_short = case.bytes() < LONGEST_FRAME / 2;
    is_short || request(0, case).len() <= 4 + LONGEST_FRAME
}

/// The case with long tapes cut off, if otherwise no frame has room for it; none if there is nothing to cut, as of a sheet.
/// Such a tape is refused for its sizes, if these are over the largest figures, and otherwise for its length, which is
/// another than they say. It has both sizes still and is as long as that, so the number is the one of the whole tape.
pub fn cut_to_fit(mut case: Case) -> Option<Case> {
    if fits(&case) {
        return Some(case);
    }
    if case.operation != Operation::Sheet {
        case.tapes.iter_mut().for_each(|tape| tape.truncate(LONGEST_TAPE));
    }
    fits(&case).then_some(case)
}

/// Whether buffers may be so large: what is put into them goes back in a frame.
pub fn check_sizes(sizes: &[usize; 3]) -> Result<(), String> {
    match sizes.iter().find(|size| **size > LONGEST_FRAME) {
        Some(size) => Err(format!("a buffer of {size} bytes, where {LONGEST_FRAME} are the most")),
        None => Ok(()),
    }
}

fn put_bytes(out: &mut Vec<u8>, bytes: &[u8]) {
    out.extend((bytes.len() as u32).to_le_bytes());
    out.extend_from_slice(bytes);
}

/// What a request asks.
#[derive(Debug, PartialEq, Eq)]
pub enum Asked {
    Hello,
    Case(Box<Case>),
    /// An operation that this checkout does not know.
    Unknown(u8),
}

/// A request's id and what it asks.
pub fn read_request(body: &[u8]) -> Result<(u32, Asked), String> {
    let mut r = Reader { rest: body };
    let (id, number) = (r.u32()?, r.take(1)?[0]);
    if number == HELLO {
        return Ok((id, Asked::Hello));
    }
    let Some(operation) = OPERATIONS.into_iter().find(|operation| operation.number() == number) else {
        return Ok((id, Asked::Unknown(number)));
    };
    let case = r.case(operation)?;
    r.end()?;
    Ok((id, Asked::Case(Box::new(case))))
}

/// A response's id and what it says.
pub fn read_response(body: &[u8]) -> Result<(u32, Response), String> {
    let mut r = Reader { rest: body };
    let id = r.u32()?;
    let mut words = [0; 7];
    for word in &mut words {
        *word = u64::from_le_bytes(r.take(8)?.try_into().expect("8 bytes"));
    }
    let [result, message] = [r.bytes()?, r.bytes()?].map(|bytes| without_zeros(bytes).to_vec());
    let counts = r.counts()?;
    r.end()?;
    Ok((id, Response { words, result, message, counts }))
}

struct Reader<'a> {
    rest: &'a [u8],
}

impl<'a> Reader<'a> {
    fn take(&mut self, n: usize) -> Result<&'a [u8], String> {
        let (taken, rest) = self.rest.split_at_checked(n).ok_or("the frame ends too early")?;
        self.rest = rest;
        Ok(taken)
    }

    fn u32(&mut self) -> Result<u32, String> {
        Ok(u32::from_le_bytes(self.take(4)?.try_into().expect("4 bytes")))
    }

    fn bytes(&mut self) -> Result<&'a [u8], String> {
        let length = self.u32()? as usize;
        self.take(length)
    }

    fn counts(&mut self) -> Result<Counts, String> {
        let (words, rest) = self.bytes()?.as_chunks::<4>();
        if !rest.is_empty() || words.len() > COUNTS {
            return Err(format!("{} counts, and {} bytes", words.len(), rest.len()));
        }
        let mut counts = [0; COUNTS];
        words.iter().zip(&mut counts).for_each(|(word, count)| *count = u32::from_le_bytes(*word));
        Ok(counts)
    }

    fn case(&mut self, operation: Operation) -> Result<Case, String> {
        let limit = self.u32()?;
        let file = u16::from_le_bytes(self.take(2)?.try_into().expect("2 bytes"));
        let index = self.u32()?;
        let sizes = [self.u32()? as usize, self.u32()? as usize, self.u32()? as usize];
        check_sizes(&sizes)?;
        let counts = self.counts()?;
        let count = self.take(1)?[0];
        let tapes = (0..count).map(|_| self.bytes().map(<[u8]>::to_vec)).collect::<Result<Vec<_>, _>>()?;
        if tapes.len() != operation.roots().len().max(1) {
            return Err(format!("{} tapes for {}", tapes.len(), operation.name()));
        }
        let mut case = Case::new(operation, limit, tapes);
        (case.file, case.index, case.counts, case.sizes) = (file, index, counts, sizes);
        Ok(case)
    }

    fn end(&self) -> Result<(), String> {
        if self.rest.is_empty() {
            Ok(())
        } else {
            Err(format!("{} bytes behind the frame's last part", self.rest.len()))
        }
    }
}

#[cfg(test)]
mod tests {
    use super::*;
    use crate::archive;
    use differential::generate;

    #[test]
    fn requests_and_responses_come_back() {
        for index in 0..200 {
            let case = generate::case(3, index);
            let mut pipe = io::Cursor::new(request(index as u32, &case));
            let body = read_frame(&mut pipe).expect("a frame").expect("a frame");
            assert!(read_request(&body) == Ok((index as u32, Asked::Case(Box::new(case.clone())))));
            let answer = archive::by_model(&case);
            let mut pipe = io::Cursor::new(response(7, &answer));
            let body = read_frame(&mut pipe).expect("a frame").expect("a frame");
            assert!(read_response(&body) == Ok((7, answer)));
        }
    }

    /// The generator now and then makes a tree of a hundred thousand entries.
    #[test]
    fn no_request_is_too_long() {
        let case = generate::case(20261127, 1174170);
        assert!(!fits(&case) && case.tapes.iter().any(|tape| tape.len() > LONGEST_FRAME));
        let cut = cut_to_fit(case.clone()).expect("it can be cut");
        let body = request(1, &cut);
        assert!(read_frame(&mut &body[..]).expect("a frame").is_some());
        assert!(archive::by_model(&cut) == archive::by_model(&case));
        // One whose sizes are small is refused with 2, cut or whole.
        let mut case = Case::new(Operation::Profile, 0, vec![vec![0; LONGEST_FRAME]]);
        assert!(!fits(&case));
        let cut = cut_to_fit(case.clone()).expect("it can be cut");
        assert!(archive::by_model(&cut) == archive::by_model(&case) && archive::by_model(&case).number() == 2);
        case.operation = Operation::Sheet;
        assert!(cut_to_fit(case).is_none());
        let usual = generate::case(1, 7);
        assert!(cut_to_fit(usual.clone()) == Some(usual));
    }

    /// Read by byte, and a signal comes before each.
    struct Interrupted<'a>(&'a [u8], bool);

    impl Read for Interrupted<'_> {
        fn read(&mut self, into: &mut [u8]) -> io::Result<usize> {
            self.1 = !self.1;
            if self.1 { Err(io::ErrorKind::Interrupted.into()) } else { self.0.read(&mut into[..1]) }
        }
    }

    #[test]
    fn a_signal_is_not_the_end() {
        let bytes = framed(b"abc");
        let mut pipe = io::BufReader::new(Interrupted(&bytes, false));
        assert_eq!(read_frame(&mut pipe).expect("a frame").as_deref(), Some(&b"abc"[..]));
        assert!(read_frame(&mut pipe).expect("the end").is_none());
    }

    #[test]
    fn garbage_is_refused() {
        assert!(read_frame(&mut io::Cursor::new([255; 8])).is_err());
        assert!(read_frame(&mut io::Cursor::new([9, 0, 0, 0, 1])).is_err());
        assert!(read_frame(&mut io::Cursor::new([])).expect("the end").is_none());
        assert!(read_response(&[0; 20]).is_err());
        assert!(read_request(&[0, 0, 0, 0, 4, 1]).is_err());
        assert!(matches!(read_request(&[0, 0, 0, 0, 99]), Ok((0, Asked::Unknown(99)))));
    }
}
