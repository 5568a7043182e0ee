//! What a head wrote to standard error.

use super::progress::grouped;
use std::collections::VecDeque;

/// So many bytes of it are kept: half of them from its beginning, where a panic says what and where, and half from its end.
pub const KEPT: usize = 1 << 16;

#[derive(Clone, Debug, Default, PartialEq, Eq)]
pub struct Complaints {
    first: Vec<u8>,
    last: VecDeque<u8>,
    left_out: u64,
}

impl Complaints {
    pub fn add(&mut self, bytes: &[u8]) {
        let room = (KEPT / 2 - self.first.len()).min(bytes.len());
        self.first.extend_from_slice(&bytes[..room]);
        self.last.extend(&bytes[room..]);
        let over = self.last.len().saturating_sub(KEPT / 2);
        self.last.drain(..over);
        self.left_out += over as u64;
    }

    pub fn is_empty(&self) -> bool {
        self.left_out == 0 && self.first.iter().chain(&self.last).all(u8::is_ascii_whitespace)
    }

    /// All of it as text, or both ends with a line between them that says how much is missing there.
    pub fn text(&self) -> String {
        let last: Vec<u8> = self.last.iter().copied().collect();
        if self.left_out == 0 {
            return String::from_utf8_lossy(&[&self.first[..], &last].concat()).trim().to_string();
        }
        let [first, last] = [&self.first, &last].map(|bytes| String::from_utf8_lossy(bytes).trim().to_string());
        let (missing, half) = (grouped(self.left_out), grouped(KEPT as u64 / 2));
        format!("{first}\n[{missing} bytes left out here, as only the first and the last {half} are kept]\n{last}")
    }

    /// Of a text of one line that line; otherwise nothing.
    pub fn one_line(&self) -> Option<String> {
        let text = self.text();
        (!text.is_empty() && !text.contains('\n')).then_some(text)
    }
}

#[cfg(test)]
mod tests {
    use super::*;

    fn added(pieces: &[&[u8]]) -> Complaints {
        let mut complaints = Complaints::default();
        pieces.iter().for_each(|piece| complaints.add(piece));
        complaints
    }

    #[test]
    fn short_ones_are_kept_whole() {
        let complaints = added(&[b"thread panicked\n", b"why\n"]);
        assert_eq!((complaints.text(), complaints.one_line()), ("thread panicked\nwhy".to_string(), None));
        assert_eq!(added(&[b" why\n"]).one_line(), Some("why".to_string()));
        assert!(added(&[b" \n"]).is_empty() && added(&[]).is_empty());
        let most = vec![b'x'; KEPT];
        assert_eq!(added(&[&most]).text().len(), KEPT);
    }

    #[test]
    fn of_long_ones_both_ends() {
        let middle = vec![b'x'; KEPT + 1000];
        let text = added(&[b"begin", &middle[..999], &middle[999..], b"end"]).text();
        assert!(text.starts_with("beginxxx") && text.ends_with("xxxend"), "{}", text.len());
        assert!(text.contains("\n[1,008 bytes left out here, as only the first and the last 32,768 are kept]\n"));
    }
}
