//! An expander behind the protocol, on standard input and output.

use crate::archive::Expander;
use crate::protocol::{self, Asked};
use crate::response::Response;
use differential::case::{COUNTS, Case, Operation};
use std::io::{self, BufReader, BufWriter, Read, Write};

/// Something that answers cases.
pub trait Head {
    /// What it says of itself.
    fn hello(&self) -> Hello;

    fn answer(&mut self, case: &Case) -> Response;

    /// The bytes that it sends for a case. A head that breaks the protocol sends others.
    fn send(&mut self, id: u32, case: &Case, out: &mut dyn Write) -> io::Result<()> {
        let response = self.answer(case);
        out.write_all(&protocol::response(id, &response))
    }
}

/// What a head says of itself: three lines of text.
#[derive(Clone, Debug, Default, PartialEq, Eq)]
pub struct Hello {
    pub name: String,
    pub operations: Vec<String>,
    pub features: Vec<String>,
}

/// The registry state is taken and handed back; file numbers other than 0, buffer sizes other than the least ones, texts
/// that are not ASCII, and weeks are taken. A head without one of these is not sent such cases; one without weeks is sent
/// the older tape.
pub const FEATURES: [&str; 5] = ["counts", "files", "sizes", "utf8", "weeks"];

impl Hello {
    pub fn of(name: &str, operations: &[Operation]) -> Hello {
        let operations = operations.iter().map(|operation| operation.name().to_string()).collect();
        Hello { name: name.to_string(), operations, features: FEATURES.map(str::to_string).to_vec() }
    }

    pub fn text(&self) -> String {
        let (operations, features) = (self.operations.join(" "), self.features.join(" "));
        format!("name {}\noperations {operations}\nfeatures {features}\n", self.name)
    }

    /// Lines that begin with other words are for later.
    pub fn parse(text: &[u8]) -> Result<Hello, String> {
        let text = std::str::from_utf8(text).map_err(|_| "its hello is no UTF-8")?;
        let line = |word: &str| text.lines().find_map(|line| line.strip_prefix(word)).map(str::trim);
        let words = |word: &str| line(word).unwrap_or("").split_whitespace().map(str::to_string).collect::<Vec<_>>();
        let operations = words("operations ");
        if operations.is_empty() {
            return Err("its hello names no operations".to_string());
        }
        Ok(Hello { name: line("name ").unwrap_or("").to_string(), operations, features: words("features ") })
    }

    pub fn has_operation(&self, operation: Operation) -> bool {
        self.operations.iter().any(|has| has == operation.name())
    }

    pub fn has(&self, feature: &str) -> bool {
        self.features.iter().any(|has| has == feature)
    }
}

/// Answers requests until there are no more.
pub fn serve(head: &mut dyn Head, from: impl Read, to: impl Write) -> Result<(), String> {
    let (mut from, mut to) = (BufReader::with_capacity(1 << 16, from), BufWriter::with_capacity(1 << 16, to));
    let mut step = || -> Result<bool, String> {
        let Some(body) = protocol::read_frame(&mut from).map_err(|e| e.to_string())? else { return Ok(false) };
        let (id, asked) = protocol::read_request(&body)?;
        let sent = match asked {
            Asked::Case(case) => head.send(id, &case, &mut to),
            Asked::Hello => to.write_all(&protocol::response(id, &plain(0, head.hello().text().as_bytes()))),
            Asked::Unknown(_) => to.write_all(&protocol::response(id, &plain(2, &[]))),
        };
        // As long as more has come in already, answers are collected.
        let flushed = if from.buffer().is_empty() { sent.and_then(|()| to.flush()) } else { sent };
        flushed.map_err(|e| e.to_string()).map(|()| true)
    };
    while step()? {}
    to.flush().map_err(|e| e.to_string())
}

/// A response with a number and a result, and nothing else.
fn plain(number: u64, result: &[u8]) -> Response {
    let mut words = [0; 7];
    words[0] = number;
    Response { words, result: result.to_vec(), message: vec![], counts: [0; COUNTS] }
}

/// This checkout's archive, or its model where no archive is linked.
pub struct Ours {
    expander: Expander,
    by_model: bool,
}

impl Ours {
    pub fn new(by_model: bool) -> Ours {
        let expander = Expander::default();
        let by_model = by_model || !expander.has_archive();
        Ours { expander, by_model }
    }
}

impl Head for Ours {
    fn hello(&self) -> Hello {
        match self.by_model {
            true => Hello::of("neukolja, by the model in differential/", &differential::case::OPERATIONS),
            false => Hello::of("neukolja, the archive", &self.expander.operations()),
        }
    }

    fn answer(&mut self, case: &Case) -> Response {
        if self.by_model { crate::archive::by_model(case) } else { self.expander.answer(case) }
    }
}

#[cfg(test)]
mod tests {
    use super::*;
    use differential::generate;

    #[test]
    fn a_head_answers_what_it_is_asked() {
        let case = generate::case(5, 1);
        let mut asked = protocol::hello(1);
        asked.extend(protocol::request(2, &case));
        let mut answers = Vec::new();
        serve(&mut Ours::new(true), &asked[..], &mut answers).expect("served");
        let mut pipe = &answers[..];
        let mut next = || {
            let body = protocol::read_frame(&mut pipe).expect("a frame").expect("a frame");
            protocol::read_response(&body).expect("a response")
        };
        let (id, response) = next();
        assert_eq!((id, Hello::parse(&response.result)), (1, Ok(Ours::new(true).hello())));
        assert!(next() == (2, crate::archive::by_model(&case)));
    }
}
