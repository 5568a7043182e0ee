//! The expander of this checkout: every call of the archive goes through here.
//!
//! Which of its operations an archive has is known when the kit is built (differential/build.rs reads its index). What it
//! lacks is answered by the model of `differential`, if that knows the operation, and then the output says so.

use crate::response::Response;
pub use differential::archive::LINKED;
use differential::case::{Case, OPERATIONS, Operation};
use differential::compare::{Lent, Machine};
use differential::{archive, model};

/// Who answers an operation.
#[derive(Clone, Copy, Debug, PartialEq, Eq)]
pub enum Who {
    Archive,
    Model,
}

pub struct Expander {
    machine: Option<Box<dyn Machine>>,
    /// Result, work and message, kept from one call to the next.
    buffers: [Vec<u8>; 3],
}

impl Default for Expander {
    fn default() -> Expander {
        Expander { machine: archive::linked(), buffers: Default::default() }
    }
}

impl Expander {
    pub fn has_archive(&self) -> bool {
        self.machine.is_some()
    }

    pub fn who(&self, operation: Operation) -> Who {
        match &self.machine {
            Some(machine) if machine.has(operation) => Who::Archive,
            _ => Who::Model,
        }
    }

    /// The operations that the archive itself answers.
    pub fn operations(&self) -> Vec<Operation> {
        OPERATIONS.into_iter().filter(|operation| self.who(*operation) == Who::Archive).collect()
    }

    /// The archive's answer, or the model's.
    pub fn answer(&mut self, case: &Case) -> Response {
        match self.who(case.operation) {
            Who::Archive => self.archive(case),
            Who::Model => by_model(case),
        }
    }

    fn archive(&mut self, case: &Case) -> Response {
        let machine = self.machine.as_mut().expect("an archive is linked");
        for (buffer, size) in self.buffers.iter_mut().zip(case.sizes) {
            buffer.resize(size, 0);
        }
        let [result, work, message] = &mut self.buffers;
        let (mut words, mut counts) = ([0; 7], case.counts);
        machine.run(case, Lent { result, work, message, counts: &mut counts, answer: &mut words });
        Response::new(case, words, result, message, counts)
    }
}

/// The answer of the scope paper in Rust.
pub fn by_model(case: &Case) -> Response {
    let (answer, _) = model::answer(case);
    Response::new(case, answer.words(), &answer.result, &answer.message, answer.counts)
}
