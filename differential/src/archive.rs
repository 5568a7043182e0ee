//! The archive's functions, if one was linked: those of its operations that it has (see build.rs).

use crate::compare::Machine;

/// The archive that was linked, if one was.
pub const LINKED: Option<&str> = option_env!("ARCHIVE_LINKED");

#[cfg(not(archive))]
pub fn linked() -> Option<Box<dyn Machine>> {
    None
}

#[cfg(archive)]
pub fn linked() -> Option<Box<dyn Machine>> {
    Some(Box::new(functions::Archive))
}

#[cfg(archive)]
mod functions {
    use crate::case::{Case, Counts, Operation};
    #[cfg(archive_has = "sheet_open")]
    use crate::compare::State;
    use crate::compare::{Lent, Machine};

    // In C a slice is two parameters, its pointer and its length; the counts and the answer are arrays, the pointer alone.
    #[rustfmt::skip]
    unsafe extern "C" {
        #[cfg(archive_has = "check")]
        fn neukolja_check(
            definition: *const u8, definition_len: usize, message: *mut u8, message_len: usize, answer: *mut [u64; 5],
        );
        #[cfg(archive_has = "registry")]
        fn neukolja_registry(
            registry: *const u8, registry_len: usize, message: *mut u8, message_len: usize, counts: *mut Counts,
            answer: *mut [u64; 5],
        );
        #[cfg(archive_has = "substitute")]
        fn neukolja_substitute(
            definition: *const u8, definition_len: usize, call: *const u8, call_len: usize, limit: u32, file: u16,
            result: *mut u8, result_len: usize, work: *mut u8, work_len: usize, message: *mut u8, message_len: usize,
            answer: *mut [u64; 5],
        );
        #[cfg(archive_has = "expand")]
        fn neukolja_expand(
            registry: *const u8, registry_len: usize, condition: *const u8, condition_len: usize, limit: u32, file: u16,
            result: *mut u8, result_len: usize, work: *mut u8, work_len: usize, message: *mut u8, message_len: usize,
            counts: *mut Counts, answer: *mut [u64; 5],
        );
        #[cfg(archive_has = "preview")]
        fn neukolja_preview(
            registry: *const u8, registry_len: usize, condition: *const u8, condition_len: usize, limit: u32, file: u16,
            work: *mut u8, work_len: usize, message: *mut u8, message_len: usize, answer: *mut [u64; 7],
        );
        #[cfg(archive_has = "check_library")]
        fn neukolja_check_library(
            registry: *const u8, registry_len: usize, result: *mut u8, result_len: usize,
            message: *mut u8, message_len: usize, answer: *mut [u64; 5],
        );
        #[cfg(archive_has = "check_at")]
        fn neukolja_check_at(
            registry: *const u8, registry_len: usize, index: u32, message: *mut u8, message_len: usize,
            answer: *mut [u64; 5],
        );
        #[cfg(archive_has = "judge")]
        fn neukolja_judge(
            registry: *const u8, registry_len: usize, condition: *const u8, condition_len: usize,
            supplied: *const u8, supplied_len: usize, limit: u32, file: u16,
            result: *mut u8, result_len: usize, work: *mut u8, work_len: usize, message: *mut u8, message_len: usize,
            answer: *mut [u64; 5],
        );
        #[cfg(archive_has = "merge")]
        fn neukolja_merge(
            first: *const u8, first_len: usize, second: *const u8, second_len: usize,
            result: *mut u8, result_len: usize, message: *mut u8, message_len: usize, answer: *mut [u64; 5],
        );
        #[cfg(archive_has = "older")]
        fn neukolja_older(
            tape: *const u8, tape_len: usize, result: *mut u8, result_len: usize, answer: *mut [u64; 5],
        );
        #[cfg(archive_has = "profile")]
        fn neukolja_profile(condition: *const u8, condition_len: usize, answer: *mut [u64; 5]);
        #[cfg(archive_has = "provider")]
        fn neukolja_provider(tape: *const u8, tape_len: usize, answer: *mut [u64; 5]);
        #[cfg(archive_has = "argument_to_term")]
        fn neukolja_argument_to_term(
            tape: *const u8, tape_len: usize, result: *mut u8, result_len: usize, answer: *mut [u64; 5],
        );
        #[cfg(archive_has = "term_to_argument")]
        fn neukolja_term_to_argument(
            tape: *const u8, tape_len: usize, result: *mut u8, result_len: usize, answer: *mut [u64; 5],
        );
        #[cfg(archive_has = "sheet_open")]
        fn neukolja_sheet_open(
            registry: *const u8, registry_len: usize, sheet: *const u8, sheet_len: usize, budget: u32, file: u16,
            message: *mut u8, message_len: usize, state: *mut State, answer: *mut [u64; 5],
        );
        #[cfg(archive_has = "sheet_next")]
        fn neukolja_sheet_next(
            registry: *const u8, registry_len: usize, sheet: *const u8, sheet_len: usize, state: *mut State,
            result: *mut u8, result_len: usize, work: *mut u8, work_len: usize, message: *mut u8, message_len: usize,
            counts: *mut Counts, answer: *mut [u64; 5],
        );
    }

    pub struct Archive;

    impl Machine for Archive {
        fn has(&self, operation: Operation) -> bool {
            match operation {
                Operation::Check => cfg!(archive_has = "check"),
                Operation::Registry => cfg!(archive_has = "registry"),
                Operation::Substitute => cfg!(archive_has = "substitute"),
                Operation::Expand => cfg!(archive_has = "expand"),
                Operation::Preview => cfg!(archive_has = "preview"),
                Operation::CheckLibrary => cfg!(archive_has = "check_library"),
                Operation::CheckAt => cfg!(archive_has = "check_at"),
                Operation::Judge => cfg!(archive_has = "judge"),
                Operation::Merge => cfg!(archive_has = "merge"),
                Operation::Older => cfg!(archive_has = "older"),
                Operation::Profile => cfg!(archive_has = "profile"),
                Operation::Provider => cfg!(archive_has = "provider"),
                Operation::ArgumentToTerm => cfg!(archive_has = "argument_to_term"),
                Operation::TermToArgument => cfg!(archive_has = "term_to_argument"),
                Operation::Sheet => false,
            }
        }

        #[rustfmt::skip]
        fn run(&mut self, case: &Case, lent: Lent) {
            let (a, limit) = (&case.tapes[0], case.limit);
            #[allow(unused_variables)]
            let [b, c] = [1, 2].map(|i| case.tapes.get(i).map_or(&[][..], Vec::as_slice));
            #[allow(unused_variables)]
            let Lent { result: r, work: w, message: m, counts, answer: words } = lent;
            #[allow(unused_variables)]
            let answer = words.first_chunk_mut::<5>().expect("seven words");
            // SAFETY: every pointer comes with its length from a slice that outlives the call, and no two overlap.
            unsafe {
                match case.operation {
                    #[cfg(archive_has = "check")]
                    Operation::Check => neukolja_check(a.as_ptr(), a.len(), m.as_mut_ptr(), m.len(), answer),
                    #[cfg(archive_has = "registry")]
                    Operation::Registry => {
                        neukolja_registry(a.as_ptr(), a.len(), m.as_mut_ptr(), m.len(), counts, answer)
                    }
                    #[cfg(archive_has = "substitute")]
                    Operation::Substitute => neukolja_substitute(
                        a.as_ptr(), a.len(), b.as_ptr(), b.len(), limit, case.file,
                        r.as_mut_ptr(), r.len(), w.as_mut_ptr(), w.len(), m.as_mut_ptr(), m.len(), answer,
                    ),
                    #[cfg(archive_has = "expand")]
                    Operation::Expand => neukolja_expand(
                        a.as_ptr(), a.len(), b.as_ptr(), b.len(), limit, case.file,
                        r.as_mut_ptr(), r.len(), w.as_mut_ptr(), w.len(), m.as_mut_ptr(), m.len(), counts, answer,
                    ),
                    #[cfg(archive_has = "preview")]
                    Operation::Preview => neukolja_preview(
                        a.as_ptr(), a.len(), b.as_ptr(), b.len(), limit, case.file,
                        w.as_mut_ptr(), w.len(), m.as_mut_ptr(), m.len(), words,
                    ),
                    #[cfg(archive_has = "check_library")]
                    Operation::CheckLibrary => neukolja_check_library(
                        a.as_ptr(), a.len(), r.as_mut_ptr(), r.len(), m.as_mut_ptr(), m.len(), answer,
                    ),
                    #[cfg(archive_has = "check_at")]
                    Operation::CheckAt => {
                        neukolja_check_at(a.as_ptr(), a.len(), case.index, m.as_mut_ptr(), m.len(), answer)
                    }
                    #[cfg(archive_has = "judge")]
                    Operation::Judge => neukolja_judge(
                        a.as_ptr(), a.len(), b.as_ptr(), b.len(), c.as_ptr(), c.len(), limit, case.file,
                        r.as_mut_ptr(), r.len(), w.as_mut_ptr(), w.len(), m.as_mut_ptr(), m.len(), answer,
                    ),
                    #[cfg(archive_has = "merge")]
                    Operation::Merge => neukolja_merge(
                        a.as_ptr(), a.len(), b.as_ptr(), b.len(),
                        r.as_mut_ptr(), r.len(), m.as_mut_ptr(), m.len(), answer,
                    ),
                    #[cfg(archive_has = "older")]
                    Operation::Older => neukolja_older(a.as_ptr(), a.len(), r.as_mut_ptr(), r.len(), answer),
                    #[cfg(archive_has = "profile")]
                    Operation::Profile => neukolja_profile(a.as_ptr(), a.len(), answer),
                    #[cfg(archive_has = "provider")]
                    Operation::Provider => neukolja_provider(a.as_ptr(), a.len(), answer),
                    #[cfg(archive_has = "argument_to_term")]
                    Operation::ArgumentToTerm => {
                        neukolja_argument_to_term(a.as_ptr(), a.len(), r.as_mut_ptr(), r.len(), answer)
                    }
                    #[cfg(archive_has = "term_to_argument")]
                    Operation::TermToArgument => {
                        neukolja_term_to_argument(a.as_ptr(), a.len(), r.as_mut_ptr(), r.len(), answer)
                    }
                    #[allow(unreachable_patterns)]
                    _ => unreachable!("the archive has no {}", case.operation.name()),
                }
            }
        }

        fn has_steps(&self) -> bool {
            cfg!(all(archive_has = "sheet_open", archive_has = "sheet_next"))
        }

        #[cfg(archive_has = "sheet_open")]
        #[rustfmt::skip]
        fn open_sheet(&mut self, case: &Case, lent: Lent, state: &mut State) {
            let (a, b, m) = (&case.tapes[0], &case.tapes[1], lent.message);
            let answer = lent.answer.first_chunk_mut::<5>().expect("seven words");
            // SAFETY: as in `run`.
            unsafe {
                neukolja_sheet_open(
                    a.as_ptr(), a.len(), b.as_ptr(), b.len(), case.limit, case.file, m.as_mut_ptr(), m.len(), state,
                    answer,
                );
            }
        }

        #[cfg(archive_has = "sheet_next")]
        #[rustfmt::skip]
        fn next_of_sheet(&mut self, case: &Case, lent: Lent, state: &mut State) {
            let (a, b) = (&case.tapes[0], &case.tapes[1]);
            let Lent { result: r, work: w, message: m, counts, answer } = lent;
            let answer = answer.first_chunk_mut::<5>().expect("seven words");
            // SAFETY: as in `run`.
            unsafe {
                neukolja_sheet_next(
                    a.as_ptr(), a.len(), b.as_ptr(), b.len(), state, r.as_mut_ptr(), r.len(), w.as_mut_ptr(), w.len(),
                    m.as_mut_ptr(), m.len(), counts, answer,
                );
            }
        }
    }
}
