//! The comparison notices machines that answer wrongly: among them the fakes that document 01 names.

use differential::case::{Answer, Case, Operation};
use differential::compare::{self, Lent, Machine};
use differential::{generate, model, upstream};

type Change = fn(&Case, &mut Answer);

/// The model behind the archive's calls, with one fault.
struct Faulty {
    change: Change,
    /// The byte that is left behind what is written, where zeros belong.
    rest: u8,
    work: u8,
}

const FAULTLESS: Faulty = Faulty { change: |_, _| {}, rest: 0, work: 0 };

impl Machine for Faulty {
    fn run(&mut self, case: &Case, lent: Lent) {
        let (mut answer, _) = model::answer(case);
        (self.change)(case, &mut answer);
        fill(lent.result, &answer.result, self.rest);
        fill(lent.message, &answer.message, self.rest);
        lent.work.fill(self.work);
        *lent.counts = answer.counts;
        let words = if case.operation == Operation::Preview { 7 } else { 5 };
        lent.answer[..words].copy_from_slice(&answer.words()[..words]);
    }
}

fn fill(buffer: &mut [u8], head: &[u8], rest: u8) {
    buffer.fill(rest);
    let n = head.len().min(buffer.len());
    buffer[..n].copy_from_slice(&head[..n]);
}

/// How many of the first cases of a campaign are answered wrongly.
fn noticed(mut machine: Faulty) -> usize {
    upstream::quiet_panics();
    (0..1500)
        .filter(|index| {
            let case = generate::case(7, *index);
            let (answer, _, _) = compare::expected(&case).expect("model and upstream agree");
            compare::judge(&mut machine, &case, &answer).is_err()
        })
        .count()
}

#[test]
fn the_model_itself_passes() {
    assert_eq!(noticed(FAULTLESS), 0);
}

#[test]
fn wrong_answers_are_noticed() {
    let changes: [(&str, Change); 20] = [
        ("refuses each call", |case, answer| {
            if case.operation.charges() && answer.charged > 0 {
                *answer = Answer { number: 30, ..Answer::success(case.counts) };
            }
        }),
        ("returns a fixed tree", |_, answer| {
            if !answer.result.is_empty() {
                answer.result = vec![1, 0, 0, 0, 0, 0, 0, 0, 28, 0, 0, 0, 0, 0, 0, 0, 0];
            }
        }),
        ("hands its input back", |case, answer| {
            if case.operation == Operation::Expand && answer.number == 0 {
                answer.result = case.tapes[1].clone();
            }
        }),
        ("invents the charge", |_, answer| answer.charged += u64::from(answer.charged > 0)),
        ("says 35 at once", |case, answer| {
            if case.operation.charges() && answer.number == 0 {
                answer.number = 35;
            }
        }),
        ("passes every definition", |case, answer| {
            if case.operation == Operation::Check && answer.number >= 20 {
                *answer = Answer::success(case.counts);
            }
        }),
        ("refuses every definition", |case, answer| {
            if case.operation == Operation::Check && answer.number == 0 {
                answer.number = 20;
            }
        }),
        ("says 2 for 3", |_, answer| {
            if answer.number == 3 {
                answer.number = 2;
            }
        }),
        ("swaps N and T", |_, answer| answer.size.reverse()),
        ("keeps N on a refusal", |case, answer| {
            if case.operation == Operation::Preview && answer.number == 35 {
                answer.size[0] = 1;
            }
        }),
        ("stops at the first refused definition", |case, answer| {
            if case.operation == Operation::CheckLibrary {
                answer.result.truncate(16);
            }
        }),
        ("counts definitions from 1", |case, answer| {
            if case.operation == Operation::CheckLibrary && !answer.result.is_empty() {
                answer.result[0] += 1;
            }
        }),
        ("swaps start and end of the span of 51", |case, answer| {
            if case.operation == Operation::Merge && answer.number == 51 {
                (answer.start, answer.end) = (answer.end, answer.start);
            }
        }),
        ("says yes to everything", |_, answer| {
            if answer.number == 50 {
                answer.number = 0;
            }
        }),
        ("gives the supplied tape as result", |case, answer| {
            if case.operation == Operation::Judge && answer.number == 0 {
                answer.result = case.tapes[2].clone();
            }
        }),
        ("turns a field into something", |_, answer| {
            if answer.number == 56 {
                answer.number = 0;
            }
        }),
        ("counts on a refusal", |case, answer| {
            if case.operation == Operation::Expand && answer.number >= 30 {
                answer.counts[0] = answer.counts[0].wrapping_add(1);
            }
        }),
        ("counts past the end", |case, answer| {
            for (count, given) in answer.counts.iter_mut().zip(case.counts) {
                *count = if *count == given && given == u32::MAX && answer.charged > 0 { 0 } else { *count };
            }
        }),
        ("forgets a call", |case, answer| {
            let changed = |i: &usize| answer.counts[*i] > case.counts[*i];
            if let Some(i) = (0..answer.counts.len()).find(changed) {
                answer.counts[i] -= 1;
            }
        }),
        ("has a wrong letter in a message", |_, answer| {
            if let Some(last) = answer.message.last_mut() {
                *last ^= 1;
            }
        }),
    ];
    for (what, change) in changes {
        assert!(noticed(Faulty { change, ..FAULTLESS }) > 0, "{what}");
    }
}

#[test]
fn bytes_that_should_be_zero_are_noticed() {
    assert!(noticed(Faulty { rest: 1, ..FAULTLESS }) > 1000);
    assert!(noticed(Faulty { work: 1, ..FAULTLESS }) > 500);
}
