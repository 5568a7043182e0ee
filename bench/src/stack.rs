//! How much stack the deepest inputs take.

use crate::count;
use crate::families::{since, tp};
use crate::inputs::{call, condition, condition_call, definition, hours, list, predicate};
use differential::case::{Case, Operation};
use differential::compare::Machine;
use differential::provider;
use differential::tape::{Node, encode};
use std::ffi::c_void;

/// A function's name, what is deep in its input, and the bytes of stack that it takes.
type Row = (&'static str, &'static str, usize);

pub fn measured(machine: &mut dyn Machine) -> Vec<Row> {
    let there: Vec<_> = deepest().into_iter().filter(|(_, case)| machine.has(case.operation)).collect();
    let measure = |(what, case): (_, Case)| (case.operation.name(), what, bytes(|| count::by_archive(&case, machine)));
    let mut rows: Vec<Row> = there.into_iter().map(measure).collect();
    if machine.has_steps() {
        rows.extend(of_a_sheet(true, LEFT.1, machine));
        rows.extend(of_a_sheet(false, RIGHT.1, machine));
    }
    rows
}

/// What is deep in a body and in a rule, to the left and to the right.
const LEFT: (&str, &str) = ("a body of 62 Since to the left", "60 Since to the left, four calls, a body of 62 Since");
const RIGHT: (&str, &str) =
    ("a body of 62 Since to the right", "60 Since to the right, four calls, a body of 62 Since");

/// A sheet of one condition, the deepest rule: opened, and gone through.
fn of_a_sheet(left: bool, rule: &'static str, machine: &mut dyn Machine) -> [Row; 2] {
    let condition = encode(&deep_rule(left));
    let sheet = [&1u32.to_le_bytes()[..], &(condition.len() as u32).to_le_bytes(), &condition].concat();
    let case = Case::new(Operation::Expand, u32::MAX, vec![registry(left), sheet]);
    let mut state = [0; 5];
    let open = bytes(|| count::lend(&case, |lent| machine.open_sheet(&case, lent, &mut state)));
    assert_eq!(state[1], 1, "the sheet was opened");
    let next = bytes(|| count::lend(&case, |lent| machine.next_of_sheet(&case, lent, &mut state)));
    [("sheet_open", rule, open), ("sheet_next", rule, next)]
}

fn deepest() -> Vec<(&'static str, Case)> {
    let sides = [(true, LEFT), (false, RIGHT)];
    let mut all: Vec<_> = sides.into_iter().flat_map(|(left, (body, rule))| made_of_since(left, body, rule)).collect();
    let sets = (0..63).fold(Node::new(75, 0, vec![]), |inner, _| Node::counted(76, 1, vec![inner]));
    let term = provider::term_of(&sets).expect("no field");
    for (operation, tree) in
        [(Operation::Provider, &sets), (Operation::ArgumentToTerm, &sets), (Operation::TermToArgument, &term)]
    {
        all.push(("64 levels", Case::new(operation, 0, vec![encode(tree)])));
    }
    all.sort_by_key(|(_, case)| case.operation);
    all
}

fn made_of_since(left: bool, body: &'static str, rule: &'static str) -> Vec<(&'static str, Case)> {
    let registry = registry(left);
    let (one, called) = (encode(&deep_definition(left)), encode(&call("deep", 7, vec![hours(1)])));
    let deep = encode(&deep_rule(left));
    let bodies = [
        (Operation::Check, vec![one.clone()]),
        (Operation::Registry, vec![registry.clone()]),
        (Operation::Substitute, vec![one, called]),
        (Operation::CheckLibrary, vec![registry.clone()]),
        (Operation::CheckAt, vec![registry.clone()]),
        (Operation::Merge, vec![registry.clone(), registry.clone()]),
        (Operation::Older, vec![registry.clone()]),
    ];
    let rules = [
        (Operation::Expand, vec![registry.clone(), deep.clone()]),
        (Operation::Preview, vec![registry.clone(), deep.clone()]),
        (Operation::Judge, vec![registry, deep.clone(), deep.clone()]),
        (Operation::Profile, vec![deep]),
    ];
    let bodies = bodies.into_iter().map(|(operation, tapes)| (body, operation, tapes));
    let rules = rules.into_iter().map(|(operation, tapes)| (rule, operation, tapes));
    let case = |(what, operation, tapes)| (what, Case::new(operation, u32::MAX, tapes));
    bodies.chain(rules).map(case).collect()
}

fn registry(left: bool) -> Vec<u8> {
    encode(&list(1, vec![deep_definition(left), passing_on()]))
}

/// Nesting 64, as deep as may be: 62 Since, a predicate, and the term in its field.
fn deep_definition(left: bool) -> Node {
    let innermost = predicate("P", "", vec![("f", Node::with_text(33, b"t"))]);
    definition("deep", &["d"], since(62, left, Node::with_text(52, b"d"), innermost, tp(45)))
}

/// `pass(c)` is `?c`.
fn passing_on() -> Node {
    definition("pass", &["c"], Node::new(12, 0, vec![Node::with_text(58, b"c")]))
}

/// Nesting 64 again: 60 Since around four calls inside one another. What it becomes is too large, but only when the
/// innermost call was walked.
fn deep_rule(left: bool) -> Node {
    let innermost = condition_call("deep", 7, vec![hours(1)]);
    let calls = (0..3).fold(innermost, |inner, _| condition_call("pass", 7, vec![condition(inner)]));
    since(60, left, Node::new(50, 1, vec![]), calls, tp(43))
}

// ------------------------------------------------------------------ a stack that can be looked at

/// The size of the stack that is lent.
const SIZE: usize = 4 << 20;
/// What it is full of. A number that no frame is likely to hold eight times.
const PAINT: u64 = 0xA5C3_96E1_5A3C_691E;

/// What the thread is given: what it is to run, and where its stack stood before.
struct Job<'a> {
    run: &'a mut dyn FnMut(),
    top: usize,
}

/// Room for glibc's `pthread_attr_t`.
#[repr(C, align(16))]
struct Attributes([u8; 64]);

unsafe extern "C" {
    fn pthread_attr_init(attributes: *mut Attributes) -> i32;
    fn pthread_attr_setstack(attributes: *mut Attributes, stack: *mut c_void, size: usize) -> i32;
    fn pthread_create(
        thread: *mut usize,
        attributes: *const Attributes,
        start: extern "C" fn(*mut c_void) -> *mut c_void,
        argument: *mut c_void,
    ) -> i32;
    fn pthread_join(thread: usize, value: *mut *mut c_void) -> i32;
}

extern "C" fn start(job: *mut c_void) -> *mut c_void {
    let here = 0u8;
    // SAFETY: the job outlives the thread, which is joined, and nobody else has it meanwhile.
    let job = unsafe { &mut *job.cast::<Job>() };
    job.top = (&raw const here).addr();
    (job.run)();
    std::ptr::null_mut()
}

/// Runs something on a painted stack: the bytes from where it began to the lowest one that lost its paint.
fn bytes(mut run: impl FnMut()) -> usize {
    let mut stack = vec![PAINT; SIZE / 8];
    let mut job = Job { run: &mut run, top: 0 };
    let (mut attributes, mut thread) = (Attributes([0; 64]), 0);
    // SAFETY: the stack is ours, and is neither moved nor looked at before the thread has ended.
    unsafe {
        assert_eq!(pthread_attr_init(&mut attributes), 0, "attributes of a thread");
        let set = pthread_attr_setstack(&mut attributes, stack.as_mut_ptr().cast(), SIZE);
        assert_eq!(set, 0, "a stack of its own");
        let created = pthread_create(&mut thread, &attributes, start, (&raw mut job).cast());
        assert_eq!(created, 0, "a thread on a stack of its own");
        assert_eq!(pthread_join(thread, std::ptr::null_mut()), 0, "a thread that ends");
    }
    let lowest = stack.iter().position(|word| *word != PAINT).expect("the stack was used");
    assert!(lowest > 0, "the stack was too small");
    job.top - stack[lowest..].as_ptr().addr()
}
