//! The cases in blocks, several at a time, each with heads of its own; what came of them in the order of the cases.

use super::cases::{Cases, Common};
use super::heads::{Block, Heads};
use super::progress::Progress;
use super::run::Plan;
use crate::interrupt;
use std::collections::BTreeMap;
use std::panic::{AssertUnwindSafe, catch_unwind};
use std::sync::atomic::{AtomicBool, AtomicU64, Ordering};
use std::sync::mpsc::{Receiver, SyncSender, sync_channel};
use std::thread;

/// So many cases are run between two looks at what came of them. It does not depend on how many blocks run at a time, so
/// that the report does not either.
const BLOCK: u64 = 256;

/// The walks of the model recurse as deep as tapes nest.
const STACK: usize = 64 << 20;

type Came = (u64, Block);

/// Runs the cases and hands over block by block, in their order, until there are no more or `take` wants none.
pub fn run(
    plan: &Plan,
    common: &Common,
    cases: &Cases,
    progress: &mut Progress,
    take: &mut dyn FnMut(Block, &mut Progress) -> bool,
) -> Result<(), String> {
    let blocks = cases.len().div_ceil(BLOCK);
    let (next, stop) = (AtomicU64::new(0), AtomicBool::new(false));
    thread::scope(|scope| {
        // While a difference is made smaller the jobs wait with what they have. At the end of this scope nobody takes any
        // more, which those that wait are told.
        let (sender, came) = sync_channel(plan.jobs);
        for _ in 0..plan.jobs.min(usize::try_from(blocks).unwrap_or(plan.jobs)) {
            let (sender, next, stop) = (sender.clone(), &next, &stop);
            let job = move || job(plan, common, cases, next, stop, &sender);
            let started = thread::Builder::new().stack_size(STACK).spawn_scoped(scope, job);
            started.map_err(|e| {
                stop.store(true, Ordering::Relaxed);
                format!("a thread: {e}")
            })?;
        }
        drop(sender);
        take_all(&came, cases.len(), progress, take);
        stop.store(true, Ordering::Relaxed);
        Ok(())
    })
}

/// Hands over the blocks in the order of their numbers.
fn take_all(
    came: &Receiver<Came>,
    cases: u64,
    progress: &mut Progress,
    take: &mut dyn FnMut(Block, &mut Progress) -> bool,
) {
    let (mut early, mut done) = (BTreeMap::new(), 0);
    for (number, block) in came {
        early.insert(number, block);
        while let Some(block) = early.remove(&done) {
            done += 1;
            progress.show(done.saturating_mul(BLOCK).min(cases));
            if !take(block, progress) {
                return;
            }
        }
    }
}

/// Runs one block after another, as long as there are any.
fn job(plan: &Plan, common: &Common, cases: &Cases, next: &AtomicU64, stop: &AtomicBool, came: &SyncSender<Came>) {
    let mut heads = Heads::again(&plan.commands, plan.timeout, common);
    // A number that is taken is handed over, so that those behind it are not waited for in vain.
    while !stop.load(Ordering::Relaxed) && !interrupt::is_asked() {
        let number = next.fetch_add(1, Ordering::Relaxed);
        let start = number.saturating_mul(BLOCK);
        if start >= cases.len() {
            return;
        }
        let places = start..start.saturating_add(BLOCK).min(cases.len());
        let mut block = Block::default();
        let ran = match &mut heads {
            Ok(heads) => caught(|| heads.run(cases, places, plan.keep_going, stop, &mut block)),
            Err(why) => Err(why.clone()),
        };
        block.failed = ran.err();
        let is_last = block.is_over(plan.keep_going);
        if came.send((number, block)).is_err() || is_last {
            return;
        }
    }
}

/// A panic as an error: a mistake of the kit's own does not cost what was found before it.
pub fn caught<T>(run: impl FnOnce() -> Result<T, String>) -> Result<T, String> {
    catch_unwind(AssertUnwindSafe(run)).unwrap_or_else(|panic| {
        let text = panic.downcast_ref::<String>().map(String::as_str).or(panic.downcast_ref::<&str>().copied());
        Err(format!("a mistake of the kit's own: {}", text.unwrap_or("a panic")))
    })
}

#[cfg(test)]
mod tests {
    use super::*;

    #[test]
    fn a_panic_is_an_error() {
        assert_eq!(caught(|| Ok(7)), Ok(7));
        let panics = |n: u32| caught(|| if n == 7 { panic!("not {n}") } else { Ok(()) });
        assert_eq!(panics(7), Err("a mistake of the kit's own: not 7".to_string()));
        assert_eq!(caught::<()>(|| panic!("never")), Err("a mistake of the kit's own: never".to_string()));
    }
}
