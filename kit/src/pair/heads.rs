//! Two heads, asked the same.

use super::cases::{Cases, Common, Origin};
use super::cause::Cause;
use super::complaints::Complaints;
use super::difference::{Compared, Difference, difference};
use super::process::{Failure, Outcome, Process};
use super::report::LETTERS;
use crate::archive::Expander;
use crate::interrupt;
use crate::serve::Hello;
use differential::case::{Case, Operation};
use std::collections::VecDeque;
use std::collections::btree_map::{BTreeMap, Entry};
use std::ops::Range;
use std::sync::atomic::{AtomicBool, Ordering};
use std::time::{Duration, Instant};

/// So many requests are under way at a time.
const WINDOW: usize = 64;

/// After so many cases without an answer in time a pairing that goes on ends: each takes as long as a head may take.
pub const MOST_HANGS: u64 = 10;

/// Any head is waited for as long as this: more than what else a busy machine does takes.
const QUICKEST: Duration = Duration::from_millis(100);

pub struct Heads {
    both: [Process; 2],
    pub common: Common,
    expander: Expander,
    /// The longest time that an answer took.
    slowest: Duration,
}

/// A head that does not even say hello, why, and what it wrote to standard error.
pub type NoHello = (usize, Failure, Complaints);

/// Why no case was asked.
pub enum NotRun {
    NoHello(NoHello),
    Error(String),
}

impl From<String> for NotRun {
    fn from(why: String) -> NotRun {
        NotRun::Error(why)
    }
}

/// What both answered, and what they wrote to standard error.
pub type Said = ([Outcome; 2], [Complaints; 2]);

/// A difference as it was seen.
pub struct Seen {
    pub origin: Origin,
    pub case: Case,
    /// As they are compared: where one of the heads has no weeks, with older tapes as results.
    pub outcomes: [Outcome; 2],
    pub cause: Cause,
    pub difference: Difference,
    /// What each head had written to standard error until then.
    pub complaints: [Complaints; 2],
}

impl Seen {
    pub fn hangs(&self) -> bool {
        self.outcomes.iter().any(|outcome| matches!(outcome, Err(Failure::Hangs(_))))
    }
}

/// The cases in which a cause was seen.
pub struct Sighted {
    pub first: Seen,
    /// The last one, if there are several: where what was asked before matters, it is the one to show it otherwise.
    pub last: Option<Seen>,
    pub cases: u64,
}

/// What came of a run of cases.
#[derive(Default)]
pub struct Block {
    pub ran: u64,
    pub left_out: u64,
    /// Cases without an answer in time.
    pub hung: u64,
    /// The longest time that an answer took.
    pub slowest: Duration,
    pub seen: BTreeMap<Cause, Sighted>,
    /// The causes in the order of their first cases.
    pub order: Vec<Cause>,
    /// Why no more cases can be asked, which no answer shows.
    pub failed: Option<String>,
}

impl Block {
    pub fn add(&mut self, seen: Seen) {
        self.hung += u64::from(seen.hangs());
        match self.seen.entry(seen.cause) {
            Entry::Vacant(place) => {
                self.order.push(seen.cause);
                place.insert(Sighted { first: seen, last: None, cases: 1 });
            }
            Entry::Occupied(mut known) => {
                let known = known.get_mut();
                (known.last, known.cases) = (Some(seen), known.cases + 1);
            }
        }
    }

    pub fn is_over(&self, goes_on: bool) -> bool {
        self.hung >= MOST_HANGS || self.failed.is_some() || (!goes_on && !self.order.is_empty())
    }
}

/// A case under way; none in the place of one that is left out.
type UnderWay = VecDeque<Option<(Origin, Case)>>;

impl Heads {
    /// Starts both and asks what they can do.
    pub fn start(
        commands: &[String; 2],
        timeout: Duration,
        only: Option<&[Operation]>,
    ) -> Result<(Heads, [Hello; 2]), NotRun> {
        let mut both = [Process::start(&commands[0], timeout)?, Process::start(&commands[1], timeout)?];
        let mut hellos: [Hello; 2] = Default::default();
        for i in 0..2 {
            match both[i].hello() {
                Ok(hello) => hellos[i] = hello,
                Err(failure) => {
                    interrupt::check()?;
                    return Err(NotRun::NoHello((i, failure, both[i].complaints())));
                }
            }
        }
        let common = Common::of(&hellos, only);
        if common.operations.is_empty() {
            return Err(NotRun::Error("the two heads have no operation in common".to_string()));
        }
        Ok((Heads { both, common, expander: Expander::default(), slowest: Duration::ZERO }, hellos))
    }

    /// Two more of the same heads.
    pub fn again(commands: &[String; 2], timeout: Duration, common: &Common) -> Result<Heads, String> {
        let mut both = [Process::start(&commands[0], timeout)?, Process::start(&commands[1], timeout)?];
        both.iter_mut().for_each(Process::greet);
        Ok(Heads { both, common: common.clone(), expander: Expander::default(), slowest: Duration::ZERO })
    }

    fn restart(&mut self) -> Result<(), String> {
        self.both.iter_mut().try_for_each(Process::restart)
    }

    /// Waits until both are there. That one is not is no finding: nothing was asked of it.
    fn ready(&mut self) -> Result<(), String> {
        for (head, letter) in self.both.iter_mut().zip(LETTERS) {
            head.ready()?.map_err(|failure| match failure {
                Failure::Hangs(_) => format!("{letter} did not say hello in time when it was started again"),
                other => format!("{letter} did not say hello when it was started again: it {other}"),
            })?;
        }
        Ok(())
    }

    /// Runs the cases at these places, several under way at a time: all of them, or up to the first difference. What comes
    /// of them is put into the block, where it stays if something fails.
    pub fn run(
        &mut self,
        cases: &Cases,
        mut places: Range<u64>,
        goes_on: bool,
        stop: &AtomicBool,
        block: &mut Block,
    ) -> Result<(), String> {
        let (mut under_way, mut sent) = (UnderWay::new(), 0);
        loop {
            self.fill(cases, &mut places, &mut under_way, &mut sent)?;
            while let Some(None) = under_way.front() {
                under_way.pop_front();
                block.left_out += 1;
            }
            if under_way.is_empty() || stop.load(Ordering::Relaxed) || interrupt::is_asked() {
                return Ok(());
            }
            let outcomes = self.receive();
            block.slowest = self.slowest;
            if outcomes.iter().any(Result::is_err) {
                self.one_by_one(&mut under_way, outcomes, goes_on, block)?;
                sent = 0;
            } else if let Some(Some((origin, case))) = under_way.pop_front() {
                sent -= 1;
                block.ran += 1;
                self.look(origin, case, outcomes).into_iter().for_each(|seen| block.add(seen));
            }
            if block.is_over(goes_on) {
                return Ok(());
            }
        }
    }

    /// Sends as many cases as may be under way, or as there are.
    fn fill(
        &mut self,
        cases: &Cases,
        places: &mut Range<u64>,
        under_way: &mut UnderWay,
        sent: &mut usize,
    ) -> Result<(), String> {
        self.ready()?;
        while *sent < WINDOW
            && let Some(place) = places.next()
        {
            let asked = self.send(cases.at(place));
            *sent += usize::from(asked.is_some());
            under_way.push_back(asked);
        }
        Ok(())
    }

    /// The next answer of each, as the two are compared.
    fn receive(&mut self) -> [Outcome; 2] {
        let outcomes = [0, 1].map(|i| {
            let since = Instant::now();
            let outcome = self.both[i].receive();
            self.slowest = if outcome.is_ok() { self.slowest.max(since.elapsed()) } else { self.slowest };
            outcome
        });
        self.common.compared(outcomes)
    }

    /// Sends a case to both, if both can take it.
    fn send(&mut self, (origin, case): (Origin, Option<Case>)) -> Option<(Origin, Case)> {
        let case = self.common.fitted(case?)?;
        let sent = self.common.for_both(&case, &mut self.expander)?;
        self.both.iter_mut().zip(&sent).for_each(|(head, case)| head.send(case));
        Some((origin, case))
    }

    /// One of them did not answer. It may have kept back answers to earlier cases than the one for which it does not: those
    /// that are under way are asked one after another of heads that were just started. If none of them fails so, what was
    /// asked before matters, and the first is the one that is seen to fail.
    fn one_by_one(
        &mut self,
        under_way: &mut UnderWay,
        outcomes: [Outcome; 2],
        goes_on: bool,
        block: &mut Block,
    ) -> Result<(), String> {
        let complaints = [0, 1].map(|i| self.both[i].complaints());
        let first = under_way.front().cloned().flatten();
        let mut again = Vec::new();
        let asked = self.ask_each(under_way, goes_on, &mut again);
        let is_failure = |seen: &Seen| seen.difference == Difference::Failure;
        let fails = again.iter().any(|(_, seen)| seen.as_ref().is_some_and(is_failure));
        if let (false, Some((origin, case))) = (fails, first) {
            let seen = self.look(origin, case, outcomes).map(|seen| Seen { complaints, ..seen });
            match again.first_mut() {
                Some((_, found)) => *found = found.take().or(seen),
                None => again.push((true, seen)),
            }
        }
        for (is_asked, seen) in again {
            block.ran += u64::from(is_asked);
            block.left_out += u64::from(!is_asked);
            seen.into_iter().for_each(|seen| block.add(seen));
            if block.is_over(goes_on) {
                break;
            }
        }
        asked
    }

    /// Of each case whether it was asked, and the difference; up to the first failure, or to the last hang that is waited for.
    fn ask_each(
        &mut self,
        under_way: &mut UnderWay,
        goes_on: bool,
        again: &mut Vec<(bool, Option<Seen>)>,
    ) -> Result<(), String> {
        self.restart()?;
        let mut hung = 0;
        for asked in under_way.drain(..) {
            let is_asked = asked.is_some();
            let seen = match asked {
                Some((origin, case)) => self.ask(&case)?.and_then(|outcomes| self.look(origin, case, outcomes)),
                None => None,
            };
            let failed = seen.as_ref().is_some_and(|seen| seen.difference == Difference::Failure);
            hung += u64::from(seen.as_ref().is_some_and(Seen::hangs));
            again.push((is_asked, seen));
            if (failed && !goes_on) || hung >= MOST_HANGS || interrupt::is_asked() {
                break;
            }
        }
        Ok(())
    }

    /// The difference of two outcomes, if there is one.
    fn look(&self, origin: Origin, case: Case, outcomes: [Outcome; 2]) -> Option<Seen> {
        let (difference, cause) = self.differ(&case, &outcomes)?;
        let complaints = Default::default();
        Some(Seen { origin, case, outcomes, cause, difference, complaints })
    }

    /// Whether the outcomes differ, as far as they are comparable.
    pub fn differ(&self, case: &Case, outcomes: &[Outcome; 2]) -> Option<(Difference, Cause)> {
        let found = difference(&outcomes[0], &outcomes[1], Compared { counts: self.common.counts })?;
        Some((found, Cause::of(case.operation, outcomes, found)))
    }

    /// Both outcomes of one case by itself; nothing if it is not in common, or has no older tape for a head that needs one.
    fn ask(&mut self, case: &Case) -> Result<Option<[Outcome; 2]>, String> {
        let Some(sent) = self.common.for_both(case, &mut self.expander) else { return Ok(None) };
        self.ready()?;
        // Both work at the same time.
        self.both.iter_mut().zip(&sent).for_each(|(head, case)| head.send(case));
        let outcomes = self.receive();
        for (head, outcome) in self.both.iter_mut().zip(&outcomes) {
            if outcome.is_err() {
                head.restart()?;
            }
        }
        Ok(Some(outcomes))
    }

    /// The same of heads that were just started, with what each wrote to standard error.
    pub fn ask_alone(&mut self, case: &Case) -> Result<Option<Said>, String> {
        if !self.common.operations.contains(&case.operation) {
            return Ok(None);
        }
        let Some([first, second]) = self.common.for_both(case, &mut self.expander) else { return Ok(None) };
        self.restart()?;
        self.ready()?;
        let [(a, said_a), (b, said_b)] = [self.both[0].ask_alone(&first)?, self.both[1].ask_alone(&second)?];
        Ok(Some((self.common.compared([a, b]), [said_a, said_b])))
    }

    /// A smaller case may be one of another operation: of those that both have.
    pub fn differ_on(&mut self, case: &Case) -> Result<Option<Cause>, String> {
        if !self.common.operations.contains(&case.operation) || !crate::protocol::fits(case) {
            return Ok(None);
        }
        let found = self.ask(case)?.and_then(|outcomes| self.differ(case, &outcomes));
        match found {
            // A head that failed was started again. If it fails for this case alone, it does so once more.
            Some((Difference::Failure, _)) => {
                Ok(self.ask(case)?.and_then(|outcomes| self.differ(case, &outcomes)).map(|(_, cause)| cause))
            }
            _ => Ok(found.map(|(_, cause)| cause)),
        }
    }

    /// Less time for an answer, where each try takes as long as a head may hang: several times what the slowest took so far.
    /// An answer that comes later is no difference in the end, since what is found is asked once more with all the time.
    pub fn hurry(&mut self, slowest: Duration) {
        let wait = QUICKEST + 4 * slowest.max(self.slowest);
        self.both.iter_mut().for_each(|head| head.timeout = head.timeout.min(wait));
    }

    pub fn wait_for(&mut self, timeout: Duration) {
        self.both.iter_mut().for_each(|head| head.timeout = timeout);
    }
}
