//! Runs two heads on the same cases until they differ, or gathers what they differ in.

use super::blocks::{self, caught};
use super::cases::{Cases, Origin};
use super::cause::Cause;
use super::complaints::Complaints;
use super::difference::Difference;
use super::found::Book;
use super::heads::{Block, Heads, MOST_HANGS, NotRun, Seen, Sighted};
use super::process::Outcome;
use super::progress::Progress;
use super::report::counted;
use super::shape::Shape;
use super::shrink::{Effort, Shrunk, shrink};
use crate::interrupt;
use crate::serve::Hello;
use differential::case::{Case, Operation};
use std::collections::BTreeMap;
use std::time::Duration;

pub struct Plan {
    pub commands: [String; 2],
    pub corpora: Vec<String>,
    pub seed: u64,
    pub from: u64,
    pub cases: u64,
    /// How long a head may take for one answer.
    pub timeout: Duration,
    /// The operations to try, if not all that both have.
    pub only: Option<Vec<Operation>>,
    pub shrinks: bool,
    pub quiet: bool,
    /// Behind a difference the next cases are run.
    pub keep_going: bool,
    /// So many cases are run at a time.
    pub jobs: usize,
    /// The file whose cases are run first, and to which those that are found are added.
    pub found: Option<String>,
}

impl Plan {
    /// So many cases of a seed, up to the first difference.
    pub fn new(commands: [String; 2], seed: u64, cases: u64) -> Plan {
        Plan {
            commands,
            corpora: vec![],
            seed,
            from: 0,
            cases,
            timeout: Duration::from_secs(10),
            only: None,
            shrinks: true,
            quiet: false,
            keep_going: false,
            jobs: 1,
            found: None,
        }
    }
}

/// How a pairing went.
pub struct Pairing {
    pub hellos: [Hello; 2],
    /// Whether behind a difference the next cases were run.
    pub keep_going: bool,
    /// The operations that were tried.
    pub operations: Vec<&'static str>,
    pub ran: u64,
    /// Cases of operations that one of the heads has not, or without an older tape for one that needs it.
    pub left_out: u64,
    pub time: Duration,
    /// What was said of the file of found cases.
    pub note: Option<String>,
    /// The cases of the file of found ones.
    pub old: Vec<Old>,
    /// In the order of their first cases.
    pub causes: Vec<Gathered>,
    pub ended: Option<Ended>,
}

impl Pairing {
    /// How many cases were asked of both.
    pub fn compared(&self) -> u64 {
        self.ran + self.old.iter().filter(|old| old.state != State::LeftOut).count() as u64
    }
}

/// Why a pairing ended before its cases did.
pub enum Ended {
    /// So many cases without an answer within this time.
    Hangs(u64, Duration),
    /// What no answer of a head shows.
    Broken(String),
}

impl std::fmt::Display for Ended {
    fn fmt(&self, f: &mut std::fmt::Formatter) -> std::fmt::Result {
        match self {
            Ended::Hangs(cases, time) => {
                let seconds = time.as_secs_f32();
                write!(f, "{cases} cases without an answer within {seconds} s, which are as many as are waited for")
            }
            Ended::Broken(why) => f.write_str(why),
        }
    }
}

/// What became of a case that was found before.
pub struct Old {
    pub origin: Origin,
    pub state: State,
}

#[derive(Clone, Copy, Debug, PartialEq, Eq)]
pub enum State {
    Equal,
    Differs,
    /// Not for both heads.
    LeftOut,
}

/// Differences of one cause.
pub struct Gathered {
    /// What the smallest case shows.
    pub cause: Cause,
    /// As what they were seen before they were made smaller: the first case of each, and how many there are.
    pub seen: Vec<(Cause, Origin, u64)>,
    pub found: Found,
    /// So often it was looked for a case that shows it by itself, where the first one does not.
    again: u32,
}

impl Gathered {
    /// The first case in which it was seen.
    pub fn first(&self) -> &Origin {
        &self.seen[0].1
    }

    pub fn cases(&self) -> u64 {
        self.seen.iter().map(|(.., cases)| cases).sum()
    }
}

/// A difference: the first of its cause, or the first that is seen to show by itself.
pub struct Found {
    pub origin: Origin,
    pub case: Case,
    pub cause: Cause,
    /// The case as small as it was made, both outcomes, and what the heads wrote to standard error.
    pub smallest: Shrunk,
    pub outcomes: [Outcome; 2],
    /// Whether the results of both are older tapes, as one of the heads has no weeks.
    pub by_older: bool,
    pub complaints: [Complaints; 2],
    pub difference: Difference,
    /// Asked for by itself the case shows no difference: what came before it matters.
    pub needs_history: bool,
    /// Why it was not asked for by itself, or not made smaller as far as it goes.
    pub unexamined: Option<String>,
}

/// How much is done to make a difference smaller; less where a smaller case is one for which a head is waited for in vain,
/// and less again where that is one of several causes.
const EFFORT: Effort = Effort { tries: 30_000, time: Duration::from_secs(120) };
const EFFORT_IF_HUNG: Effort = Effort { tries: 2_000, time: Duration::from_secs(60) };
const EFFORT_AMONG_OTHERS: Effort = Effort { time: Duration::from_secs(20), ..EFFORT_IF_HUNG };

/// The first cases of so many causes are made smaller. A head that differs in more is wrong nearly everywhere.
pub const MOST_SHRUNK: usize = 40;

/// So many cases of a cause are asked for by themselves where the first does not show it.
const MOST_AGAIN: u32 = 10;

/// How a pairing went, or why there was none.
pub type Went = Result<Pairing, NotRun>;

/// What a pairing's exit status says.
#[derive(Clone, Copy, Debug, PartialEq, Eq)]
pub enum Status {
    Equal,
    Differs,
    /// Anything else: it cannot be said whether the heads differ.
    Trouble,
}

pub fn status(went: &Went) -> Status {
    match went {
        Ok(Pairing { ended: Some(Ended::Broken(_)), .. }) => Status::Trouble,
        Ok(pairing) if pairing.causes.is_empty() => Status::Equal,
        Ok(_) => Status::Differs,
        Err(NotRun::NoHello((_, failure, _))) if !failure.is_missing() => Status::Differs,
        Err(_) => Status::Trouble,
    }
}

pub fn pair(plan: &Plan) -> Went {
    let book = plan.found.as_deref().map(Book::open).transpose()?;
    let (heads, hellos) = Heads::start(&plan.commands, plan.timeout, plan.only.as_deref())?;
    let common = heads.common.clone();
    let cases = Cases::new(&plan.corpora, plan.seed, plan.from, plan.cases, &common)?;
    let mut progress = Progress::new(cases.len(), plan.quiet);
    let operations = common.operations.iter().map(|operation| operation.name()).collect();
    let pairing = Pairing {
        hellos,
        keep_going: plan.keep_going,
        operations,
        ran: 0,
        left_out: 0,
        time: Duration::ZERO,
        note: book.as_ref().and_then(Book::note),
        old: vec![],
        causes: vec![],
        ended: None,
    };
    let mut gatherer =
        Gatherer { plan, heads, book, pairing, by_cause: BTreeMap::new(), hung: 0, slowest: Duration::ZERO };
    gatherer.old_cases(&mut progress);
    if gatherer.goes_on() {
        let take = &mut |block, progress: &mut Progress| gatherer.take(block, progress);
        let ran = blocks::run(plan, &common, &cases, &mut progress, take);
        ran.unwrap_or_else(|why| gatherer.end(why));
    }
    gatherer.ended(progress.end())
}

struct Gatherer<'a> {
    plan: &'a Plan,
    /// For one case at a time, while others run.
    heads: Heads,
    book: Option<Book>,
    pairing: Pairing,
    /// Where in the pairing's causes those are that were seen as this.
    by_cause: BTreeMap<Cause, usize>,
    hung: u64,
    /// The longest time that an answer took.
    slowest: Duration,
}

impl Gatherer<'_> {
    /// The cases of the file, each asked of heads that were just started.
    fn old_cases(&mut self, progress: &mut Progress) {
        let Some(book) = &self.book else { return };
        let path = self.plan.found.clone().unwrap_or_default();
        for (i, old) in book.old.clone().into_iter().enumerate() {
            let origin = Origin::Found(path.clone(), i + 1, old.from);
            match self.check().and_then(|()| self.old_case(&origin, old.case, progress)) {
                Ok(state) => self.pairing.old.push(Old { origin, state }),
                Err(why) => return self.end(why),
            }
        }
    }

    /// What became of one. The first that differs ends it, or is gathered as any other: of the others it is said in any case.
    fn old_case(&mut self, origin: &Origin, case: Case, progress: &mut Progress) -> Result<State, String> {
        let Some(case) = self.heads.common.fitted(case) else { return Ok(State::LeftOut) };
        let Some((outcomes, complaints)) = self.heads.ask_alone(&case)? else { return Ok(State::LeftOut) };
        let Some((difference, cause)) = self.heads.differ(&case, &outcomes) else { return Ok(State::Equal) };
        if self.goes_on() {
            let mut block = Block::default();
            block.add(Seen { origin: origin.clone(), case, outcomes, cause, difference, complaints });
            self.take(block, progress);
        }
        Ok(State::Differs)
    }

    /// Takes the next block. Says whether others are to be run.
    fn take(&mut self, mut block: Block, progress: &mut Progress) -> bool {
        block.failed.take().into_iter().for_each(|why| self.end(why));
        self.pairing.ran += block.ran;
        self.pairing.left_out += block.left_out;
        self.hung += block.hung;
        self.slowest = self.slowest.max(block.slowest);
        for cause in std::mem::take(&mut block.order) {
            let Some(sighted) = block.seen.remove(&cause) else { continue };
            self.gather(sighted, progress);
        }
        if self.plan.keep_going && self.hung >= MOST_HANGS {
            self.pairing.ended.get_or_insert(Ended::Hangs(self.hung, self.plan.timeout));
        }
        self.goes_on()
    }

    fn goes_on(&self) -> bool {
        self.pairing.ended.is_none() && (self.plan.keep_going || self.pairing.causes.is_empty())
    }

    /// What was gathered is told in any case. After a signal the blocks that were begun are still taken.
    fn end(&mut self, why: String) {
        if !interrupt::is_asked() {
            self.pairing.ended = Some(Ended::Broken(why));
        }
    }

    /// Heads are not asked any more once something has failed, or an end was asked for.
    fn check(&self) -> Result<(), String> {
        match &self.pairing.ended {
            Some(Ended::Broken(why)) => Err(why.clone()),
            _ => interrupt::check(),
        }
    }

    fn ended(mut self, time: Duration) -> Went {
        self.pairing.time = time;
        if let Err(why) = interrupt::check() {
            let cases = counted(self.pairing.ran, "case");
            self.pairing.ended = Some(Ended::Broken(format!("{why} after {cases}")));
        }
        if self.pairing.ended.is_none() && self.pairing.compared() == 0 {
            let why = format!("no case was compared; {} were left out as not for both", self.pairing.left_out);
            return Err(NotRun::Error(why));
        }
        Ok(self.pairing)
    }

    /// So many cases more of a cause.
    fn gather(&mut self, sighted: Sighted, progress: &mut Progress) {
        let Sighted { first, last, cases } = sighted;
        let cause = first.cause;
        let again = match self.by_cause.get(&cause) {
            Some(place) => {
                let mut known = self.pairing.causes[*place].seen.iter_mut();
                known.find(|(known, ..)| *known == cause).into_iter().for_each(|(.., count)| *count += cases);
                [Some(first), last]
            }
            None => {
                let seen = vec![(cause, first.origin.clone(), cases)];
                let found = self.examine(first, progress);
                let place = self.pairing.causes.len();
                self.pairing.causes.push(Gathered { cause: found.cause, seen, found, again: 0 });
                self.by_cause.insert(cause, place);
                self.settle(place);
                [last, None]
            }
        };
        again.into_iter().flatten().for_each(|seen| self.look_again(seen, progress));
    }

    /// Where the case that was gathered does not show its cause by itself, another one may.
    fn look_again(&mut self, seen: Seen, progress: &mut Progress) {
        let place = self.by_cause[&seen.cause];
        let gathered = &mut self.pairing.causes[place];
        if !gathered.found.needs_history || gathered.again == MOST_AGAIN {
            return;
        }
        gathered.again += 1;
        let found = self.examine(seen, progress);
        if !found.needs_history && found.unexamined.is_none() {
            let gathered = &mut self.pairing.causes[place];
            (gathered.cause, gathered.found) = (found.cause, found);
            self.settle(place);
        }
    }

    /// Where the one at this place shows by itself, it is kept, and is one with another of the same cause: with the first
    /// case of both, and the one of the two that shows by itself.
    fn settle(&mut self, place: usize) {
        let causes = &self.pairing.causes;
        if causes[place].found.needs_history {
            return;
        }
        let is_twin = |other: &usize| *other != place && causes[*other].cause == causes[place].cause;
        let twin = (0..causes.len()).find(is_twin);
        if twin.is_none_or(|twin| causes[twin].found.needs_history) {
            self.keep(place);
        }
        if let Some(twin) = twin {
            self.unite(twin.min(place), twin.max(place));
        }
    }

    fn unite(&mut self, one: usize, other: usize) {
        let Gathered { seen, found, .. } = self.pairing.causes.remove(other);
        let into = &mut self.pairing.causes[one];
        into.seen.extend(seen);
        if into.found.needs_history {
            into.found = found;
        }
        for place in self.by_cause.values_mut().filter(|place| **place >= other) {
            *place = if *place == other { one } else { *place - 1 };
        }
    }

    /// Adds the case to the file of found ones, if there is one.
    fn keep(&mut self, place: usize) {
        let found = &self.pairing.causes[place].found;
        let kept = self.book.as_mut().map_or(Ok(()), |book| book.add(found));
        kept.unwrap_or_else(|why| self.end(why));
    }

    /// The difference as small as it can be made, if it is to be; as it was seen, where it does not show by itself, or cannot
    /// be asked for. Where others are gathered too, a smaller case has to have the same cause.
    fn examine(&mut self, seen: Seen, progress: &mut Progress) -> Found {
        let (goes_on, wanted) = (self.plan.keep_going, seen.cause);
        let will_do = |cause: Cause| !goes_on || cause.is_like(&wanted);
        let alone = match caught(|| self.alone(&seen.case, will_do)) {
            Ok(Some(alone)) => alone,
            Ok(None) => return Found { needs_history: true, ..self.as_seen(seen) },
            Err(why) => {
                self.end(why.clone());
                return Found { unexamined: Some(why), ..self.as_seen(seen) };
            }
        };
        let is_old = matches!(seen.origin, Origin::Found(..));
        let shrinks = self.plan.shrinks && !is_old && self.pairing.causes.len() < MOST_SHRUNK;
        let shrunk = if shrinks { caught(|| self.shrunk(&seen, will_do, progress)) } else { Ok(None) };
        let unexamined = shrunk.as_ref().err().cloned();
        unexamined.iter().for_each(|why| self.end(why.clone()));
        let whole = || (alone, Shrunk { shape: Shape::of(&seen.case), tries: 0 });
        let ((outcomes, complaints, difference, cause), smallest) = shrunk.ok().flatten().unwrap_or_else(whole);
        Found { unexamined, outcomes, complaints, difference, cause, smallest, ..self.as_seen(seen) }
    }

    /// The difference as it was seen.
    fn as_seen(&self, seen: Seen) -> Found {
        let Seen { origin, case, outcomes, cause, difference, complaints } = seen;
        let smallest = Shrunk { shape: Shape::of(&case), tries: 0 };
        let (by_older, needs_history, unexamined) = (self.heads.common.by_older(), false, None);
        Found { origin, case, cause, smallest, outcomes, by_older, complaints, difference, needs_history, unexamined }
    }

    /// What a case by itself shows, asked of heads that were just started, if it shows what is wanted.
    fn alone(&mut self, case: &Case, will_do: impl Fn(Cause) -> bool) -> Result<Option<Alone>, String> {
        self.check()?;
        let Some((outcomes, complaints)) = self.heads.ask_alone(case)? else { return Ok(None) };
        let shown = self.heads.differ(case, &outcomes).filter(|(_, cause)| will_do(*cause));
        Ok(shown.map(|(difference, cause)| (outcomes, complaints, difference, cause)))
    }

    /// The smallest case, and what it shows by itself, if it does.
    fn shrunk(
        &mut self,
        seen: &Seen,
        will_do: impl Fn(Cause) -> bool,
        progress: &mut Progress,
    ) -> Result<Option<(Alone, Shrunk)>, String> {
        let effort = match (seen.hangs(), self.plan.keep_going) {
            (false, _) => EFFORT,
            (true, false) => EFFORT_IF_HUNG,
            (true, true) => EFFORT_AMONG_OTHERS,
        };
        if seen.hangs() {
            self.heads.hurry(self.slowest);
        }
        let mut tries = 0;
        let smallest = shrink(&seen.case, effort, &mut |case| {
            interrupt::check()?;
            tries += 1;
            progress.show_tries(&seen.origin, tries, effort);
            Ok(self.heads.differ_on(case)?.is_some_and(&will_do))
        });
        self.heads.wait_for(self.plan.timeout);
        let smallest = smallest?;
        Ok(self.alone(&smallest.shape.case(), will_do)?.map(|alone| (alone, smallest)))
    }
}

/// What a case shows by itself.
type Alone = ([Outcome; 2], [Complaints; 2], Difference, Cause);
