//! `expand`, `preview`, `judge` and `profile`: conditions with the macros that they call.

use super::args::Args;
use super::input::{self, Rules};
use super::mistakes::{self, Search};
use super::show::result_tree;
use super::{Done, refusal, say_who, with_figure, write_out};
use crate::archive::Expander;
use crate::figures::{self, Whose};
use crate::notation;
use crate::pair;
use crate::reading;
use crate::response::Response;
use differential::case::{COUNTS, Case, Counts, Operation};

/// What the reference runs use.
pub const NO_LIMIT: u32 = u32::MAX;

/// Conditions, and how they are to be expanded.
struct Asked {
    rules: Rules,
    limit: u32,
    file: u16,
    /// The places of the conditions that are asked for: all, or the one of `--rule`.
    chosen: Vec<usize>,
}

fn asked(args: &Args, paths: &[String]) -> Result<Asked, String> {
    let rules = Rules::load(paths)?;
    if rules.conditions.is_empty() {
        return Err(format!("{}: no condition in it", paths.join(" ")));
    }
    let limit = args.number("--limit")?.or(rules.limit).unwrap_or(NO_LIMIT);
    let file = args.number("--file")?.or(rules.file).unwrap_or(0);
    let chosen = match args.value("--rule") {
        Some(name) => vec![rules.named(name)?],
        None => (0..rules.conditions.len()).collect(),
    };
    Ok(Asked { rules, limit, file, chosen })
}

/// A condition with what it was asked as, and the answer.
struct Answered {
    /// Its place among the conditions.
    i: usize,
    case: Case,
    response: Response,
}

impl Asked {
    /// The answer to each condition, each with the counts that the one before it gave back.
    fn answers(&self, expander: &mut Expander, operation: Operation) -> (Vec<Answered>, Counts) {
        let mut counts = [0; COUNTS];
        let answers = self.chosen.iter().map(|&i| {
            let tapes = vec![self.rules.registry.clone(), self.rules.conditions[i].tape.clone()];
            let mut case = Case::new(operation, self.limit, tapes);
            (case.file, case.counts) = (self.file, counts);
            let response = expander.answer(&case);
            counts = if operation.has_counts() { response.counts } else { counts };
            Answered { i, case, response }
        });
        (answers.collect(), counts)
    }

    /// The name of a condition as it is told.
    fn name(&self, i: usize) -> String {
        notation::visible(&self.rules.conditions[i].name)
    }

    /// A refusal of an operation that expands, with its place.
    fn refused(&self, expander: &mut Expander, i: usize, case: &Case, response: &Response) -> Result<String, String> {
        let finding = Search::new(&self.rules, expander, self.limit, self.file).refusal(i, case, response)?;
        Ok(mistakes::text(&self.rules, &finding))
    }

    /// Why a condition is not fit for the battery head: as it was expanded or, if it was not, as it stands.
    fn unfit(&self, expander: &mut Expander, i: usize, expanded: Option<Vec<u8>>) -> Option<String> {
        let is_expanded = expanded.is_some();
        let tape = expanded.unwrap_or_else(|| self.rules.conditions[i].tape.clone());
        let case = Case::new(Operation::Profile, 0, vec![tape]);
        let response = expander.answer(&case);
        let mut search = Search::new(&self.rules, expander, self.limit, self.file);
        let found = match response.number() {
            0 => return None,
            53..=55 => search.unfit(i, is_expanded, &response),
            // What was expanded was accepted before.
            _ if is_expanded => None,
            _ => search.own_refusal(i, &case, &response),
        };
        Some(match found {
            Some(found) => mistakes::text(&self.rules, &found),
            None => with_figure(&case, refusal(&response, None)),
        })
    }

    /// The one condition that is asked for.
    fn only(&self, what: &str) -> Result<usize, String> {
        match self.chosen[..] {
            [i] => Ok(i),
            _ => Err(format!("one condition is to be {what}: --rule NAME chooses it")),
        }
    }
}

fn ended(answers: &[Answered]) -> Done {
    let refused = answers.iter().any(|answered| answered.response.number() != 0);
    if refused { Done::Refused } else { Done::Well }
}

/// Each condition as text, or with `-o` the one that is asked for as a tape.
pub fn expand(words: &[String]) -> Result<Done, String> {
    let args = Args::parse(words, &["--limit", "--file", "--rule", "-o"], &[])?;
    let asked = asked(&args, args.words(1, 2, "expand")?)?;
    if args.value("-o").is_some() {
        asked.only("written")?;
    }
    let mut expander = Expander::default();
    let (answers, counts) = asked.answers(&mut expander, Operation::Expand);
    say_who(&expander, Operation::Expand);
    // Where the tape goes to standard output, nothing else does.
    let tell = |line: String| if args.value("-o") == Some("-") { note!("{line}") } else { say!("{line}") };
    for Answered { i, case, response } in &answers {
        let name = asked.name(*i);
        match result_tree(&response.result).filter(|_| response.number() == 0) {
            Some(tree) => {
                tell(format!("{name}: expanded, {} charged", response.charged()));
                match args.value("-o") {
                    Some(path) => drop(write_out(Some(path), &reading::with_zeros(&response.result))?),
                    None => say!("    {}", notation::print_lines(&tree).join("\n    ")),
                }
            }
            None => tell(format!("{name}: {}", asked.refused(&mut expander, *i, case, response)?)),
        }
    }
    used(&asked.rules, &counts).map(tell);
    Ok(ended(&answers))
}

/// How often each macro was used, if there are any.
fn used(rules: &Rules, counts: &Counts) -> Option<String> {
    let used: Vec<String> = rules
        .definitions
        .iter()
        .zip(counts)
        .map(|(definition, count)| format!("{} {count}", notation::name(&definition.children[0].text)))
        .collect();
    (!used.is_empty()).then(|| format!("calls substituted: {}", used.join(", ")))
}

pub fn preview(words: &[String]) -> Result<Done, String> {
    let args = Args::parse(words, &["--limit", "--file", "--rule"], &[])?;
    let asked = asked(&args, args.words(1, 2, "preview")?)?;
    let mut expander = Expander::default();
    let (answers, _) = asked.answers(&mut expander, Operation::Preview);
    say_who(&expander, Operation::Preview);
    for Answered { i, case, response } in &answers {
        let [.., entries, text] = response.words;
        let name = asked.name(*i);
        match response.number() {
            0 => {
                let (charged, bytes) = (response.charged(), 8 + 9 * entries + text);
                say!("{name}: {charged} charged, {entries} entries, {text} bytes of text, {bytes} bytes");
            }
            _ => say!("{name}: {}", asked.refused(&mut expander, *i, case, response)?),
        }
    }
    Ok(ended(&answers))
}

/// `judge FILE [CONDITION] TAPE`: one condition, and another supplier's result of it.
pub fn judge(words: &[String]) -> Result<Done, String> {
    let args = Args::parse(words, &["--limit", "--file", "--rule"], &[])?;
    let words = args.words(2, 3, "judge")?;
    let (supplied, paths) = words.split_last().expect("two or three");
    let asked = asked(&args, paths)?;
    let i = asked.only("judged")?;
    let operation = Operation::Judge;
    let mut expander = Expander::default();
    let name = asked.name(i);
    let tapes = vec![asked.rules.registry.clone(), asked.rules.conditions[i].tape.clone(), input::tape(supplied)?];
    let mut case = Case::new(operation, asked.limit, tapes);
    case.file = asked.file;
    let response = expander.answer(&case);
    say_who(&expander, operation);
    match response.number() {
        0 => say!("{name}: equal but for generated names, {} charged", response.charged()),
        50 => {
            say!("{name}: {}", refusal(&response, None));
            let ours = expander.answer(&Case { operation: Operation::Expand, ..case.clone() });
            say!("    {}", pair::first_entry_but_names(&ours.result, &case.tapes[2]));
        }
        _ => {
            let said = match of_supplied(&mut expander, &case, &response, supplied)? {
                Some(said) => said,
                None => asked.refused(&mut expander, i, &case, &response)?,
            };
            say!("{name}: {said}");
        }
    }
    Ok(if response.number() == 0 { Done::Well } else { Done::Refused })
}

/// Why the tape that is judged is refused, if it is that one: macros and condition are read before it, and `expand` says the same
/// of them.
fn of_supplied(
    expander: &mut Expander,
    case: &Case,
    response: &Response,
    supplied: &String,
) -> Result<Option<String>, String> {
    let is_it = match response.number() {
        2 => expander.answer(&Case { operation: Operation::Expand, ..case.clone() }).number() != 2,
        3 => matches!(figures::explained(case), Some((Whose::Tape(2), _))),
        _ => false,
    };
    if !is_it {
        return Ok(None);
    }
    let given = Rules::load(std::slice::from_ref(supplied))?;
    let search = Search::new(&given, expander, case.limit, case.file);
    let found = if given.conditions.is_empty() { None } else { search.own_refusal(0, case, response) };
    let said = match found {
        Some(finding) => mistakes::text(&given, &finding),
        None => with_figure(case, refusal(response, None)),
    };
    let is_pointed = said.starts_with(&format!("{supplied}:"));
    Ok(Some(if is_pointed { said } else { format!("{supplied}: {said}") }))
}

/// The first rule of the battery head that each condition breaks. A head gets what its rules are expanded to, so where
/// there are macros they are expanded first.
pub fn profile(words: &[String]) -> Result<Done, String> {
    let args = Args::parse(words, &["--limit", "--file", "--rule"], &["--as-is"])?;
    let asked = asked(&args, args.words(1, 2, "profile")?)?;
    let mut expander = Expander::default();
    let expanded = match asked.rules.definitions.is_empty() || args.has("--as-is") {
        true => None,
        false => Some(asked.answers(&mut expander, Operation::Expand).0),
    };
    let mut all_fit = true;
    for (at, &i) in asked.chosen.iter().enumerate() {
        let why = match expanded.as_ref().map(|answers| &answers[at]) {
            None => asked.unfit(&mut expander, i, None),
            Some(Answered { case, response, .. }) => match response.number() {
                0 => asked.unfit(&mut expander, i, Some(reading::with_zeros(&response.result))),
                _ => Some(asked.refused(&mut expander, i, case, response)?),
            },
        };
        say!("{}: {}", asked.name(i), why.as_deref().unwrap_or("fit for the battery head"));
        all_fit &= why.is_none();
    }
    say_who(&expander, Operation::Profile);
    Ok(if all_fit { Done::Well } else { Done::Refused })
}
