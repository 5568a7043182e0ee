//! `older` and `merge`: from tapes to tapes.

use super::args::Args;
use super::input::{self, Rules};
use super::mistakes::{self, Finding, Search};
use super::{Done, refusal, say_who, with_figure, write_out};
use crate::archive::Expander;
use crate::figures::{self, Whose};
use crate::notation::{self, Spans};
use crate::reading;
use crate::response::Response;
use differential::case::{Case, Operation};
use differential::tape::Sort;

/// Writes or prints a result that is a tape.
fn made(expander: &Expander, operation: Operation, response: &Response, out: Option<&str>) -> Result<Done, String> {
    if out.is_some() {
        return write_out(out, &reading::with_zeros(&response.result));
    }
    say_who(expander, operation);
    let tree =
        reading::tree(&reading::with_zeros(&response.result), Sort::Any).map_err(|why| format!("no tree: {why}"))?;
    say!("{}", notation::print(&tree, Spans::Hidden).trim_end());
    Ok(Done::Well)
}

pub fn older(words: &[String]) -> Result<Done, String> {
    let args = Args::parse(words, &["-o", "--rule"], &["--macros"])?;
    let [path] = args.all("older")?;
    let (operation, mut expander) = (Operation::Older, Expander::default());
    let case = Case::new(operation, 0, vec![input::chosen(&args, path)?]);
    let response = expander.answer(&case);
    if response.number() == 0 {
        return made(&expander, operation, &response, args.value("-o"));
    }
    say_who(&expander, operation);
    let rules = Rules::load(std::slice::from_ref(path))?;
    let rule = match args.value("--rule") {
        Some(name) => Some(rules.named(name)?),
        None => Some(0).filter(|_| rules.definitions.is_empty() && !args.has("--macros")),
    };
    let mut search = Search::new(&rules, &mut expander, 0, 0);
    let found = match (response.number(), rule) {
        (52, _) => search.weeks(rule),
        (_, Some(i)) => search.own_refusal(i, &case, &response),
        (number, None) => search.registry_refusal(number)?,
    };
    Ok(refused(&case, &response, path, &rules, found))
}

pub fn merge(words: &[String]) -> Result<Done, String> {
    let args = Args::parse(words, &["-o"], &[])?;
    let paths: &[String; 2] = args.all("merge")?;
    let load = |path: &String| Rules::load(std::slice::from_ref(path));
    let (first, second) = (load(&paths[0])?, load(&paths[1])?);
    let (operation, mut expander) = (Operation::Merge, Expander::default());
    let tapes = vec![first.for_macros(), second.for_macros()];
    let case = Case::new(operation, 0, tapes.clone());
    let response = expander.answer(&case);
    if response.number() == 0 {
        return made(&expander, operation, &response, args.value("-o"));
    }
    say_who(&expander, operation);
    // A refusal of the first comes before any other, and is the one that it has alone.
    let alone = Case::new(Operation::Registry, 0, tapes[..1].to_vec());
    let is_first = expander.answer(&alone).number() != 0;
    let is_joined = matches!(figures::explained(&case), Some((Whose::Merged, _)));
    let (path, rules) = if is_first { (&paths[0], &first) } else { (&paths[1], &second) };
    let mut search = Search::new(rules, &mut expander, 0, 0);
    let found = match is_joined {
        true => mistakes::joined(&first, &second),
        false => search.registry_refusal(response.number())?,
    };
    let found = found.or_else(|| search.unreadable_tape(0, &case, &response));
    Ok(refused(&case, &response, path, rules, found))
}

/// Says how a tape was refused, and where if that was found.
fn refused(case: &Case, response: &Response, path: &str, rules: &Rules, found: Option<Finding>) -> Done {
    let said = match found {
        Some(finding) => mistakes::text(rules, &finding),
        None => with_figure(case, refusal(response, rules.only_source())),
    };
    let is_pointed = said.starts_with(&format!("{path}:"));
    say!("{}{said}", if is_pointed { String::new() } else { format!("{path}: ") });
    Done::Refused
}
