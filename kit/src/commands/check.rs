//! `check`: every mistake of a file of macros and rules.

use super::args::Args;
use super::expand::NO_LIMIT;
use super::input::Rules;
use super::mistakes::{self, Search};
use super::{Done, say_who};
use crate::archive::Expander;
use crate::pair::counted;
use differential::case::Operation;

pub fn check(words: &[String]) -> Result<Done, String> {
    let args = Args::parse(words, &["--limit", "--file", "--format"], &[])?;
    let paths = args.words(1, 2, "check")?;
    let is_json = match args.value("--format") {
        None | Some("text") => false,
        Some("json") => true,
        Some(other) => return Err(format!("--format: `{other}` is neither text nor json")),
    };
    let rules = Rules::read(paths)?;
    let limit = args.number("--limit")?.or(rules.limit).unwrap_or(NO_LIMIT);
    let file = args.number("--file")?.or(rules.file).unwrap_or(0);
    let mut expander = Expander::default();
    let findings = Search::new(&rules, &mut expander, limit, file).all()?;
    if is_json {
        say!("{:#}", mistakes::json(&rules, &findings));
    } else {
        say_who(&expander, Operation::Check);
        findings.iter().for_each(|finding| say!("{}", mistakes::text(&rules, finding)));
        let [macros, conditions] = [(rules.macros.len(), "macro"), (rules.conditions.len(), "rule")];
        let [macros, conditions] = [macros, conditions].map(|(n, what)| counted(n as u64, what));
        say!("{macros}, {conditions}, {}", counted(findings.len() as u64, "mistake"));
    }
    Ok(if findings.is_empty() { Done::Well } else { Done::Refused })
}
