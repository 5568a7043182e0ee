//! `pair`, heads for it (`serve` and `wrong`), and the corpus.

use super::Done;
use super::args::Args;
use crate::corpus;
use crate::interrupt;
use crate::pair::{self, Plan, Shape, Status, Went};
use crate::second::{FAULTS, Fault, Second};
use crate::serve::{self, Ours};
use crate::whole::Whole;
use differential::case::{OPERATIONS, Operation};
use std::io::IsTerminal;
use std::path::Path;
use std::time::Duration;

/// Without a word of the user's, so many cases of seed 1.
const CASES: u64 = 100_000;

/// In less no head answers.
const SHORTEST_TIMEOUT: Duration = Duration::from_millis(1);

/// More jobs than these are a mistake.
const MOST_JOBS: usize = 256;

pub fn pair(words: &[String]) -> Result<Done, String> {
    let with_value =
        ["--cases", "--seed", "--from", "--corpus", "--only", "--timeout", "--found", "--jobs", "--format", "--report"];
    let args = Args::parse(words, &with_value, &["--as-found", "--quiet", "--keep-going"])?;
    let [a, b] = args.all("pair")?;
    let names = [a.clone(), b.clone()];
    let format = Format::named(args.value("--format").unwrap_or("text"))?;
    let plan = plan(&args, [command(a)?, command(b)?])?;
    // It has to be known before the night that the report can be written.
    let open = |path: &str| Whole::open(Path::new(path)).map_err(|e| format!("{path}: {e}"));
    let file = args.value("--report").map(|path| Ok::<_, String>((path, open(path)?))).transpose()?;
    interrupt::watch();
    let went = pair::pair(&plan);
    let trouble = pair::trouble(&went, &names);
    let report = format.report(&went, &names);
    match file {
        Some((path, file)) => put(path, file, &report, &in_a_line(&went, &names))?,
        // As a text it is what standard error is told.
        None if went.is_err() && trouble.is_some() && format == Format::Text => {}
        None => say!("{}", report.trim_end()),
    }
    match (pair::status(&went), trouble) {
        (_, Some(why)) => Err(why),
        (Status::Equal, None) => Ok(Done::Well),
        (_, None) => Ok(Done::Refused),
    }
}

/// Writes a report and says so. One that cannot be written goes to standard output: a night is more than its file.
fn put(path: &str, file: Whole, report: &str, in_a_line: &str) -> Result<(), String> {
    let written = file.write(report.as_bytes()).map_err(|e| format!("{path}: {e}"));
    match written {
        Ok(()) => say!("{in_a_line}; the report is in {path}"),
        Err(_) => say!("{}", report.trim_end()),
    }
    written
}

fn plan(args: &Args, commands: [String; 2]) -> Result<Plan, String> {
    let corpora: Vec<String> = args.values("--corpus").map(str::to_string).collect();
    let cases = args.number("--cases")?.unwrap_or(if corpora.is_empty() { CASES } else { 0 });
    let jobs = args.number("--jobs")?.unwrap_or(1);
    if !(1..=MOST_JOBS).contains(&jobs) {
        return Err(format!("--jobs: from 1 to {MOST_JOBS}, not {jobs}"));
    }
    let plan = Plan::new(commands, args.number("--seed")?.unwrap_or(1), cases);
    Ok(Plan {
        corpora,
        from: args.number("--from")?.unwrap_or(0),
        timeout: args.value("--timeout").map(timeout).transpose()?.unwrap_or(plan.timeout),
        only: args.value("--only").map(operations).transpose()?,
        shrinks: !args.has("--as-found"),
        quiet: args.has("--quiet"),
        keep_going: args.has("--keep-going"),
        jobs,
        found: args.value("--found").map(str::to_string),
        ..plan
    })
}

/// How a report is written.
#[derive(Clone, Copy, PartialEq, Eq)]
enum Format {
    Text,
    Json,
    Junit,
}

impl Format {
    fn named(name: &str) -> Result<Format, String> {
        match name {
            "text" => Ok(Format::Text),
            "json" => Ok(Format::Json),
            "junit" => Ok(Format::Junit),
            _ => Err(format!("--format: text, json or junit, not `{name}`")),
        }
    }

    fn report(self, went: &Went, names: &[String; 2]) -> String {
        match self {
            Format::Text => format!("{}\n", pair::text(went, names)),
            Format::Json => format!("{:#}\n", pair::json(went, names)),
            Format::Junit => pair::junit(went, names),
        }
    }
}

/// How it went, and how long it took.
fn in_a_line(went: &Went, names: &[String; 2]) -> String {
    match went {
        Err(_) if pair::status(went) == Status::Trouble => "no case was compared".to_string(),
        Err(_) => pair::text(went, names),
        Ok(pairing) => {
            let rate = pairing.ran as f64 / pairing.time.as_secs_f64().max(0.001);
            let took = format!("{}, {} a second", pair::clock(pairing.time), pair::grouped(rate as u64));
            let ended = pairing.ended.as_ref().map_or(String::new(), |why| format!("; ended before its cases: {why}"));
            format!("{} ({took}){ended}", pair::summary(pairing))
        }
    }
}

/// A number of seconds, which may be a fraction.
fn timeout(seconds: &str) -> Result<Duration, String> {
    let duration = seconds.parse().ok().and_then(|seconds| Duration::try_from_secs_f64(seconds).ok());
    let wrong = || format!("--timeout: `{seconds}` are no seconds to wait, such as 10 or 0.5; 0.001 are the least");
    duration.filter(|duration| *duration >= SHORTEST_TIMEOUT).ok_or_else(wrong)
}

/// Operations by their names, each one that there is.
fn operations(names: &str) -> Result<Vec<Operation>, String> {
    let unknown = |name: &str| {
        let known = OPERATIONS.map(Operation::name).join(", ");
        format!("--only: no operation `{name}`; there are {known}")
    };
    names.split(',').map(|name| Operation::named(name).ok_or_else(|| unknown(name))).collect()
}

/// A command as the shell reads it; the kit's own heads are the kit itself.
fn command(word: &str) -> Result<String, String> {
    Ok(match word.split_once(':') {
        None if word == "ours" => format!("{} serve", own()?),
        None if word == "model" => format!("{} serve --model", own()?),
        None if word == "second" => format!("{} wrong none", own()?),
        Some(("wrong", name)) => {
            fault(name)?;
            format!("{} wrong {name}", own()?)
        }
        None if word.trim().is_empty() => return Err("an empty word is no head".to_string()),
        _ => word.to_string(),
    })
}

/// The kit as a word for the shell: the file that runs, even where a build has put another in its place since.
fn own() -> Result<String, String> {
    let running = format!("/proc/{}/exe", std::process::id());
    if Path::new(&running).exists() {
        return Ok(running);
    }
    let path = std::env::current_exe().map_err(|e| e.to_string())?;
    path.to_str().map(quoted).ok_or_else(|| format!("{} is no UTF-8, as a command has to be", path.display()))
}

/// A text as one word for the shell.
fn quoted(text: &str) -> String {
    format!("'{}'", text.replace('\'', r"'\''"))
}

pub fn serve(words: &[String]) -> Result<Done, String> {
    let args = Args::parse(words, &[], &["--model"])?;
    let [] = args.all("serve")?;
    if std::io::stdin().is_terminal() {
        return Err(
            "serve answers requests on standard input, as docs/SUPPLIER.md describes them: for `pair`".to_string()
        );
    }
    let mut head = Ours::new(args.has("--model"));
    serve::serve(&mut head, std::io::stdin().lock(), std::io::stdout().lock())?;
    Ok(Done::Well)
}

/// The second head with a fault, or `none`.
pub fn wrong(words: &[String]) -> Result<Done, String> {
    let args = Args::parse(words, &["--only", "--cases", "--seed"], &["--list", "--table"])?;
    if args.has("--table") {
        return table(&args);
    }
    if args.has("--list") {
        FAULTS.iter().for_each(|(name, _, what)| say!("{name:25} {what}"));
        return Ok(Done::Well);
    }
    let [name] = args.all("wrong")?;
    serve::serve(&mut Second { fault: fault(name)? }, std::io::stdin().lock(), std::io::stdout().lock())?;
    Ok(Done::Well)
}

fn fault(name: &str) -> Result<Fault, String> {
    Fault::named(name).ok_or(format!("no wrong head `{name}`: `neukolja wrong --list` has their names"))
}

/// Pairs this checkout's head with each wrong one, and prints a row for each: cases needed, size of the rule, the rule.
fn table(args: &Args) -> Result<Done, String> {
    let only: Option<Vec<&str>> = args.value("--only").map(|names| names.split(',').collect());
    only.iter().flatten().try_for_each(|name| fault(name).map(drop))?;
    let (seed, cases) = (args.number("--seed")?.unwrap_or(1), args.number("--cases")?.unwrap_or(CASES));
    let mut all_found = true;
    say!("| head | what is wrong | cases | entries | the rule that shows it |\n|---|---|---:|---:|---|");
    for (name, _, what) in FAULTS.iter().filter(|(name, ..)| only.as_ref().is_none_or(|only| only.contains(name))) {
        let commands = [command("ours")?, command(&format!("wrong:{name}"))?];
        let plan = Plan { quiet: true, ..Plan::new(commands, seed, cases) };
        let went = pair::pair(&plan);
        pair::trouble(&went, &plan.commands).map_or(Ok(()), Err)?;
        let found = went.ok().and_then(|pairing| Some((pairing.ran, pairing.causes.into_iter().next()?.found)));
        all_found &= found.is_some();
        let row = found.map_or("not found | | ".to_string(), |(ran, found)| {
            let shape = &found.smallest.shape;
            let rule = shape.text().trim().replace('\n', "; ").replace('|', "\\|");
            format!("{} | {} | {} `{rule}`", pair::grouped(ran), sizes(shape), shape.case.operation.name())
        });
        say!("| {name} | {what} | {row} |");
    }
    Ok(if all_found { Done::Well } else { Done::Refused })
}

/// How many entries each tape has: macros and rule.
fn sizes(shape: &Shape) -> String {
    shape.each_entries().iter().map(usize::to_string).collect::<Vec<_>>().join(" + ")
}

/// Of so many cases the corpus is chosen, as differential's fixed list.
const CORPUS_CASES: u64 = 400_000;

pub fn corpus(words: &[String]) -> Result<Done, String> {
    let args = Args::parse(words, &["--seed", "--cases"], &[])?;
    let [folder] = args.all("corpus")?;
    differential::upstream::quiet_panics();
    let (seed, cases) = (args.number("--seed")?.unwrap_or(1), args.number("--cases")?.unwrap_or(CORPUS_CASES));
    let mut progress = pair::Progress::new(cases, false);
    let made = corpus::make(seed, cases, &mut |done| progress.show(done));
    progress.end();
    let made = made?;
    corpus::write(&made, std::path::Path::new(folder))?;
    let bytes = (made.requests.len() + made.responses.len()) as u64;
    let cases = pair::grouped(made.cases as u64);
    say!("{cases} cases, {} bytes of requests and responses in {folder}", pair::grouped(bytes));
    Ok(Done::Well)
}

#[cfg(test)]
mod tests {
    use super::*;
    use std::process::Command;

    #[test]
    fn a_head_has_at_least_a_millisecond() {
        assert_eq!(timeout("0.5"), Ok(Duration::from_millis(500)));
        assert_eq!(timeout("1e-3"), Ok(SHORTEST_TIMEOUT));
        for wrong in ["1,5", "1_0", "1e-12", "0.0009", "0", "-1", "nan", "inf", "1e300", ""] {
            assert!(timeout(wrong).is_err_and(|why| why.starts_with(&format!("--timeout: `{wrong}` "))), "{wrong}");
        }
    }

    #[test]
    fn the_shell_reads_a_quoted_text_as_it_is() {
        for text in ["/it's/kit", "'", "a b", "$HOME `x` \"\\", "ü"] {
            let printed = Command::new("sh").args(["-c", &format!("printf %s {}", quoted(text))]).output();
            assert_eq!(String::from_utf8(printed.expect("sh runs").stdout).as_deref(), Ok(text));
        }
    }
}
