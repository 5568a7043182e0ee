//! The words of a command line: files, and options with or without a value.

use super::help;
use std::str::FromStr;

/// What may be given several times. Of any other option one value would be lost without a word.
const OFTEN: [&str; 1] = ["--corpus"];

pub struct Args {
    words: Vec<String>,
    options: Vec<(String, Option<String>)>,
}

impl Args {
    /// `with_value` are the options that have a value, behind them or behind a `=`, `alone` those that have none. Behind `--` come
    /// words alone.
    pub fn parse(words: &[String], with_value: &[&str], alone: &[&str]) -> Result<Args, String> {
        let mut args = Args { words: vec![], options: vec![] };
        let mut rest = words.iter();
        while let Some(word) = rest.next() {
            if word == "--" {
                args.words.extend(rest.by_ref().cloned());
            } else if !word.starts_with('-') || word == "-" {
                args.words.push(word.clone());
            } else {
                let (name, value) = split(word);
                let value = match (with_value.contains(&name), alone.contains(&name), value) {
                    (true, _, Some(value)) => Some(value.to_string()),
                    (true, _, None) => Some(rest.next().ok_or(format!("a value belongs behind {name}"))?.clone()),
                    (_, true, Some(value)) => {
                        return Err(format!("{name} has no value, and so no `={value}` behind it"));
                    }
                    (_, true, None) => None,
                    _ => return Err(unknown(name, with_value, alone)),
                };
                if args.has(name) && !OFTEN.contains(&name) {
                    return Err(format!("{name} is there twice, and can be there once"));
                }
                args.options.push((name.to_string(), value));
            }
        }
        Ok(args)
    }

    /// The words that are no options, of a command that has just so many.
    pub fn all<const N: usize>(&self, command: &str) -> Result<&[String; N], String> {
        self.words.as_slice().try_into().map_err(|_| usage(command))
    }

    /// The same of one that may have more or fewer.
    pub fn words(&self, least: usize, most: usize, command: &str) -> Result<&[String], String> {
        let fits = (least..=most).contains(&self.words.len());
        if fits { Ok(&self.words) } else { Err(usage(command)) }
    }

    pub fn has(&self, option: &str) -> bool {
        self.options.iter().any(|(name, _)| name == option)
    }

    pub fn value(&self, option: &str) -> Option<&str> {
        self.values(option).next()
    }

    /// All of an option that may be given several times.
    pub fn values(&self, option: &str) -> impl Iterator<Item = &str> {
        self.options.iter().filter(move |(name, _)| name == option).filter_map(|(_, value)| value.as_deref())
    }

    /// A whole number.
    pub fn number<N: FromStr>(&self, option: &str) -> Result<Option<N>, String> {
        let wrong = |value: &str| format!("{option}: `{value}` is no number that can stand there");
        let parse = |value: &str| ungrouped(value).and_then(|digits| digits.parse().ok()).ok_or_else(|| wrong(value));
        self.value(option).map(parse).transpose()
    }
}

/// How the command is typed, where it was typed otherwise.
fn usage(command: &str) -> String {
    format!("usage: {}", help::usage(command))
}

/// A whole number without what stands between its groups of three digits. `1,5` may be meant as a fraction, and is none.
fn ungrouped(value: &str) -> Option<String> {
    let mut behind = value.split([',', '_']).skip(1);
    behind.all(|group| group.len() == 3).then(|| value.replace([',', '_'], ""))
}

/// `--name=value`. In `-o=x`, as elsewhere, the `=` belongs to the value, which here stands in a word of its own.
fn split(word: &str) -> (&str, Option<&str>) {
    match word.split_once('=') {
        Some((name, value)) if word.starts_with("--") => (name, Some(value)),
        _ => (word, None),
    }
}

/// An option that the command has not, with those that it has.
fn unknown(name: &str, with_value: &[&str], alone: &[&str]) -> String {
    let has: Vec<String> = with_value
        .iter()
        .map(|option| format!("{option} VALUE"))
        .chain(alone.iter().map(|option| option.to_string()))
        .collect();
    match &has[..] {
        [] => format!("no option {name} here, nor any other but --help"),
        has => format!("no option {name} here; there are {}", has.join(", ")),
    }
}

#[cfg(test)]
mod tests {
    use super::*;

    fn parse(words: &[&str]) -> Result<Args, String> {
        let words: Vec<String> = words.iter().map(|word| word.to_string()).collect();
        Args::parse(&words, &["--limit", "-o", "--corpus"], &["--plain"])
    }

    #[test]
    fn values_stand_behind_a_space_or_an_equals_sign() {
        let args =
            parse(&["a", "--limit=5", "-o", "-", "--plain", "-", "--", "--limit", "--"]).expect("they are there");
        assert_eq!(args.words, ["a", "-", "--limit", "--"]);
        assert_eq!((args.number("--limit"), args.value("-o"), args.has("--plain")), (Ok(Some(5)), Some("-"), true));
        let args = parse(&["--limit", "1,000_000"]).expect("it is there");
        assert_eq!((args.number("--limit"), args.has("--plain")), (Ok(Some(1_000_000)), false));
        let args = parse(&["--corpus", "a", "--corpus=b"]).expect("they are there");
        assert_eq!(args.values("--corpus").collect::<Vec<_>>(), ["a", "b"]);
        let args = parse(&["--limit="]).expect("it is there");
        assert_eq!(args.value("--limit"), Some(""));
        assert!(args.number::<u32>("--limit").is_err());
        for wrong in ["1,5", "1,0000", "1,", ",", "1.5", "1,000,00"] {
            let why = format!("--limit: `{wrong}` is no number that can stand there");
            assert_eq!(parse(&["--limit", wrong]).expect("it is there").number::<u32>("--limit"), Err(why));
        }
    }

    #[test]
    fn what_cannot_stand_there_is_refused() {
        for (words, why) in [
            (
                &["--limits", "5"][..],
                "no option --limits here; there are --limit VALUE, -o VALUE, --corpus VALUE, --plain",
            ),
            (&["--limits=5"], "no option --limits here; there are --limit VALUE, -o VALUE, --corpus VALUE, --plain"),
            (&["-ofile"], "no option -ofile here; there are --limit VALUE, -o VALUE, --corpus VALUE, --plain"),
            (&["--plain=yes"], "--plain has no value, and so no `=yes` behind it"),
            (&["x", "-o"], "a value belongs behind -o"),
            (&["--limit", "1", "--limit=2"], "--limit is there twice, and can be there once"),
            (&["--plain", "--plain"], "--plain is there twice, and can be there once"),
        ] {
            assert_eq!(parse(words).err().as_deref(), Some(why));
        }
        assert_eq!(unknown("-x", &[], &[]), "no option -x here, nor any other but --help");
    }
}
