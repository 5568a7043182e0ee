//! What a user may type: each command with its help. The texts are files of `help/`, which `../neukolja` prints without the kit
//! where that is not built.

use super::{Done, check, expand, pairing, show, tapes};

pub struct Command {
    pub name: &'static str,
    pub help: &'static str,
    pub run: fn(&[String]) -> Result<Done, String>,
}

/// A command whose help is the file of its name.
macro_rules! command {
    ($name:literal, $run:path) => {
        Command { name: $name, help: include_str!(concat!("../../help/", $name, ".txt")), run: $run }
    };
}

const COMMANDS: [Command; 13] = [
    command!("expand", expand::expand),
    command!("check", check::check),
    command!("show", show::show),
    command!("tape", show::tape),
    command!("preview", expand::preview),
    command!("older", tapes::older),
    command!("judge", expand::judge),
    command!("profile", expand::profile),
    command!("merge", tapes::merge),
    command!("pair", pairing::pair),
    command!("serve", pairing::serve),
    command!("wrong", pairing::wrong),
    command!("corpus", pairing::corpus),
];

/// All commands, a line for each.
pub const ALL: &str = include_str!("../../help.txt");

/// What the tapes and frames are that this version reads and writes.
pub const FORMAT: &str = include_str!("../../format.txt");

pub fn command(name: &str) -> Result<&'static Command, String> {
    COMMANDS
        .iter()
        .find(|command| command.name == name)
        .ok_or_else(|| format!("no command `{name}`\n{}", ALL.trim_end()))
}

/// How a command is typed: the first paragraph of its help.
pub fn usage(name: &str) -> &'static str {
    let help = COMMANDS.iter().find(|command| command.name == name).map_or(ALL, |command| command.help);
    help.split("\n\n").next().unwrap_or(help)
}

#[cfg(test)]
mod tests {
    use super::*;
    use crate::pair::grouped;
    use crate::serve::FEATURES;
    use differential::tape::LARGEST;

    #[test]
    fn the_format_is_the_one_that_is_read() {
        let (entries, text) = (LARGEST.entries as u64, LARGEST.text as u64);
        let [n, t, bytes] = [entries, text, 8 + 9 * entries + text].map(grouped);
        let tapes = format!("tapes of at most {n} entries, {t} bytes of text and {bytes} bytes");
        assert_eq!(FORMAT, format!("format: {tapes}; frames with {}\n", FEATURES.join(" ")));
    }
}
