//! The commands. See README.md.

use kit::commands::{self, Done};
use kit::output;
use std::env;
use std::ffi::OsString;
use std::io::Write;
use std::process::ExitCode;
use std::thread;

/// The walks of models and printers recurse as deep as tapes nest.
const STACK: usize = 64 << 20;

fn main() -> ExitCode {
    match run() {
        Ok(Done::Well) => ExitCode::SUCCESS,
        Ok(Done::Refused) => ExitCode::from(1),
        Err(message) => {
            // Where not even that can be written, the exit status says it alone.
            let _ = if message.is_empty() { Ok(()) } else { writeln!(std::io::stderr(), "{message}") };
            ExitCode::from(2)
        }
    }
}

fn run() -> Result<Done, String> {
    let words = env::args_os().skip(1).map(in_utf8).collect::<Result<Vec<String>, _>>()?;
    let command = move || commands::run(&words).and_then(|done| output::finish().map(|()| done));
    let thread = thread::Builder::new().stack_size(STACK).spawn(command);
    let ended = thread.map_err(|e| format!("no thread for the command: {e}"))?.join();
    // A mistake of the kit's own has been printed.
    ended.unwrap_or_else(|_| Err(String::new()))
}

fn in_utf8(word: OsString) -> Result<String, String> {
    word.into_string().map_err(|word| format!("`{}` is no UTF-8, as each word of a command has to be", word.display()))
}
