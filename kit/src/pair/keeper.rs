//! What ends a head with all that it has started: where the kit wants it, and where the kit itself is ended.

use std::io::{self, Read};
use std::os::unix::process::CommandExt;
use std::process::{Child, ChildStdin, Command, ExitStatus, Stdio};
use std::sync::mpsc::{Receiver, RecvTimeoutError, channel};
use std::thread;
use std::time::Duration;

/// What a program that ends, or that is ended, may take for it.
pub const MOMENT: Duration = Duration::from_millis(500);

/// Says when nothing that is sent to the group for another reason ends or stops it any more, and ends the group as soon as its
/// input is closed.
const SCRIPT: &str = "trap '' HUP INT QUIT TERM TSTP TTIN TTOU; echo; read -r line; kill -KILL 0";

/// A shell that leads the process group of a head. Whatever ends the kit closes its input, so a head that hangs does not outlive
/// the kit. As long as it is there the group's number is no other group's, though the head itself may have ended.
pub struct Keeper {
    group: i32,
    input: Option<ChildStdin>,
    ended: Receiver<ExitStatus>,
}

impl Keeper {
    pub fn start() -> io::Result<Keeper> {
        let mut command = Command::new("sh");
        command.args(["-c", SCRIPT]).process_group(0);
        let mut shell = command.stdin(Stdio::piped()).stdout(Stdio::piped()).stderr(Stdio::null()).spawn()?;
        let group = i32::try_from(shell.id()).map_err(io::Error::other)?;
        let (input, mut output) = (shell.stdin.take(), shell.stdout.take().expect("piped"));
        let keeper = Keeper { group, input, ended: end_of(shell) };
        output.read_exact(&mut [0])?;
        Ok(keeper)
    }

    /// The group for a head.
    pub fn group(&self) -> i32 {
        self.group
    }

    /// Ends all that is of the group.
    pub fn end(&mut self) {
        drop(self.input.take());
        // What has stopped the whole group has stopped the keeper too.
        if self.ended.recv_timeout(MOMENT) == Err(RecvTimeoutError::Timeout) {
            let _ = Command::new("sh").args(["-c", "kill -KILL \"-$0\"", &self.group.to_string()]).status();
        }
    }
}

impl Drop for Keeper {
    fn drop(&mut self) {
        self.end();
    }
}

/// Tells how a program ended, once it has.
pub fn end_of(mut program: Child) -> Receiver<ExitStatus> {
    let (told, ended) = channel();
    thread::spawn(move || program.wait().map(|status| told.send(status)));
    ended
}
