//! A head that runs as a program of its own. Whatever it does, hang, die or send garbage, is an answer here.

use super::complaints::Complaints;
use super::keeper::{Keeper, MOMENT, end_of};
use crate::protocol;
use crate::response::Response;
use crate::serve::Hello;
use differential::case::Case;
use std::convert::Infallible;
use std::io::{BufReader, ErrorKind, Read, Write};
use std::os::unix::process::{CommandExt, ExitStatusExt};
use std::process::{ChildStdin, ChildStdout, Command, ExitStatus, Stdio};
use std::sync::mpsc::{Receiver, RecvTimeoutError, Sender, SyncSender, channel, sync_channel};
use std::sync::{Arc, Mutex};
use std::thread;
use std::time::Duration;

/// Something else than an answer.
#[derive(Clone, Debug, PartialEq, Eq)]
pub enum Failure {
    Hangs(Duration),
    /// Its output ended: how the program ended, if it did so in a moment, and whether it was in the middle of an answer.
    Dies {
        status: Option<ExitStatus>,
        amid_answer: bool,
    },
    Garbage(String),
}

impl std::fmt::Display for Failure {
    fn fmt(&self, f: &mut std::fmt::Formatter) -> std::fmt::Result {
        match self {
            Failure::Hangs(time) => write!(f, "hangs: no answer within {} s", time.as_secs_f32()),
            Failure::Dies { status, amid_answer } => {
                match status {
                    Some(status) => write!(f, "dies: {status}{}", signal(*status))?,
                    None => f.write_str("dies: its output is closed")?,
                }
                f.write_str(if *amid_answer { "; in the middle of an answer" } else { "" })
            }
            Failure::Garbage(what) => write!(f, "answers garbage: {what}"),
        }
    }
}

/// Of a program that a signal has ended its shell says so by a status: 128 and the signal's number.
fn signal(status: ExitStatus) -> String {
    match status.code() {
        Some(code @ 129..=192) => format!(", which stands for {}", ExitStatus::from_raw(code - 128)),
        _ => String::new(),
    }
}

impl Failure {
    /// Whether the shell found no such program, or none that it may start: then it ends with one of these.
    pub fn is_missing(&self) -> bool {
        let Failure::Dies { status: Some(status), .. } = self else { return false };
        matches!(status.code(), Some(126 | 127))
    }
}

/// The end of a head's output, before it is known how the program ended.
const ENDED: Failure = Failure::Dies { status: None, amid_answer: false };

pub type Outcome = Result<Response, Failure>;

pub struct Process {
    command: String,
    pub timeout: Duration,
    running: Running,
    next_id: u32,
    /// The ids of the requests that have no answer yet, oldest first.
    waiting: std::collections::VecDeque<u32>,
    /// How long it is waited for when it is started again.
    patience: Duration,
    /// Whether it was started again, and has not been waited for.
    is_starting: bool,
}

/// So many answers may wait to be looked at, more than are ever asked for. A head that sends without end is not read on.
const MOST_WAITING: usize = 256;

/// What comes from a head: a response's body, or how the stream ended.
type Incoming = Result<Vec<u8>, Failure>;

struct Running {
    keeper: Keeper,
    ended: Receiver<ExitStatus>,
    /// How it ended, once that was told.
    status: Option<ExitStatus>,
    /// Until it is told that there are no more.
    requests: Option<Sender<Vec<u8>>>,
    responses: Receiver<Incoming>,
    complaints: Arc<Mutex<Complaints>>,
    /// Closed once its standard error is, and all of that has been read.
    complaining: Receiver<Infallible>,
}

impl Process {
    /// Starts a command, as the shell reads it.
    pub fn start(command: &str, timeout: Duration) -> Result<Process, String> {
        let (command, running, patience) = (command.to_string(), Running::start(command)?, 3 * timeout);
        let waiting = Default::default();
        Ok(Process { command, timeout, running, next_id: 1, waiting, patience, is_starting: false })
    }

    /// Ends it and starts it again, after a failure.
    pub fn restart(&mut self) -> Result<(), String> {
        self.running.keeper.end();
        self.running = Running::start(&self.command)?;
        self.waiting.clear();
        self.greet();
        Ok(())
    }

    /// Asks for a hello, so that the time which it takes to start is not taken for that of an answer.
    pub fn greet(&mut self) {
        let id = self.take_id();
        self.put(protocol::hello(id));
        self.is_starting = true;
    }

    /// Waits until it has said hello, if it was started again; once more if it does not.
    pub fn ready(&mut self) -> Result<Result<(), Failure>, String> {
        if !self.is_starting {
            return Ok(Ok(()));
        }
        if self.greeted().is_err() {
            self.restart()?;
            return Ok(self.greeted());
        }
        Ok(Ok(()))
    }

    fn greeted(&mut self) -> Result<(), Failure> {
        let timeout = std::mem::replace(&mut self.timeout, self.patience);
        let said = self.receive();
        (self.timeout, self.is_starting) = (timeout, said.is_err());
        said.map(drop)
    }

    pub fn send(&mut self, case: &Case) {
        let id = self.take_id();
        self.put(protocol::request(id, case));
    }

    /// A head that is gone is noticed when its answer is missed.
    fn put(&self, request: Vec<u8>) {
        let _ = self.running.requests.as_ref().map(|requests| requests.send(request));
    }

    fn take_id(&mut self) -> u32 {
        let id = self.next_id;
        self.next_id = self.next_id.wrapping_add(1);
        self.waiting.push_back(id);
        id
    }

    /// The answer to the oldest request that has none yet.
    pub fn receive(&mut self) -> Outcome {
        let wanted = self.waiting.pop_front().expect("a request was sent");
        let body = match self.running.responses.recv_timeout(self.timeout) {
            Ok(Ok(body)) => body,
            Ok(Err(failure)) => return Err(self.running.with_status(failure)),
            Err(RecvTimeoutError::Timeout) => return Err(Failure::Hangs(self.timeout)),
            Err(RecvTimeoutError::Disconnected) => return Err(self.running.with_status(ENDED)),
        };
        let (id, response) = protocol::read_response(&body).map_err(Failure::Garbage)?;
        if id != wanted {
            return Err(Failure::Garbage(format!("the answer to request {id}, where {wanted} was asked")));
        }
        Ok(response)
    }

    /// One case asked of it, as it was just started, and what it wrote to standard error from its start to its end.
    pub fn ask_alone(&mut self, case: &Case) -> Result<(Outcome, Complaints), String> {
        self.send(case);
        let outcome = self.receive();
        let complaints = self.running.all_complaints();
        self.restart()?;
        Ok((outcome, complaints))
    }

    pub fn hello(&mut self) -> Result<Hello, Failure> {
        let id = self.take_id();
        self.put(protocol::hello(id));
        let response = self.receive()?;
        Hello::parse(&response.result).map_err(Failure::Garbage)
    }

    /// What it has written to standard error so far.
    pub fn complaints(&self) -> Complaints {
        self.running.complaints()
    }
}

impl Running {
    fn start(command: &str) -> Result<Running, String> {
        let keeper = Keeper::start().map_err(|e| format!("sh: {e}"))?;
        let mut child = Command::new("sh")
            .args(["-c", "--", command])
            .stdin(Stdio::piped())
            .stdout(Stdio::piped())
            .stderr(Stdio::piped())
            .process_group(keeper.group())
            .spawn()
            .map_err(|e| format!("{command}: {e}"))?;
        let (requests, to_write) = channel();
        let (received, responses) = sync_channel(MOST_WAITING);
        let (complains, complaining) = channel();
        let complaints = Arc::new(Mutex::new(Complaints::default()));
        let (stdin, stdout) = (child.stdin.take().expect("piped"), child.stdout.take().expect("piped"));
        let (stderr, kept) = (child.stderr.take().expect("piped"), complaints.clone());
        thread::spawn(move || write_all(stdin, &to_write));
        thread::spawn(move || read_all(stdout, &received));
        thread::spawn(move || {
            keep(stderr, &kept);
            drop::<Sender<Infallible>>(complains);
        });
        let (ended, requests) = (end_of(child), Some(requests));
        Ok(Running { keeper, ended, status: None, requests, responses, complaints, complaining })
    }

    /// For a stream that ended: how the program ended. It has closed its output; it is given a moment to end.
    fn with_status(&mut self, failure: Failure) -> Failure {
        let Failure::Dies { amid_answer, .. } = failure else { return failure };
        self.status = self.status.or_else(|| self.ended.recv_timeout(MOMENT).ok());
        if self.status.is_some() {
            self.wait_for_complaints();
        }
        Failure::Dies { status: self.status, amid_answer }
    }

    fn complaints(&self) -> Complaints {
        self.complaints.lock().map(|kept| kept.clone()).unwrap_or_default()
    }

    /// What it has written to standard error once it was told that there are no more requests, and had a moment to end.
    fn all_complaints(&mut self) -> Complaints {
        self.requests = None;
        self.wait_for_complaints();
        self.complaints()
    }

    /// What a program wrote before it ended has a moment to be read.
    fn wait_for_complaints(&self) {
        let _ = self.complaining.recv_timeout(MOMENT);
    }
}

/// Writes requests until there are no more, or nobody reads them. Those that wait go out together.
fn write_all(mut stdin: ChildStdin, requests: &Receiver<Vec<u8>>) {
    while let Ok(mut bytes) = requests.recv() {
        requests.try_iter().for_each(|more| bytes.extend(more));
        if stdin.write_all(&bytes).and_then(|()| stdin.flush()).is_err() {
            return;
        }
    }
}

fn read_all(stdout: ChildStdout, received: &SyncSender<Incoming>) {
    let mut stdout = BufReader::with_capacity(1 << 16, stdout);
    loop {
        let incoming = match protocol::read_frame(&mut stdout) {
            Ok(Some(body)) => Ok(body),
            Ok(None) => Err(ENDED),
            Err(e) if e.kind() == ErrorKind::UnexpectedEof => Err(Failure::Dies { status: None, amid_answer: true }),
            Err(e) => Err(Failure::Garbage(e.to_string())),
        };
        let is_last = incoming.is_err();
        if received.send(incoming).is_err() || is_last {
            return;
        }
    }
}

fn keep(mut stderr: impl Read, kept: &Mutex<Complaints>) {
    let mut bytes = [0; 4096];
    loop {
        let n = match stderr.read(&mut bytes) {
            Err(e) if e.kind() == ErrorKind::Interrupted => continue,
            Ok(0) | Err(_) => return,
            Ok(n) => n,
        };
        let Ok(mut kept) = kept.lock() else { return };
        kept.add(&bytes[..n]);
    }
}
