//! The small C program that holds the proved archive, and the frames it is spoken to in (`c/tests/host.c`).

use std::env;
use std::io::{Read, Write};
use std::process::{Child, ChildStdin, ChildStdout, Command, ExitStatus, Stdio};

/// What the program leaves in an out-number that a call did not write.
#[allow(dead_code)] // there are calls without out-numbers
pub const LEFT_ALONE: i32 = 0x5A5A_5A5A;

/// What a lent room of the program holds before a call.
#[allow(dead_code)] // there are calls without a room
pub fn lent_room(length: usize, fill: u8) -> Vec<u8> {
    (0..length).map(|i| fill.wrapping_add((7 * i) as u8)).collect()
}

pub struct Host {
    child: Child,
    calls: Option<ChildStdin>,
    answers: ChildStdout,
}

impl Host {
    /// Starts the program that `YB_HOST` names: a command line, split at blanks.
    pub fn start() -> Host {
        Host::start_with(Stdio::inherit())
    }

    /// The same, with its messages kept for `end`.
    pub fn start_quietly() -> Host {
        Host::start_with(Stdio::piped())
    }

    fn start_with(messages: Stdio) -> Host {
        let line = env::var("YB_HOST").unwrap_or_default();
        let mut words = line.split_whitespace();
        let program = words.next().unwrap_or_else(|| {
            panic!(
                "YB_HOST is not set: nothing was compared with the archive. `make test` sets it to the \
                 command that runs the program built from c/tests/host.c"
            )
        });
        let mut child = Command::new(program)
            .args(words)
            .stdin(Stdio::piped())
            .stdout(Stdio::piped())
            .stderr(messages)
            .spawn()
            .unwrap_or_else(|error| panic!("YB_HOST, `{line}`, does not start: {error}"));
        let calls = child.stdin.take();
        let answers = child.stdout.take().expect("standard output is a pipe");
        Host { child, calls, answers }
    }

    /// Sends one frame and waits for its answer.
    pub fn call(&mut self, op: u8, payload: &[u8]) -> Vec<u8> {
        self.send(op, payload);
        let mut length = [0; 4];
        self.answers.read_exact(&mut length).expect("the host answers");
        let mut answer = vec![0; u32::from_le_bytes(length) as usize];
        self.answers.read_exact(&mut answer).expect("the host answers in full");
        answer
    }

    /// Sends one frame. Where the program has ended already, `end` says how.
    pub fn send(&mut self, op: u8, payload: &[u8]) {
        let mut frame = vec![op];
        frame.extend((payload.len() as u32).to_le_bytes());
        frame.extend(payload);
        self.send_bytes(&frame);
    }

    pub fn send_bytes(&mut self, bytes: &[u8]) {
        let calls = self.calls.as_mut().expect("the host is running");
        let _ = calls.write_all(bytes).and_then(|()| calls.flush());
    }

    /// Ends the input, and gives the program's exit status and the messages that were kept.
    pub fn end(mut self) -> (ExitStatus, String) {
        drop(self.calls.take());
        let mut messages = String::new();
        if let Some(mut kept) = self.child.stderr.take() {
            kept.read_to_string(&mut messages).expect("the messages are text");
        }
        (self.child.wait().expect("the host ends"), messages)
    }
}

/// The host ends with a message on a row of calls that is cut, and takes an empty row.
#[allow(dead_code)] // an op without rows has none to cut
pub fn refuses_cut_rows(op: u8, row: &[u8], lengths: &[usize], message: &str) {
    for &length in lengths {
        let mut host = Host::start_quietly();
        host.send(op, &row[..length]);
        let (status, messages) = host.end();
        assert_eq!((status.code(), messages.as_str()), (Some(1), message), "{length} bytes");
    }
    let mut host = Host::start();
    assert_eq!(host.call(op, &[]), [0u8; 0]);
    assert!(host.end().0.success());
}
