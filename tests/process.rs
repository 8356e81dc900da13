//! Running the built program: a process that is fed, and read up to its end.

use std::io::{Read, Write};
use std::process::{Child, Command, ExitStatus, Stdio};
use std::sync::mpsc::channel;
use std::thread;
use std::time::{Duration, Instant};

/// How long a process may take; one that takes longer is killed.
pub const LIMIT: Duration = Duration::from_secs(20);

/// What a process wrote, and how it ended.
pub struct Shown {
    pub output: Vec<u8>,
    pub errors: Vec<u8>,
    pub status: ExitStatus,
}

/// A program with pipes for its input, its output and its errors.
pub fn piped(program: &str) -> Command {
    let mut command = Command::new(program);
    command.stdin(Stdio::piped()).stdout(Stdio::piped()).stderr(Stdio::piped());
    command
}

/// The same, made so by a shell that first runs some commands of its own.
pub fn piped_after(first: &str, program: &str) -> Command {
    let mut command = piped("sh");
    command.args(["-c", &format!("{first}; exec \"$0\""), program]);
    command
}

pub fn started(command: &mut Command) -> Result<Child, String> {
    command.spawn().map_err(|why| format!("{command:?}: {why}"))
}

/// Writes the pieces with a pause after each, as long as they are read, and ends the input.
fn write(input: Option<impl Write>, pieces: &[&[u8]], pause: Duration) {
    let Some(mut input) = input else { return };
    for piece in pieces {
        if input.write_all(piece).and_then(|()| input.flush()).is_err() {
            return;
        }
        thread::sleep(pause);
    }
}

fn read(from: Option<impl Read>) -> Vec<u8> {
    let mut bytes = Vec::new();
    if let Some(mut from) = from {
        from.read_to_end(&mut bytes).unwrap();
    }
    bytes
}

fn status_by(deadline: Instant, child: &mut Child) -> Option<ExitStatus> {
    loop {
        match child.try_wait().unwrap() {
            None if Instant::now() < deadline => thread::sleep(Duration::from_micros(50)),
            status => return status,
        }
    }
}

/// Feeds a process in pieces with a pause after each, and takes what it shows; nothing where it does not end in time.
pub fn ended(mut child: Child, pieces: &[&[u8]], pause: Duration) -> Option<Shown> {
    let deadline = Instant::now() + LIMIT;
    let (input, output, errors) = (child.stdin.take(), child.stdout.take(), child.stderr.take());
    thread::scope(|scope| {
        let (send, written) = channel();
        scope.spawn(move || write(input, pieces, pause));
        scope.spawn(move || send.send((read(output), read(errors))));
        if let Ok((output, errors)) = written.recv_timeout(LIMIT) {
            if let Some(status) = status_by(deadline, &mut child) {
                return Some(Shown { output, errors, status });
            }
        }
        child.kill().and_then(|()| child.wait()).unwrap();
        None
    })
}
