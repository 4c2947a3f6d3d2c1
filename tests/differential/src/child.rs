// The judging program as a child process, with its input from a pipe or a file, and a time limit.

use std::io::{Read, Write};
use std::process::{Child, ChildStdin, Command, ExitStatus, Stdio};
use std::sync::mpsc::{channel, Receiver};
use std::thread::{self, JoinHandle};
use std::time::{Duration, Instant};

use crate::paths::program;

/// Far longer than any run takes.
const LIMIT: Duration = Duration::from_secs(20);

/// What the program is given.
pub enum Input {
    Whole(Vec<u8>),
    /// These pieces, with a pause after each.
    Pieces(Vec<Vec<u8>>, Duration),
    /// These bytes, and after them nothing, not even an end.
    LeftOpen(Vec<u8>),
    /// The first bytes, and after them the second ones again and again.
    Endless(Vec<u8>, Vec<u8>),
}

pub struct Ended {
    /// What was printed.
    pub output: Vec<u8>,
    /// What was written to standard error.
    pub errors: Vec<u8>,
    /// None if the program had to be stopped.
    pub status: Option<ExitStatus>,
}

/// Runs the program on an input and takes what it prints.
pub fn on(input: Input) -> Ended {
    run(Command::new(program()).stdout(Stdio::piped()), input)
}

/// Runs a line of shell, in which "$0" is the program, on an input.
pub fn by_shell(line: &str, input: &[u8]) -> Ended {
    let mut command = Command::new("sh");
    let command = command.arg("-c").arg(line).arg(program());
    run(command.stdout(Stdio::piped()), Input::Whole(input.to_vec()))
}

/// Runs the program on an input, with a pipe for its output that nobody reads.
pub fn unread(input: &[u8]) -> Ended {
    let mut pipe = Command::new("true");
    let mut ended = pipe.stdin(Stdio::piped()).spawn().expect("true starts");
    let unread = ended.stdin.take().expect("its input is a pipe");
    let _ = ended.wait();
    run(
        Command::new(program()).stdout(unread),
        Input::Whole(input.to_vec()),
    )
}

fn run(command: &mut Command, input: Input) -> Ended {
    let child = command.stdin(Stdio::piped()).stderr(Stdio::piped());
    let mut child = child.spawn().expect("the judging program starts");
    let pipe = child.stdin.take().expect("its input is a pipe");
    // Held until the program has ended.
    let (has_ended, wait_for_end) = channel();
    let feeder = thread::spawn(move || feed(pipe, input, &wait_for_end));
    let ended = end_of(child);
    drop(has_ended);
    feeder.join().expect("feeding does not panic");
    ended
}

/// Writes the input; that the program may end before it has read all of it is no error.
fn feed(mut pipe: ChildStdin, input: Input, end: &Receiver<()>) {
    match input {
        Input::Whole(bytes) => {
            let _ = pipe.write_all(&bytes);
        }
        Input::Pieces(pieces, pause) => {
            for piece in pieces {
                if pipe.write_all(&piece).is_err() {
                    return;
                }
                thread::sleep(pause);
            }
        }
        Input::LeftOpen(bytes) => {
            let _ = pipe.write_all(&bytes);
            let _ = end.recv();
        }
        Input::Endless(first, then) => {
            let mut piece = first;
            while pipe.write_all(&piece).is_ok() {
                piece = then.repeat(1 + 4096 / then.len());
            }
        }
    }
}

/// Reads a pipe to its end.
fn reader(pipe: Option<impl Read + Send + 'static>) -> JoinHandle<Vec<u8>> {
    thread::spawn(move || {
        let mut bytes = Vec::new();
        if let Some(mut pipe) = pipe {
            let _ = pipe.read_to_end(&mut bytes);
        }
        bytes
    })
}

/// Waits for the end of a child and for what it wrote, or stops it.
fn end_of(mut child: Child) -> Ended {
    let (output, errors) = (reader(child.stdout.take()), reader(child.stderr.take()));
    let started = Instant::now();
    let mut pause = Duration::from_micros(50);
    let status = loop {
        match child.try_wait() {
            Ok(None) if started.elapsed() < LIMIT => {}
            Ok(None) | Err(_) => {
                let _ = child.kill();
                let _ = child.wait();
                break None;
            }
            Ok(ended) => break ended,
        }
        thread::sleep(pause);
        pause = (2 * pause).min(Duration::from_millis(5));
    };
    Ended {
        output: output.join().expect("reading does not panic"),
        errors: errors.join().expect("reading does not panic"),
        status,
    }
}
