//! Runs a program on pieces of input, and takes what it writes.

use second::Random;
use std::fs::File;
use std::io::{ErrorKind, Read, Write};
use std::process::{Child, Command, ExitStatus, Stdio};
use std::sync::{mpsc, RwLock};
use std::thread::{self, JoinHandle};
use std::time::{Duration, Instant};

/// A program that takes longer hangs: it is stopped, and its test fails.
const LIMIT: Duration = Duration::from_secs(30);

/// Shared by the programs that run, and held alone where an output is closed: a program that is
/// just starting has every pipe of this process open for a moment.
static RUNNING: RwLock<()> = RwLock::new(());

/// What a program wrote to standard output and to standard error.
#[derive(Debug, PartialEq, Eq)]
pub struct Written {
    pub out: Vec<u8>,
    pub said: String,
}

fn path(name: &str) -> String {
    format!("{}/../../target/bin/{name}", env!("CARGO_MANIFEST_DIR"))
}

/// A program of target/bin with these arguments.
pub fn program(name: &str, arguments: &[&str]) -> Command {
    let mut command = Command::new(path(name));
    command.args(arguments);
    command
}

/// The same in the place of a shell that was given these words first.
pub fn program_after(words: &str, name: &str, arguments: &[&str]) -> Command {
    let mut command = Command::new("sh");
    command.args(["-c", &format!("{words}; exec \"$0\" \"$@\""), &path(name)]).args(arguments);
    command
}

fn start(mut command: Command, input: Stdio, output: Stdio) -> Child {
    command.stdin(input).stdout(output).stderr(Stdio::piped()).spawn().unwrap_or_else(|error| {
        panic!("{command:?}: {error}. Run `.ci/build NAME` in the repository first.")
    })
}

/// Waits for the end of a program: how it ended, and what it wrote that nobody else took.
fn end(mut program: Child) -> (ExitStatus, Written) {
    let out = program.stdout.take().map(take_all);
    let said = take_all(program.stderr.take().unwrap());
    let begin = Instant::now();
    let status = loop {
        match program.try_wait().unwrap() {
            Some(status) => break status,
            None if begin.elapsed() < LIMIT => thread::sleep(Duration::from_millis(1)),
            None => {
                program.kill().and_then(|()| program.wait()).unwrap();
                panic!("the program did not end, and said {:?}", text(said.join().unwrap()));
            }
        }
    };
    let out = out.map_or(Vec::new(), |out| out.join().unwrap());
    (status, Written { out, said: text(said.join().unwrap()) })
}

fn text(bytes: Vec<u8>) -> String {
    String::from_utf8(bytes).unwrap()
}

fn take_all(mut pipe: impl Read + Send + 'static) -> JoinHandle<Vec<u8>> {
    thread::spawn(move || {
        let mut bytes = Vec::new();
        pipe.read_to_end(&mut bytes).unwrap();
        bytes
    })
}

/// Writes a piece to a program's input, or finds that it has ended: it may want no more input.
fn feed(input: &mut impl Write, piece: &[u8]) -> bool {
    match input.write_all(piece) {
        Err(error) if error.kind() == ErrorKind::BrokenPipe => false,
        written => {
            written.unwrap();
            true
        }
    }
}

/// Runs a program of target/bin with these arguments. It is fed the pieces one after the other,
/// with a pause after each where one is asked for.
pub fn run(
    name: &str,
    arguments: &[&str],
    pieces: Vec<Vec<u8>>,
    pause: Option<Duration>,
) -> Written {
    let _shared = RUNNING.read();
    let mut program = start(program(name, arguments), Stdio::piped(), Stdio::piped());
    let mut input = program.stdin.take().unwrap();
    // A thread of its own feeds the program, so that neither waits for the other.
    let feeder = thread::spawn(move || {
        for piece in pieces {
            if !feed(&mut input, &piece) {
                return;
            }
            if let Some(pause) = pause {
                thread::sleep(pause);
            }
        }
    });
    let (status, written) = end(program);
    feeder.join().unwrap();
    assert!(status.success(), "{status}");
    written
}

/// Runs a program of target/bin that is fed a piece of its input only once it has written so many
/// bytes for each piece before. Its input then ends. It hangs if it holds anything back.
pub fn run_in_turns(name: &str, arguments: &[&str], turns: Vec<(Vec<u8>, usize)>) -> Written {
    let _shared = RUNNING.read();
    let mut program = start(program(name, arguments), Stdio::piped(), Stdio::piped());
    let mut input = program.stdin.take().unwrap();
    let mut output = program.stdout.take().unwrap();
    let turner = thread::spawn(move || {
        let mut out = Vec::new();
        for (piece, length) in turns {
            feed(&mut input, &piece);
            output.by_ref().take(length as u64).read_to_end(&mut out).unwrap();
        }
        drop(input);
        output.read_to_end(&mut out).unwrap();
        out
    });
    let (status, written) = end(program);
    assert!(status.success(), "{status}");
    Written { out: turner.join().unwrap(), ..written }
}

/// Runs a program that reads this input.
pub fn run_on(input: Stdio, command: Command) -> (ExitStatus, Written) {
    let _shared = RUNNING.read();
    end(start(command, input, Stdio::piped()))
}

/// What a program is fed: its input then ends, or it stays open, so that the program ends only of
/// its own will; or the second half comes once a file has so many bytes, and it stays open.
pub enum Input {
    Ends(Vec<u8>),
    StaysOpen(Vec<u8>),
    OnceWritten([Vec<u8>; 2], File, u64),
}

/// Runs a program that writes to this output.
pub fn run_onto(output: Stdio, command: Command, fed: Input) -> (ExitStatus, Written) {
    let _shared = RUNNING.read();
    let mut program = start(command, Stdio::piped(), output);
    let mut input = program.stdin.take().unwrap();
    let feeder = thread::spawn(move || match fed {
        Input::Ends(fed) => {
            feed(&mut input, &fed);
            None
        }
        Input::StaysOpen(fed) => {
            feed(&mut input, &fed);
            Some(input)
        }
        Input::OnceWritten([before, behind], file, length) => {
            feed(&mut input, &before);
            let begin = Instant::now();
            while file.metadata().unwrap().len() < length && begin.elapsed() < LIMIT {
                thread::sleep(Duration::from_millis(1));
            }
            feed(&mut input, &behind);
            Some(input)
        }
    });
    let ended = end(program);
    feeder.join().unwrap();
    ended
}

/// Runs a program whose output is closed when so many bytes of it were read, between two pieces of
/// its input. The input stays open behind them.
pub fn run_until_closed(
    length: usize,
    command: Command,
    [before, behind]: [Vec<u8>; 2],
) -> (ExitStatus, Written) {
    let _alone = RUNNING.write();
    let mut program = start(command, Stdio::piped(), Stdio::piped());
    let mut input = program.stdin.take().unwrap();
    let mut output = program.stdout.take().unwrap();
    let (closed, when_closed) = mpsc::channel();
    let reader = thread::spawn(move || {
        let mut out = Vec::new();
        output.by_ref().take(length as u64).read_to_end(&mut out).unwrap();
        drop(output);
        closed.send(()).unwrap();
        out
    });
    let feeder = thread::spawn(move || {
        feed(&mut input, &before);
        when_closed.recv().unwrap();
        feed(&mut input, &behind);
        input
    });
    let (status, written) = end(program);
    feeder.join().unwrap();
    (status, Written { out: reader.join().unwrap(), ..written })
}

/// Cuts an input into pieces of 1 to so many bytes.
pub fn pieces(random: &mut Random, input: &[u8], most: u64) -> Vec<Vec<u8>> {
    let (mut rest, mut pieces) = (input, Vec::new());
    while !rest.is_empty() {
        let length = (1 + random.below(most) as usize).min(rest.len());
        pieces.push(rest[..length].to_vec());
        rest = &rest[length..];
    }
    pieces
}
