//! Input that cannot be read and output that cannot be written: the program says so in one line,
//! tells nothing as done that was not, and ends.

use crate::feed::{program, program_after, run_on, run_onto, run_until_closed, Input, Written};
use crate::filters::{demapped, mapped};
use crate::sinkshow::lines;
use second::seeds;
use std::fs::{self, File};
use std::io::{self, Read, Seek, Write};
use std::os::fd::OwnedFd;
use std::os::unix::net::UnixStream;
use std::os::unix::process::ExitStatusExt;
use std::process::{self, Command, ExitStatus, Stdio};

// The system's numbers of these errors.
const EISDIR: i32 = 21;
const EFBIG: i32 = 27;
const ENOSPC: i32 = 28;
const EPIPE: i32 = 32;
const ECONNRESET: i32 = 104;

/// A program, and a run of it that writes many times.
struct Case {
    name: &'static str,
    arguments: &'static [&'static str],
    input: Vec<u8>,
    /// What it writes if nothing fails.
    out: Vec<u8>,
    /// How much it reads before its first write, and how much that write has.
    first: (usize, usize),
    /// What it says before that write. Before the next ones it says nothing.
    lines: &'static str,
    /// What it says at its end if it has read nothing, and after no write and one.
    totals: [&'static str; 3],
}

impl Case {
    fn program(&self) -> Command {
        program(self.name, self.arguments)
    }

    /// The same, after a shell was given these words.
    fn program_after(&self, words: &str) -> Command {
        program_after(words, self.name, self.arguments)
    }

    /// The line that says which stream failed, and why in the system's words.
    fn failed(&self, stream: &str, error: i32) -> String {
        let words = io::Error::from_raw_os_error(error).to_string();
        let words = words.strip_suffix(&format!(" (os error {error})")).unwrap();
        format!("{}: standard {stream}: {words}\n", self.name)
    }

    /// The input before its first write, and behind.
    fn halves(&self) -> [Vec<u8>; 2] {
        let (before, behind) = self.input.split_at(self.first.0);
        [before.to_vec(), behind.to_vec()]
    }
}

/// The three programs. All loads have the same length, so that odu0demap says the standing of the
/// first frame only. For that one it has no count; the first load that it hands out is that of the
/// second.
fn cases() -> [Case; 3] {
    let client = seeds::random("failing").bytes(5 * 14407);
    let frames = mapped(&client, (14407, 1)).out;
    let zeros = vec![0; 2000 * 16];
    [
        Case {
            name: "odu0map",
            arguments: &["14407", "1"],
            input: client,
            out: frames.clone(),
            first: (14407, 15240),
            lines: "",
            totals: [
                "odu0map: frames 0, bytes 0\n",
                "odu0map: frames 0, bytes 0\n",
                "odu0map: frames 1, bytes 14407\n",
            ],
        },
        Case {
            name: "odu0demap",
            arguments: &[],
            out: demapped(&frames, &[]).out,
            input: frames,
            first: (2 * 15240, 14407),
            lines: "frame 1: READ 14407\n",
            totals: [
                "odu0demap: frames 0, BADCHECK 0, bytes 0\n",
                "odu0demap: frames 1, BADCHECK 0, bytes 0\n",
                "odu0demap: frames 2, BADCHECK 0, bytes 14407\n",
            ],
        },
        Case {
            name: "sinkshow",
            arguments: &[],
            out: lines(&zeros).into_bytes(),
            input: zeros,
            first: (16, "1 0 READ 0\n".len()),
            lines: "",
            totals: [""; 3],
        },
    ]
}

fn full_device() -> Stdio {
    File::options().write(true).open("/dev/full").unwrap().into()
}

/// An empty file, whose name is gone.
fn new_file(name: &str) -> File {
    let path = format!("{}/{name}_{}", env!("CARGO_TARGET_TMPDIR"), process::id());
    let file = File::options().read(true).write(true).create_new(true).open(&path).unwrap();
    fs::remove_file(&path).unwrap();
    file
}

/// An input that gives these bytes and then an error: its other end is closed with a byte unread.
fn reset_after(bytes: &[u8]) -> Stdio {
    let (mut input, mut other) = UnixStream::pair().unwrap();
    input.write_all(&[0]).unwrap();
    other.write_all(bytes).unwrap();
    OwnedFd::from(input).into()
}

/// Asserts that a program ended by itself, that it wrote these bytes, and that it said this.
fn assert_ended((status, written): (ExitStatus, Written), out: &[u8], said: &str) {
    assert_eq!((status.signal(), written.said.as_str()), (None, said));
    assert!(written.out == out, "{} bytes, and not these {}", written.out.len(), out.len());
}

#[test]
fn a_full_device() {
    for case in cases() {
        let said = [case.lines, &case.failed("output", ENOSPC), case.totals[1]].concat();
        let ended = run_onto(full_device(), case.program(), Input::StaysOpen(case.input));
        assert_ended(ended, b"", &said);
    }
}

/// odu0demap says nothing of a frame whose bytes it cannot write, be it harmed or mended, and its
/// tally is without it.
#[test]
fn a_standing_whose_bytes_are_not_written() {
    for arguments in [&[][..], &["mend"]] {
        let [_, case, _] = cases();
        let mut case = Case { arguments, ..case };
        case.input[15240 + 1] ^= 1;
        let said = [case.lines, &case.failed("output", ENOSPC), case.totals[1]].concat();
        let ended = run_onto(full_device(), case.program(), Input::StaysOpen(case.input));
        assert_ended(ended, b"", &said);
    }
}

/// With the type check on nothing is written before the type is accepted, which is told; the write
/// of frame 514 is the first that fails.
#[test]
fn an_accepted_type_and_a_full_device() {
    let client = seeds::random("an_accepted_type_and_a_full_device").bytes(514 * 14407);
    let frames = mapped(&client, (14407, 1)).out;
    let [_, case, _] = cases();
    let case = Case { arguments: &["type", "7"], ..case };
    let totals = "odu0demap: frames 513, BADCHECK 0, bytes 0\n";
    let accepted = "frame 513: accepted type 7\n";
    let said = [case.lines, accepted, &case.failed("output", ENOSPC), totals].concat();
    let ended = run_onto(full_device(), case.program(), Input::StaysOpen(frames));
    assert_ended(ended, b"", &said);
}

#[test]
fn a_full_device_for_the_line_of_a_rest() {
    let [.., sinkshow] = cases();
    let ended = run_onto(full_device(), sinkshow.program(), Input::Ends(vec![0; 5]));
    assert_ended(ended, b"", &sinkshow.failed("output", ENOSPC));
}

/// Where nothing is written nothing fails.
#[test]
fn a_full_device_for_nothing() {
    let said = [
        "odu0map: 14406 bytes left at the end\nodu0map: frames 0, bytes 0\n",
        "frame 1: READ 14407\nodu0demap: 15239 bytes left at the end\n\
         odu0demap: frames 1, BADCHECK 0, bytes 0\n",
        "",
    ];
    for (case, said) in cases().into_iter().zip(said) {
        let short = match case.name {
            "sinkshow" => vec![],
            _ => case.input[..case.first.0 - 1].to_vec(),
        };
        let ended = run_onto(full_device(), case.program(), Input::Ends(short));
        assert_ended(ended, b"", said);
    }
}

/// Runs a program that writes to a file which may have 40 blocks of 512 bytes, and asserts that it
/// fills it and says this.
fn assert_fills_a_file(case: &Case, said: &str, fed: impl FnOnce(&File) -> Input) {
    let mut file = new_file(case.name);
    let limited = case.program_after("trap '' XFSZ; ulimit -f 40");
    let output = file.try_clone().unwrap().into();
    let (status, written) = run_onto(output, limited, fed(&file));
    let mut out = Vec::new();
    file.rewind().and_then(|()| file.read_to_end(&mut out)).unwrap();
    assert_ended((status, Written { out, ..written }), &case.out[..40 * 512], said);
}

/// All frames come at once: a filter fills the file within its first write, of more frames than
/// one, and tells the totals before it. sinkshow fills it within one of many.
#[test]
fn a_file_that_is_full_within_a_write() {
    for case in cases() {
        let said = [case.lines, &case.failed("output", EFBIG), case.totals[1]].concat();
        assert_fills_a_file(&case, &said, |_| Input::StaysOpen(case.input.clone()));
    }
}

/// The frames behind the first write come once that is done: it counts.
#[test]
fn a_file_that_is_full_within_the_second_write() {
    for case in cases() {
        let said = [case.lines, &case.failed("output", EFBIG), case.totals[2]].concat();
        assert_fills_a_file(&case, &said, |file| {
            let file = file.try_clone().unwrap();
            Input::OnceWritten(case.halves(), file, case.first.1 as u64)
        });
    }
}

#[test]
fn a_directory_as_input() {
    for case in cases() {
        let directory = File::open(env!("CARGO_MANIFEST_DIR")).unwrap().into();
        let said = [&case.failed("input", EISDIR), case.totals[0]].concat();
        assert_ended(run_on(directory, case.program()), b"", &said);
    }
}

/// An input that fails within a frame: what came of that frame is no rest.
#[test]
fn an_input_that_fails_later() {
    for case in cases() {
        let input = reset_after(&case.input[..case.first.0 + 7]);
        let said = [case.lines, &case.failed("input", ECONNRESET), case.totals[2]].concat();
        let ended = run_on(input, case.program());
        assert_ended(ended, &case.out[..case.first.1], &said);
    }
}

/// The signal is ignored, so the write fails, and the program says so.
#[test]
fn an_output_closed_at_once() {
    for case in cases() {
        let ignoring = case.program_after("trap '' PIPE");
        let said = [case.lines, &case.failed("output", EPIPE), case.totals[1]].concat();
        assert_ended(run_until_closed(0, ignoring, [vec![], case.input]), b"", &said);
    }
}

#[test]
fn an_output_closed_after_the_first_write() {
    for case in cases() {
        let ignoring = case.program_after("trap '' PIPE");
        let said = [case.lines, &case.failed("output", EPIPE), case.totals[2]].concat();
        let ended = run_until_closed(case.first.1, ignoring, case.halves());
        assert_ended(ended, &case.out[..case.first.1], &said);
    }
}

/// Many frames, of which some come out before the output is closed: the totals are those of the
/// writes that were done.
#[test]
fn an_output_closed_within_many_frames() {
    let client = seeds::random("an_output_closed_within_many_frames").bytes(60 * 14407);
    let frames = mapped(&client, (14407, 1)).out;
    let [map, demap, _] = cases();
    let done = "odu0map: frames 60, bytes 864420\n";
    for (case, input, out, done) in [
        (map, client.clone(), frames.clone(), done),
        (
            demap,
            frames,
            client[14407..].to_vec(),
            "odu0demap: frames 60, BADCHECK 0, bytes 850013\n",
        ),
    ] {
        let read = 20 * 14407 + 5;
        let ignoring = case.program_after("trap '' PIPE");
        let (status, written) = run_until_closed(read, ignoring, [input, vec![]]);
        let failed = [case.lines, &case.failed("output", EPIPE)].concat();
        assert_eq!(status.signal(), None);
        assert!(written.out == out[..read], "{}: {}", case.name, written.said);
        assert!(
            written.said.starts_with(&failed) && !written.said.contains(done),
            "{}",
            written.said
        );
        assert_eq!(written.said.lines().count(), failed.lines().count() + 1, "{}", written.said);
    }
}

/// Where nothing ignored the signal before, the program does itself, and says the same.
#[test]
fn an_output_closed_does_not_end_it_by_the_signal() {
    for case in cases() {
        for (length, totals) in [(0, case.totals[1]), (case.first.1, case.totals[2])] {
            let fed = if length == 0 { [vec![], case.input.clone()] } else { case.halves() };
            let said = [case.lines, &case.failed("output", EPIPE), totals].concat();
            let ended = run_until_closed(length, case.program(), fed);
            assert_ended(ended, &case.out[..length], &said);
        }
    }
}
