//! The program `slider` itself, run on good and damaged arguments and input. Stored outputs are in tests/data: the reports were
//! written by an independent builder, made from the rulebook by another hand.
//!
//! audit, build, query and usage hold what scripts rest on; the other files are about what came later.

#[path = "../common/mod.rs"]
mod common;

mod audit;
mod build;
mod by_hand;
mod hostile;
mod json;
mod more;
mod origins;
mod out;
mod query;
mod usage;

use std::ffi::OsStr;
use std::io::{ErrorKind, Write};
use std::path::PathBuf;
use std::process::{Command, Stdio};

const PROGRAM: &str = env!("CARGO_BIN_EXE_slider");

pub struct Ran {
    pub status: Option<i32>,
    pub out: String,
    pub err: String,
}

impl Ran {
    /// Standard output and status, with nothing on standard error.
    #[track_caller]
    pub fn gives(&self, out: &str, status: i32) {
        assert_eq!((self.out.as_str(), self.err.as_str(), self.status), (out, "", Some(status)));
    }

    /// Status 2, nothing on standard output, and a message that has these words; never a panic.
    #[track_caller]
    pub fn is_bad(&self, words: &[&str]) {
        assert_eq!((self.status, self.out.as_str()), (Some(2), ""), "{}", self.err);
        self.says(words);
    }

    #[track_caller]
    pub fn says(&self, words: &[&str]) {
        assert!(self.err.starts_with("slider: ") && !self.err.contains("panicked"), "{}", self.err);
        for word in words {
            assert!(self.err.contains(word), "{word:?} is not in {:?}", self.err);
        }
    }
}

pub fn data(name: &str) -> PathBuf {
    PathBuf::from(env!("CARGO_MANIFEST_DIR")).join("tests/data").join(name)
}

pub fn stored(name: &str) -> String {
    std::fs::read_to_string(data(name)).unwrap_or_else(|error| panic!("{name}: {error}"))
}

/// The program, in the folder tests/data.
pub fn program<S: AsRef<OsStr>>(args: &[S]) -> Command {
    let mut command = common::command(PROGRAM);
    command.args(args).current_dir(data("")).stdin(Stdio::piped()).stdout(Stdio::piped()).stderr(Stdio::piped());
    command
}

pub fn run(mut command: Command, input: &[u8]) -> Ran {
    let mut child = command.spawn().expect("the program starts");
    let mut stdin = child.stdin.take().unwrap();
    let input = input.to_vec();
    let feeder = std::thread::spawn(move || match stdin.write_all(&input) {
        Err(error) if error.kind() != ErrorKind::BrokenPipe => panic!("{error}"),
        _ => {} // a program that does not read its input closes it
    });
    let output = child.wait_with_output().expect("the program ends");
    feeder.join().unwrap();
    let text = |bytes| String::from_utf8(bytes).expect("what the program writes is text");
    Ran { status: output.status.code(), out: text(output.stdout), err: text(output.stderr) }
}

pub fn slider_on(args: &[&str], input: &[u8]) -> Ran {
    run(program(args), input)
}

/// The program with these words, and no input.
pub fn slider(words: &str) -> Ran {
    slider_on(&words.split_whitespace().collect::<Vec<_>>(), b"")
}

/// The program as `"$@"` of a shell's text.
pub fn in_shell(text: &str, args: &[&str]) -> Ran {
    let mut command = Command::new("sh");
    command.args(["-c", text, "sh"]).args(common::words(PROGRAM)).args(args).current_dir(data(""));
    command.stdin(Stdio::piped()).stdout(Stdio::piped()).stderr(Stdio::piped());
    run(command, b"")
}
