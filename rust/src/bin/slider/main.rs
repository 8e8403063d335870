//! The program `slider`, for a person at a terminal and for scripts: see `slider --help`, and `slider more`.
//!
//! A command is a file of its own with a constant COMMAND, which COMMANDS lists. What commands share: `args` (words of the command
//! line), `input` (files, up to a limit), `output` (standard output), `save` (files written whole or not at all), `facts` (an answer as a
//! line or as JSON), `report` and `lines` (the report of a build, written and read), `progress`.
#![forbid(unsafe_code)]

mod args;
mod facts;
mod input;
mod lines;
mod output;
mod progress;
mod report;
mod save;

mod audit;
mod board;
mod build;
mod mask;
mod pext;
mod query;
mod rays;
mod search;
mod version;

use args::{quoted, Args};
use std::ffi::{OsStr, OsString};
use std::io::{self, Write};
use std::process::ExitCode;

/// As scripts know it: what came later is in MORE.
const HELP: &str = "\
slider: which squares a rook or a bishop attacks, from proved tables

  slider build SEED     builds the tables from a seed and reports on them
  slider audit [FILE]   rebuilds the tables of a report and audits them
  slider query          answers lines of queries
  slider board R d4 BLOCKERS
                        draws an attack set
  slider COMMAND --help says more of a command
  slider --version

Numbers are decimal, or hexadecimal after 0x. Sets of squares have 16 upper-case hexadecimal digits: bit 0 is a1, bit 7 h1,
bit 63 h8.

Exit status: 0 done; 1 refused; 2 bad arguments, unreadable input, or output that cannot be written; 3 answers differ.
";

const MORE: &str = "\
slider more: commands and options beside those of `slider --help`

  slider search R|B SQUARE SEED [--budget N]
                        searches the multiplier of one block
  slider rays R|B SQUARE
                        what a piece sees on the empty board
  slider mask R|B SQUARE
                        the mask of a block, its size and its shift
  slider pext [R|B SQUARE [ENTRY]]
                        fills a PEXT table: its digest, a block, an entry
  slider version        what the program was made from; `slider -V` says the same

  slider build .. --origin     two lines more at the end of the report: what it came from, and what made it

      from seed N budget N slots N marks N
                               or: from list N list-fnv HEX slots N marks N
      made slider VERSION commit COMMIT kit KIT logic LOGIC library-sha256 HEX

  slider build .. --out FILE   writes the report to FILE, whole or not at all
  slider build .. --json       writes the report as JSON, with what --origin says; sets, digests and seeds are text in it,
                               and a refused build has no blocks
  slider audit .. --seed N     the seed that the report has to be of. Where that, or the report itself, names a seed, every line
                               is held against the build from it, multipliers and attempt counts as well; a line more says so:

      rebuilt from seed N budget N slots N marks N

  slider audit .. --json       writes the verdict as JSON, or a list of what the report says otherwise than the tables
  slider board .. --json       writes the attack set as JSON; so do search, rays, mask, pext and version with --json

After -- no word is an option. The slots of a report that names them need no --slots. Where memory cannot be had, the status is 2.
";

const REFUSED: u8 = 1;
const BAD: u8 = 2;
const DIFFER: u8 = 3;

/// Why a command stopped: the exit status and what to say on standard error.
#[derive(Debug)]
pub struct Failure {
    status: u8,
    message: String,
}

impl From<String> for Failure {
    fn from(message: String) -> Failure {
        Failure { status: BAD, message }
    }
}

/// An exit status, where the command had its say.
pub type Done = Result<u8, Failure>;

pub struct Command {
    pub name: &'static str,
    pub help: &'static str,
    /// Options with a value, and options without.
    pub values: &'static [&'static str],
    pub flags: &'static [&'static str],
    pub run: fn(Args) -> Done,
}

const COMMANDS: [&Command; 9] = [
    &build::COMMAND,
    &audit::COMMAND,
    &query::COMMAND,
    &board::COMMAND,
    &search::COMMAND,
    &rays::COMMAND,
    &mask::COMMAND,
    &pext::COMMAND,
    &version::COMMAND,
];

fn run(mut words: Vec<OsString>) -> Done {
    if words.len() == 2 && words[0] == "help" {
        words = vec![words.remove(1), "--help".into()]; // help COMMAND
    }
    let mut words = words.into_iter();
    let first = words.next().ok_or_else(|| format!("no command\n\n{HELP}"))?;
    match first.to_str() {
        Some("--help" | "-h" | "help") => output::put(HELP),
        Some("--version") => output::put(concat!("slider ", env!("CARGO_PKG_VERSION"), "\n")),
        Some("more") => match words.next() {
            None => output::put(MORE),
            Some(word) => Err(format!("{} is one argument too many", quoted(&word)).into()),
        },
        Some("-V") => of(&version::COMMAND, words),
        _ => of(command(&first)?, words),
    }
}

fn command(name: &OsStr) -> Result<&'static Command, Failure> {
    let found = COMMANDS.into_iter().find(|command| name == command.name);
    found.ok_or_else(|| format!("unknown command {}; `slider --help` and `slider more` list them", quoted(name)).into())
}

fn of(command: &Command, words: impl Iterator<Item = OsString>) -> Done {
    match Args::read(words, command)? {
        Some(args) => (command.run)(args),
        None => output::put(command.help),
    }
}

fn main() -> ExitCode {
    match run(std::env::args_os().skip(1).collect()) {
        Ok(status) => ExitCode::from(status),
        Err(Failure { status, message }) => {
            say(&message);
            ExitCode::from(status)
        }
    }
}

/// A line on standard error; where that cannot be written there is nobody to tell.
pub fn say(message: &str) {
    let _ = writeln!(io::stderr(), "slider: {}", message.trim_end());
}
