//! `slider query`.

use crate::args::{kind, set, square, Args};
use crate::{output, progress, Command, Done, Failure, BAD, DIFFER, REFUSED};
use slider::{pext, walk, Error, Kind, Square, Tables};
use std::io::{self, BufRead, BufReader, ErrorKind, Write};

pub const COMMAND: Command = Command { name: "query", help: HELP, values: &["--seed"], flags: &[], run };

const HELP: &str = "\
slider query [--seed N]

Answers lines on standard input: R or B, a space, the square, a space, the blockers in 16 upper-case hexadecimal digits. After the
header `slider 1` the answer is the line, a space and the attack set; any other line gives `?`.

    $ printf 'R d4 000008000A000000\\nQ a1 0000000000000000\\n' | slider query
    slider 1
    R d4 000008000A000000 00000808F6080808
    ?

Each query is answered three times: by the look-up in tables built from the seed, by the look-up in a PEXT table, and by the walk.
Where the three differ, the program stops at that line and says so.

  --seed N   the seed of the tables (0)

Exit status: 0 all lines answered; 1 the tables cannot be built; 2 bad arguments, or input or output failed; 3 answers differ.
";

const HEADER: &[u8] = b"slider 1\n";
const LINE: usize = 21;

type Query = (Kind, Square, u64);

fn run(mut args: Args) -> Done {
    let seed = args.number("--seed")?.unwrap_or(0);
    args.end()?;
    let tables =
        progress::shown(&format!("building from seed {seed}"), || Tables::try_build(seed)).map_err(|error| Failure {
            status: if matches!(error, Error::Refused(_)) { REFUSED } else { BAD },
            message: format!("seed {seed}: {error}"),
        })?;
    let pext = pext::Table::try_fill().map_err(|error| error.to_string())?;
    let ask = |(kind, square, blockers): Query| {
        let by_table = tables.moves(kind, square, blockers).map_err(|refusal| format!("the tables refuse: {refusal}"))?;
        agreed(by_table, pext.moves(kind, square, blockers), walk(kind, square, blockers))
    };
    answer_all(BufReader::with_capacity(1 << 16, io::stdin()), io::stdout().lock(), ask)
}

fn agreed(table: u64, pext: u64, walk: u64) -> Result<u64, String> {
    if table == walk && pext == walk {
        return Ok(walk);
    }
    Err(format!("answers differ: table {table:016X}, PEXT {pext:016X}, walk {walk:016X}"))
}

/// Answers the lines of a stream, in memory of one line; what is answered is written before more input is awaited.
fn answer_all(mut input: impl BufRead, mut output: impl Write, ask: impl Fn(Query) -> Result<u64, String>) -> Done {
    let mut lines = Lines { line: Vec::with_capacity(LINE + 1), out: HEADER.to_vec(), ask, progress: progress::Lines::new() };
    let mut more = Ok(true);
    loop {
        let read_on = output::write(&mut output, &lines.out)?;
        lines.out.clear();
        if !read_on || !more? {
            return Ok(0);
        }
        more = match input.fill_buf() {
            Err(error) if error.kind() == ErrorKind::Interrupted => Ok(true),
            Err(error) => return Err(format!("cannot read the queries: {error}").into()),
            Ok([]) => lines.last(),
            Ok(chunk) => {
                let taken = chunk.len();
                let more = lines.feed(chunk);
                input.consume(taken);
                more
            }
        };
    }
}

/// The line that has begun, and the answers that are not written yet.
struct Lines<F> {
    line: Vec<u8>,
    out: Vec<u8>,
    ask: F,
    progress: progress::Lines,
}

impl<F: Fn(Query) -> Result<u64, String>> Lines<F> {
    fn feed(&mut self, chunk: &[u8]) -> Result<bool, Failure> {
        for &byte in chunk {
            if byte == b'\n' {
                self.answer()?;
            } else if self.line.len() <= LINE {
                self.line.push(byte); // one byte too many tells that a line is too long
            }
        }
        Ok(true)
    }

    /// A last line without a line feed counts if it is not empty.
    fn last(&mut self) -> Result<bool, Failure> {
        if !self.line.is_empty() {
            self.answer()?;
        }
        Ok(false)
    }

    fn answer(&mut self) -> Result<(), Failure> {
        self.progress.count();
        match query(&self.line) {
            Some(query) => {
                let moves = (self.ask)(query).map_err(|message| {
                    let message = format!("line {}: {message}", self.progress.counted());
                    Failure { status: DIFFER, message }
                })?;
                self.out.extend_from_slice(&self.line);
                self.out.extend_from_slice(format!(" {moves:016X}\n").as_bytes());
            }
            None => self.out.extend_from_slice(b"?\n"),
        }
        self.line.clear();
        Ok(())
    }
}

fn query(line: &[u8]) -> Option<Query> {
    let line = std::str::from_utf8(line).ok().filter(|line| line.len() == LINE && line.is_ascii())?;
    let spaces = &line[1..2] == " " && &line[4..5] == " ";
    let query = (kind(&line[..1]).ok()?, square(&line[2..4]).ok()?, set(&line[5..]).ok()?);
    Some(query).filter(|_| spaces)
}

#[cfg(test)]
mod tests {
    use super::*;

    fn answered(input: &[u8], step: usize, ask: impl Fn(Query) -> Result<u64, String>) -> (Done, String) {
        let mut out = Vec::new();
        let done = answer_all(BufReader::with_capacity(step, input), &mut out, ask);
        (done, String::from_utf8(out).unwrap())
    }

    /// However the stream is cut, and with lines of any length.
    #[test]
    fn lines_are_cut_at_line_feeds() {
        let long = "R a1 0000000000000000".repeat(1000);
        let input =
            format!("R a1 0000000000000000\n\nR a1 0000000000000000\r\n{long}\n R a1 000000000000000\nB b2 0000000000000001");
        let output = "slider 1\nR a1 0000000000000000 0000000000000007\n?\n?\n?\n?\nB b2 0000000000000001 0000000000000007\n";
        for step in [1, 2, 21, 22, 23, 1 << 16] {
            let (done, out) = answered(input.as_bytes(), step, |_| Ok(7));
            assert_eq!((done.ok(), out.as_str()), (Some(0), output), "{step} bytes at a time");
        }
        assert_eq!(answered(b"", 1, |_| Ok(7)).1, "slider 1\n");
    }

    #[test]
    fn a_difference_stops_at_its_line() {
        assert_eq!(agreed(5, 5, 5), Ok(5));
        for (table, pext, walk) in [(4, 5, 5), (5, 4, 5), (5, 5, 4)] {
            let ask = |(_, _, blockers)| if blockers == 1 { agreed(table, pext, walk) } else { Ok(0) };
            let (done, out) = answered(b"R a1 0000000000000000\nR a1 0000000000000001\nR a1 0000000000000000\n", 64, ask);
            let failure = done.unwrap_err();
            assert_eq!(failure.status, DIFFER);
            assert!(failure.message.starts_with("line 2: answers differ: table 000000000000000"), "{}", failure.message);
            assert_eq!(out, "slider 1\nR a1 0000000000000000 0000000000000000\n");
        }
    }

    #[test]
    fn a_reader_that_is_gone_is_no_failure_and_a_full_disk_is() {
        struct Broken(ErrorKind);
        impl Write for Broken {
            fn write(&mut self, _: &[u8]) -> io::Result<usize> {
                Err(self.0.into())
            }
            fn flush(&mut self) -> io::Result<()> {
                Ok(())
            }
        }
        assert_eq!(answer_all(&b""[..], Broken(ErrorKind::BrokenPipe), |_| Ok(7)).ok(), Some(0));
        assert_eq!(answer_all(&b""[..], Broken(ErrorKind::Other), |_| Ok(7)).unwrap_err().status, 2);
    }
}
