//! `slider build`.

use crate::args::{number, Args};
use crate::report::{fnv_of_slots, Report, Source};
use crate::{input, output, progress, save, Command, Done, Failure, REFUSED};
use slider::{Build, ALL_SLOTS, MAX_BUDGET};
use std::path::PathBuf;

pub const COMMAND: Command = Command {
    name: "build",
    help: HELP,
    values: &["--budget", "--slots", "--marks", "--multipliers", "--out"],
    flags: &["--origin", "--json"],
    run,
};

const HELP: &str = "\
slider build SEED [--budget N] [--slots N] [--marks N] [--multipliers FILE]

Builds the tables and writes a report:

  outcome ok                    or: outcome refused NUMBER [block BLOCK]
  used N                        slots in use
  attempts-max N block B        the largest attempt count, the first block that has it
  table-fnv HEX marks-fnv HEX   FNV-1a, 64 bits, over all lent slots, little-endian
  block B multiplier HEX mask HEX offset N shift N attempts N
                                a line for each of the 128 blocks: bishops a1 to h8, then rooks

  SEED                any 64-bit number; may be left out with --multipliers
  --budget N          candidates tried for each block (16777216, which is also the largest)
  --slots N           slots of the table (107648, which suffice for any build)
  --marks N           slots of the marks (as the table); another length is refused
  --multipliers FILE  builds from these 128 numbers, a line each, in block order; nothing is searched, SEED and budget are not used

Exit status: 0 built; 1 refused; 2 bad arguments.
";

fn run(mut args: Args) -> Done {
    let seed = args.optional("SEED", number)?;
    let budget = args.number("--budget")?.unwrap_or(MAX_BUDGET);
    let slots = args.slots("--slots")?.unwrap_or(ALL_SLOTS);
    let marks = args.slots("--marks")?.unwrap_or(slots);
    let multipliers = args.path("--multipliers").map(multipliers).transpose()?;
    args.end()?;

    let (build, report, _) = match (multipliers, seed) {
        (Some(multipliers), _) => lent(&multipliers, slots, marks)?,
        (None, Some(seed)) => from_seed(seed, budget, slots, marks)?,
        (None, None) => return Err("no SEED; see `slider build --help`".to_string().into()),
    };
    let text = match (args.flag("--json"), args.flag("--origin")) {
        (true, _) => format!("{}\n", report.json()),
        (false, true) => report.to_string(),
        (false, false) => report.alone().to_string(),
    };
    match args.path("--out") {
        Some(path) => save::whole(&path, text.as_bytes())?,
        None => _ = output::put(&text)?,
    }
    Ok(if build.outcome.is_ok() { 0 } else { REFUSED })
}

/// A build, its report and its table.
type Reported = (Build, Report, Vec<u64>);

pub fn from_seed(seed: u64, budget: u64, slots: usize, marks: usize) -> Result<Reported, Failure> {
    let build = |table: &mut [u64], marks: &mut [u64]| slider::build(seed, budget, table, marks);
    reported(&format!("building from seed {seed}"), Source::Seed { seed, budget }, slots, marks, build)
}

/// A build from multipliers.
pub fn lent(multipliers: &[u64], slots: usize, marks: usize) -> Result<Reported, Failure> {
    let source = Source::List { length: multipliers.len() as u64, fnv: fnv_of_slots(multipliers) };
    let build = |table: &mut [u64], marks: &mut [u64]| slider::build_lent(multipliers, table, marks);
    reported("building from multipliers", source, slots, marks, build)
}

fn reported(
    what: &str,
    source: Source,
    slots: usize,
    marks: usize,
    build: impl FnOnce(&mut [u64], &mut [u64]) -> Build,
) -> Result<Reported, Failure> {
    let memory = |slots| slider::slots(slots).map_err(|error| Failure::from(error.to_string()));
    let (mut table, mut marks) = (memory(slots)?, memory(marks)?);
    let build = progress::shown(what, || build(&mut table, &mut marks));
    let report = Report::of(&build, &table, &marks, source);
    Ok((build, report, table))
}

/// One number a line; empty lines are passed over.
fn multipliers(path: PathBuf) -> Result<Vec<u64>, Failure> {
    let (text, name) = input::text(path)?;
    let lines = (1..).zip(text.lines()).filter(|(_, line)| !line.trim().is_empty());
    let read = |(at, line): (usize, &str)| number(line.trim()).map_err(|error| format!("{name}, line {at}: {error}"));
    Ok(lines.map(read).collect::<Result<_, _>>()?)
}
