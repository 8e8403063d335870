//! `slider rays`.

use crate::args::Args;
use crate::facts::{Facts, Value};
use crate::{output, Command, Done};

pub const COMMAND: Command = Command { name: "rays", help: HELP, values: &[], flags: &["--json"], run };

const HELP: &str = "\
slider rays R|B SQUARE [--json]

Writes the squares that a rook (R) or a bishop (B) sees from a square of the empty board:

    $ slider rays R a1
    rays 01010101010101FE

  --json   writes the answer as JSON

Exit status: 0 done; 2 bad arguments, or output that cannot be written.
";

fn run(mut args: Args) -> Done {
    let (kind, square) = args.block()?;
    args.end()?;
    output::answer(&Facts(vec![("rays", Value::Set(slider::rays(kind, square)))]), args.flag("--json"))
}
