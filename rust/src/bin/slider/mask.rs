//! `slider mask`.

use crate::args::Args;
use crate::facts::{Facts, Value};
use crate::{output, Command, Done};

pub const COMMAND: Command = Command { name: "mask", help: HELP, values: &[], flags: &["--json"], run };

const HELP: &str = "\
slider mask R|B SQUARE [--json]

Writes the rays of a rook (R) or a bishop (B) without the edge squares whose blockers change nothing, how many subsets they have,
and the shift, 64 less the number of their squares:

    $ slider mask R a1
    mask 000101010101017E size 4096 shift 52

  --json   writes the answer as JSON

Exit status: 0 done; 2 bad arguments, or output that cannot be written.
";

fn run(mut args: Args) -> Done {
    let (kind, square) = args.block()?;
    args.end()?;
    let facts = vec![
        ("mask", Value::Set(slider::mask(kind, square))),
        ("size", Value::Number(slider::size(kind, square) as u64)),
        ("shift", Value::Number(slider::shift(kind, square).into())),
    ];
    output::answer(&Facts(facts), args.flag("--json"))
}
