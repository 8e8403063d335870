//! `slider search`.

use crate::args::{number, Args};
use crate::facts::{Facts, Value};
use crate::{output, progress, say, Command, Done};
use slider::MAX_BUDGET;

pub const COMMAND: Command = Command { name: "search", help: HELP, values: &["--budget"], flags: &["--json"], run };

const HELP: &str = "\
slider search R|B SQUARE SEED [--budget N] [--json]

Tries the seed's candidates for the block of a rook (R) or a bishop (B) on a square:

  found HEX attempts N   the first that passes, and its position from 1
  refused 5 block B      none within the budget
  refused N              refused for another reason

    $ slider search R d4 42

  --budget N   candidates tried (16777216, which is also the largest)
  --json       writes the answer as JSON

Exit status: 0 found; 1 refused; 2 bad arguments, or output that cannot be written.
";

fn run(mut args: Args) -> Done {
    let (kind, square) = args.block()?;
    let seed = args.word("SEED", number)?;
    let budget = args.number("--budget")?.unwrap_or(MAX_BUDGET);
    let json = args.flag("--json");
    args.end()?;
    match progress::shown(&format!("searching from seed {seed}"), || slider::search(kind, square, seed, budget)) {
        Ok(found) => {
            let facts = vec![("found", Value::Set(found.multiplier)), ("attempts", Value::Number(found.count))];
            output::answer(&Facts(facts), json)
        }
        Err(refusal) => {
            say(&refusal.to_string());
            output::refused(refusal, json)
        }
    }
}
