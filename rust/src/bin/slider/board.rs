//! `slider board`.

use crate::args::{set, Args};
use crate::facts::{Facts, Value};
use crate::{output, Command, Done};
use slider::{walk, Kind, Square};

pub const COMMAND: Command = Command { name: "board", help: HELP, values: &[], flags: &["--json"], run };

const HELP: &str = "\
slider board R|B SQUARE BLOCKERS

Draws the board with a rook (R) or a bishop (B) on a square, the blockers (16 upper-case hexadecimal digits, bit 0 is a1, bit 63
h8) and the squares that the piece attacks, by the walk.

    $ slider board R d4 000008000A000000

Exit status: 0 drawn; 2 bad arguments.
";

fn run(mut args: Args) -> Done {
    let (kind, square) = args.block()?;
    let blockers = args.word("blockers", set)?;
    args.end()?;
    if args.flag("--json") {
        return output::answer(&Facts(vec![("attacks", Value::Set(walk(kind, square, blockers)))]), true);
    }
    output::put(&drawn(kind, square, blockers))
}

fn drawn(kind: Kind, square: Square, blockers: u64) -> String {
    let attacked = walk(kind, square, blockers);
    let letter = match kind {
        Kind::Rook => 'R',
        Kind::Bishop => 'B',
    };
    let sign = |place: Square| {
        let on = |set: u64| set & place.bit() != 0;
        match (place == square, on(attacked), on(blockers)) {
            (true, _, _) => letter,
            (_, true, true) => 'x',
            (_, true, false) => '*',
            (_, false, true) => 'o',
            (_, false, false) => '.',
        }
    };
    let files = "    a b c d e f g h\n";
    let mut text = format!("{kind} on {square}, blockers {blockers:016X}, attacks {attacked:016X}\n\n{files}");
    for rank in (0..8).rev() {
        text += &format!("  {}", rank + 1);
        for place in Square::all().filter(|place| place.rank() == rank) {
            text += &format!(" {}", sign(place));
        }
        text += &format!(" {}\n", rank + 1);
    }
    text += files;
    text += &format!("\n{letter} the {kind}   * attacked   x attacked blocker   o blocker out of reach   . neither\n");
    text
}
