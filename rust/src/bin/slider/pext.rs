//! `slider pext`.

use crate::args::{kind, number, square, Args};
use crate::facts::{Facts, Value};
use crate::report::fnv;
use crate::{output, Command, Done};
use slider::pext::Table;
use slider::{Kind, Square};

pub const COMMAND: Command = Command { name: "pext", help: HELP, values: &[], flags: &["--json"], run };

const HELP: &str = "\
slider pext [R|B SQUARE [ENTRY]] [--json]

Fills a PEXT table and writes FNV-1a, 64 bits, over its entries, little-endian; or where a block lies in it; or an entry of a block,
with the subset of the mask that it stands for and the walk that it gives:

    $ slider pext
    pext-fnv 480168C27DFB278D entries 107648
    $ slider pext B a1
    offset 4096 size 64
    $ slider pext R a1 65
    entry 129 subset 0000000000000102 walk 0000000000000102

  --json   writes the answer as JSON

Exit status: 0 done; 2 bad arguments, output that cannot be written, or no memory.
";

fn run(mut args: Args) -> Done {
    let piece = args.optional("piece", kind)?;
    let block = piece.map(|kind| Ok::<_, String>((kind, args.word("square", square)?))).transpose()?;
    let entry = args.optional("ENTRY", number)?;
    args.end()?;
    let table = Table::try_fill().map_err(|error| error.to_string())?;
    let facts = match (block, entry) {
        (None, _) => whole(&table),
        (Some((kind, square)), None) => place(&table, kind, square),
        (Some((kind, square)), Some(entry)) => one(&table, kind, square, entry)?,
    };
    output::answer(&Facts(facts), args.flag("--json"))
}

type List = Vec<(&'static str, Value)>;

fn whole(table: &Table) -> List {
    let digest = fnv(table.entries().iter().flat_map(|entry| entry.to_le_bytes()));
    vec![("pext-fnv", Value::Set(digest)), ("entries", Value::Number(table.entries().len() as u64))]
}

fn place(table: &Table, kind: Kind, square: Square) -> List {
    let place = slider::pext::place(kind, square, table.entries()).expect("the length is right");
    vec![("offset", Value::Number(place.start as u64)), ("size", Value::Number(place.len() as u64))]
}

fn one(table: &Table, kind: Kind, square: Square, i: u64) -> Result<List, String> {
    let block = table.block(kind, square);
    let entry = usize::try_from(i).ok().and_then(|i| block.get(i));
    let entry = entry.ok_or_else(|| format!("ENTRY: {i} is not below {}, the size of the block", block.len()))?;
    let subset = slider::subset(kind, square, i);
    Ok(vec![
        ("entry", Value::Number((*entry).into())),
        ("subset", Value::Set(subset)),
        ("walk", Value::Set(table.moves(kind, square, subset))),
    ])
}
