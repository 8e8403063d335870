//! `slider version`, `slider -V`.

use crate::args::Args;
use crate::report::identity;
use crate::{output, Command, Done};
use slider::{Identity, IDENTITY};

pub const COMMAND: Command = Command { name: "version", help: HELP, values: &[], flags: &["--json"], run };

const HELP: &str = "\
slider version [--json]

Writes what reports name as their maker: the version, the repository's commit (with +changes where its files differ from it), the
kit that proved and compiled the library with its logic, and the SHA-256 of the library's archive. What is not known is unknown.
`slider -V` says the same, `slider --version` the version alone.

  --json   writes the answer as JSON

Exit status: 0 done; 2 bad arguments, or output that cannot be written.
";

fn run(mut args: Args) -> Done {
    args.end()?;
    if args.flag("--json") {
        return output::answer(&identity(&IDENTITY), true);
    }
    let Identity { version, commit, kit, library, .. } = IDENTITY;
    output::put(&format!("slider {version}\ncommit {commit}\nkit {kit}\nlibrary-sha256 {library}\n"))
}
