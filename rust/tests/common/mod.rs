//! What the tests share.

use std::ffi::OsString;
use std::path::{Path, PathBuf};
use std::process::Command;

/// The words that run an x86-64 program: off x86-64 the runner goes before it that cargo was told to use (rust/cross/cargo).
pub fn words(program: impl AsRef<Path>) -> Vec<OsString> {
    let runner = std::env::var_os("CARGO_TARGET_X86_64_UNKNOWN_LINUX_GNU_RUNNER");
    runner.into_iter().chain([program.as_ref().into()]).collect()
}

pub fn command(program: impl AsRef<Path>) -> Command {
    let words = words(program);
    let mut command = Command::new(&words[0]);
    command.args(&words[1..]);
    command
}

/// A file of the package.
#[allow(dead_code)] // not every test reads one
pub fn text(path: &str) -> String {
    let path = PathBuf::from(env!("CARGO_MANIFEST_DIR")).join(path);
    std::fs::read_to_string(&path).unwrap_or_else(|error| panic!("{}: {error}", path.display()))
}
