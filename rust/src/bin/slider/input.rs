//! Files that are read, up to a limit: what is longer than it can be is not read on.

use crate::args::{plain_or_quoted, quoted};
use crate::Failure;
use std::ffi::OsString;
use std::fs::File;
use std::io::{self, Read};
use std::path::PathBuf;

pub enum Input {
    Standard,
    File(PathBuf),
}

impl Input {
    /// No name and - are standard input.
    pub fn of(name: Option<OsString>) -> Input {
        match name {
            Some(name) if name != "-" => Input::File(name.into()),
            _ => Input::Standard,
        }
    }

    /// For messages.
    pub fn name(&self) -> String {
        match self {
            Input::Standard => "standard input".to_string(),
            Input::File(path) => plain_or_quoted(path.as_os_str()),
        }
    }

    /// All of it: `what` is no longer than `longest` bytes.
    pub fn read(&self, what: &str, longest: u64) -> Result<Vec<u8>, Failure> {
        let failed = |error: String| format!("cannot read {}: {error}", self.name());
        let mut bytes = Vec::new();
        let reader: Box<dyn Read> = match self {
            Input::Standard => Box::new(io::stdin()),
            Input::File(path) => Box::new(File::open(path).map_err(|error| failed(error.to_string()))?),
        };
        reader.take(longest + 1).read_to_end(&mut bytes).map_err(|error| failed(error.to_string()))?;
        if bytes.len() as u64 > longest {
            return Err(failed(format!("it is longer than any {what}")).into());
        }
        Ok(bytes)
    }
}

/// A whole file as text, however long, with its name for messages.
pub fn text(path: PathBuf) -> Result<(String, String), Failure> {
    let name = quoted(path.as_os_str());
    let text = std::fs::read_to_string(path).map_err(|error| format!("cannot read {name}: {error}"))?;
    Ok((text, name))
}
