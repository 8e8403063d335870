//! Standard output. A reader that has gone away is no failure: it has what it wanted.

use crate::facts::{Facts, Value};
use crate::{Done, Failure, REFUSED};
use slider::Refusal;
use std::io::{self, ErrorKind, Write};

/// Whether the reader is still there.
pub fn write(to: &mut impl Write, bytes: &[u8]) -> Result<bool, Failure> {
    match to.write_all(bytes).and_then(|()| to.flush()) {
        Ok(()) => Ok(true),
        Err(error) if error.kind() == ErrorKind::BrokenPipe => Ok(false),
        Err(error) => Err(format!("cannot write the answer: {error}").into()),
    }
}

pub fn put(text: &str) -> Done {
    write(&mut io::stdout(), text.as_bytes())?;
    Ok(0)
}

/// An answer of one line, or of one object of JSON.
pub fn answer(facts: &Facts, json: bool) -> Done {
    put(&if json { format!("{}\n", facts.json()) } else { format!("{facts}\n") })
}

/// `refused NUMBER [block BLOCK [subset I]]`
pub fn refused(refusal: Refusal, json: bool) -> Done {
    let mut facts = vec![("refused", Value::Number(refusal.number().into()))];
    facts.extend(refusal.block().map(|block| ("block", Value::Number(block as u64))));
    facts.extend(refusal.subset().map(|subset| ("subset", Value::Number(subset as u64))));
    answer(&Facts(facts), json)?;
    Ok(REFUSED)
}
