//! Words of the command line, and what they say.

use crate::Command;
use slider::{Kind, Square};
use std::ffi::{OsStr, OsString};
use std::os::unix::ffi::{OsStrExt, OsStringExt};
use std::path::PathBuf;

/// What follows a command: options, and the other words.
pub struct Args {
    command: &'static str,
    options: Vec<(String, OsString)>,
    words: std::vec::IntoIter<OsString>,
}

impl Args {
    /// `--name value` or `--name=value` for options with a value, `--name` for those without, each at most once; after `--` no word is an
    /// option. `None`: help is asked for.
    pub fn read(mut given: impl Iterator<Item = OsString>, command: &Command) -> Result<Option<Args>, String> {
        let see = |error: String| format!("{error}; see `slider {} --help`", command.name);
        let (mut options, mut words) = (Vec::<(String, OsString)>::new(), Vec::new());
        while let Some(word) = given.next() {
            if word == "--" {
                words.extend(given);
                break;
            }
            if word == "--help" || word == "-h" {
                return Ok(None);
            }
            if !is_option(&word) {
                words.push(word);
                continue;
            }
            let (name, value) = split(&word);
            let takes_value = command.values.contains(&name.as_str());
            if !takes_value && !command.flags.contains(&name.as_str()) {
                return Err(see(format!("unknown option {}", cut(&name))));
            }
            if options.iter().any(|(other, _)| *other == name) {
                return Err(see(format!("{name} is given twice")));
            }
            let value = match (takes_value, value) {
                (true, value) => value.or_else(|| given.next()).ok_or_else(|| see(format!("{name} needs a value")))?,
                (false, Some(_)) => return Err(see(format!("{name} takes no value"))),
                (false, None) => OsString::new(),
            };
            options.push((name, value));
        }
        Ok(Some(Args { command: command.name, options, words: words.into_iter() }))
    }

    // ---- options

    pub fn flag(&self, name: &str) -> bool {
        self.option(name).is_some()
    }

    fn option(&self, name: &str) -> Option<&OsStr> {
        self.options.iter().find(|(other, _)| other == name).map(|(_, value)| value.as_os_str())
    }

    pub fn path(&self, name: &str) -> Option<PathBuf> {
        self.option(name).map(PathBuf::from)
    }

    /// The option's number, if it is given.
    pub fn number(&self, name: &str) -> Result<Option<u64>, String> {
        let read = |value: &OsStr| number(text(value)?).map_err(|error| format!("{name}: {error}"));
        self.option(name).map(read).transpose()
    }

    /// A number of slots, if it is given. It is held to 128 MiB, so that a typing error does not fill the memory.
    pub fn slots(&self, name: &str) -> Result<Option<usize>, String> {
        match self.number(name)? {
            None => Ok(None),
            Some(slots) if slots <= MOST_SLOTS => Ok(Some(slots as usize)),
            _ => Err(format!("{name}: at most {MOST_SLOTS} slots are lent here; {} suffice for any build", slider::ALL_SLOTS)),
        }
    }

    // ---- words

    /// The next word that is no option.
    pub fn next(&mut self) -> Option<OsString> {
        self.words.next()
    }

    /// The next word, as `read` understands it.
    pub fn word<T>(&mut self, name: &str, read: impl FnOnce(&str) -> Result<T, String>) -> Result<T, String> {
        let word = self.next().ok_or_else(|| format!("no {name}; see `slider {} --help`", self.command))?;
        read(text(&word)?).map_err(|error| format!("{name}: {error}"))
    }

    /// The next word, if there is one.
    pub fn optional<T>(&mut self, name: &str, read: impl FnOnce(&str) -> Result<T, String>) -> Result<Option<T>, String> {
        if self.words.as_slice().is_empty() {
            return Ok(None);
        }
        self.word(name, read).map(Some)
    }

    /// A piece and its square.
    pub fn block(&mut self) -> Result<(Kind, Square), String> {
        Ok((self.word("piece", kind)?, self.word("square", square)?))
    }

    pub fn end(&mut self) -> Result<(), String> {
        self.next().map_or(Ok(()), |word| Err(format!("{} is one argument too many", quoted(&word))))
    }
}

/// So many slots the program lends at most, for the table and for the marks: 128 MiB each.
pub const MOST_SLOTS: u64 = 0x100_0000;

/// A dash alone is a file.
fn is_option(word: &OsStr) -> bool {
    word.len() > 1 && word.as_bytes()[0] == b'-'
}

/// `--name=value`
fn split(word: &OsStr) -> (String, Option<OsString>) {
    let bytes = word.as_bytes();
    let (name, value) = match bytes.iter().position(|&byte| byte == b'=') {
        Some(at) => (&bytes[..at], Some(OsString::from_vec(bytes[at + 1..].to_vec()))),
        None => (bytes, None),
    };
    (String::from_utf8_lossy(name).into_owned(), value)
}

// ---- what is said of a word

/// So much of a word is echoed.
const ECHO: usize = 160;

fn cut(text: &str) -> String {
    match text.char_indices().nth(ECHO) {
        Some((at, _)) => format!("{}.. ({} bytes)", &text[..at], text.len()),
        None => text.to_string(),
    }
}

/// A name as it is, if it can be shown and is not long; else as a word in quotes.
pub fn plain_or_quoted(word: &OsStr) -> String {
    match word.to_str() {
        Some(text) if text.len() <= ECHO && !text.chars().any(char::is_control) => text.to_string(),
        _ => quoted(word),
    }
}

/// A word in quotes, with what cannot be shown escaped; of a long one its beginning.
pub fn quoted(word: &OsStr) -> String {
    if word.len() <= ECHO {
        return format!("{word:?}");
    }
    let begins = OsStr::from_bytes(&word.as_bytes()[..ECHO]);
    format!("{begins:?}.. ({} bytes)", word.len())
}

fn text(word: &OsStr) -> Result<&str, String> {
    word.to_str().ok_or_else(|| format!("the argument {} is no text", quoted(word)))
}

// ---- what words mean

/// A 64-bit number: decimal digits, or 0x and hexadecimal ones.
pub fn number(text: &str) -> Result<u64, String> {
    let (digits, radix) = text.strip_prefix("0x").map_or((text, 10), |digits| (digits, 16));
    if matches!(digits.as_bytes(), [b'+' | b'-', digit, ..] if digit.is_ascii_digit()) {
        return Err(format!(
            "{} has a sign: numbers are 0 to 2^64 - 1, decimal or hexadecimal after 0x",
            quoted(text.as_ref())
        ));
    }
    let readable = !digits.starts_with('+'); // which from_str_radix would take
    u64::from_str_radix(digits, radix)
        .ok()
        .filter(|_| readable)
        .ok_or_else(|| format!("{} is no number below 2^64, decimal or hexadecimal after 0x", quoted(text.as_ref())))
}

/// A set: 16 upper-case hexadecimal digits.
pub fn set(text: &str) -> Result<u64, String> {
    let digit = |byte: u8| byte.is_ascii_digit() || (b'A'..=b'F').contains(&byte);
    u64::from_str_radix(text, 16)
        .ok()
        .filter(|_| text.len() == 16 && text.bytes().all(digit))
        .ok_or_else(|| format!("{} is not 16 upper-case hexadecimal digits", quoted(text.as_ref())))
}

/// R or B.
pub fn kind(text: &str) -> Result<Kind, String> {
    match text {
        "R" => Ok(Kind::Rook),
        "B" => Ok(Kind::Bishop),
        _ => Err(format!("{} is neither R, a rook, nor B, a bishop", quoted(text.as_ref()))),
    }
}

/// A square's name of exactly two bytes.
pub fn square(text: &str) -> Result<Square, String> {
    let name = Some(text).filter(|name| name.len() == 2).and_then(|name| name.parse().ok());
    name.ok_or_else(|| format!("{} is no square, a1 to h8", quoted(text.as_ref())))
}

#[cfg(test)]
mod tests {
    use super::*;

    #[test]
    fn numbers() {
        assert_eq!(number("0"), Ok(0));
        assert_eq!(number("0xFfFfFfFfFfFfFfFf"), Ok(u64::MAX));
        assert_eq!(number("18446744073709551615"), Ok(u64::MAX));
        for text in
            ["", "0x", "+1", "0x+1", "-1", " 1", "1 ", "1_000", "0X1", "1e3", "18446744073709551616", "0x10000000000000000"]
        {
            assert!(number(text).is_err(), "{text}");
        }
        for text in ["-1", "+1", "0x-1"] {
            assert!(number(text).unwrap_err().contains("has a sign"), "{text}");
        }
    }

    #[test]
    fn sets() {
        assert_eq!(set("00000000000000FF"), Ok(255));
        for text in ["", "00000000000000ff", "0000000000000FF", "000000000000000FF", "+0000000000000FF", "000000000000 0FF"] {
            assert!(set(text).is_err(), "{text}");
        }
    }

    #[test]
    fn squares_and_kinds() {
        assert_eq!(square("h8").map(u8::from), Ok(63));
        for text in ["", "a", "a0", "a9", "i1", "A1", "a1 ", "a10", "é"] {
            assert!(square(text).is_err(), "{text}");
        }
        assert_eq!(kind("B"), Ok(Kind::Bishop));
        for text in ["", "r", "Q", "RB"] {
            assert!(kind(text).is_err(), "{text}");
        }
    }

    #[test]
    fn echoes_are_cut() {
        assert_eq!(quoted("a\n\x1b[1mé".as_ref()), r#""a\n\u{1b}[1mé""#);
        assert_eq!(quoted(OsStr::from_bytes(b"a\xFF")), r#""a\xFF""#);
        assert_eq!(plain_or_quoted("a b\u{e9}".as_ref()), "a b\u{e9}");
        assert_eq!(plain_or_quoted("a\n".as_ref()), r#""a\n""#);
        assert_eq!(plain_or_quoted(OsStr::from_bytes(b"a\xFF")), r#""a\xFF""#);
        for length in [ECHO + 1, 3_000_000] {
            let text = quoted(OsStr::from_bytes(&vec![b'x'; length]));
            assert!(text.len() < ECHO + 30 && text.ends_with(&format!(".. ({length} bytes)")), "{text}");
            assert!(cut(&"é".repeat(length)).len() < 2 * ECHO + 30);
        }
    }
}
