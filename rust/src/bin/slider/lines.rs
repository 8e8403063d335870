//! Report lines, as they are read: names and values, a space between them. An error names the line and the field.

use crate::args::{self, quoted};
use std::str::Split;

/// The lines that are still to be read.
pub struct Lines<'a> {
    text: &'a [u8],
    number: usize,
}

pub struct Line<'a> {
    number: usize,
    words: Split<'a, char>,
}

impl<'a> Lines<'a> {
    pub fn new(text: &'a [u8]) -> Lines<'a> {
        Lines { text, number: 0 }
    }

    /// The next line, which is to begin with `field`.
    pub fn next(&mut self, field: &str) -> Result<Line<'a>, String> {
        self.number += 1;
        let error = |what| format!("line {}, field {field}: {what}", self.number);
        if self.text.is_empty() {
            return Err(error("the report ends before it"));
        }
        let end = self.text.iter().position(|&byte| byte == b'\n').ok_or_else(|| error("the line has no line feed"))?;
        let line = std::str::from_utf8(&self.text[..end]).map_err(|_| error("the line is no text"))?;
        self.text = &self.text[end + 1..];
        let mut line = Line { number: self.number, words: line.split(' ') };
        line.label(field)?;
        Ok(line)
    }

    /// Whether the next line begins with this word.
    pub fn begins(&self, word: &str) -> bool {
        self.text.strip_prefix(word.as_bytes()).map_or(false, |rest| rest.starts_with(b" "))
    }

    pub fn end(&self) -> Result<(), String> {
        if self.text.is_empty() {
            return Ok(());
        }
        Err(format!("line {}: the report is over, and more follows", self.number + 1))
    }
}

impl<'a> Line<'a> {
    pub fn error(&self, field: &str, what: &str) -> String {
        format!("line {}, field {field}: {what}", self.number)
    }

    pub fn has_more(&self) -> bool {
        self.words.clone().next().is_some()
    }

    pub fn word(&mut self, field: &str) -> Result<&'a str, String> {
        self.words.next().ok_or_else(|| self.error(field, "missing"))
    }

    /// What is left of the line, as it is.
    pub fn rest(self) -> String {
        self.words.collect::<Vec<_>>().join(" ")
    }

    pub fn label(&mut self, label: &str) -> Result<(), String> {
        match self.word(label)? {
            word if word == label => Ok(()),
            word => Err(self.error(label, &format!("{} stands in its place", quoted(word.as_ref())))),
        }
    }

    /// A decimal number as it is written: digits, no zero in front.
    pub fn decimal<T: TryFrom<u64>>(&mut self, field: &str) -> Result<T, String> {
        let word = self.word(field)?;
        let number = word.parse::<u64>().ok().filter(|number| number.to_string() == word);
        let number = number.ok_or_else(|| self.error(field, &format!("{} is no decimal number", quoted(word.as_ref()))))?;
        T::try_from(number).map_err(|_| self.error(field, &format!("{number} is too large")))
    }

    pub fn labelled<T: TryFrom<u64>>(&mut self, label: &str) -> Result<T, String> {
        self.label(label)?;
        self.decimal(label)
    }

    /// 16 upper-case hexadecimal digits.
    pub fn hex(&mut self, field: &str) -> Result<u64, String> {
        let word = self.word(field)?;
        args::set(word).map_err(|error| self.error(field, &error))
    }

    pub fn labelled_hex(&mut self, label: &str) -> Result<u64, String> {
        self.label(label)?;
        self.hex(label)
    }

    pub fn end(mut self) -> Result<(), String> {
        let more = |word: &str| format!("line {}: {} is one word too many", self.number, quoted(word.as_ref()));
        self.words.next().map_or(Ok(()), |word| Err(more(word)))
    }
}
