//! What a command answers: names and values, as a line of words or as JSON.

use std::fmt;

/// `name value name value ..`, in a fixed order. The same names are the keys of the JSON.
pub struct Facts(pub Vec<(&'static str, Value)>);

pub enum Value {
    Number(u64),
    /// 16 hexadecimal digits.
    Set(u64),
    Text(String),
}

impl Facts {
    pub fn json(&self) -> Json {
        let value = |value: &Value| match value {
            Value::Number(number) => Json::Number(*number),
            Value::Set(set) => Json::Text(format!("{set:016X}")),
            Value::Text(text) => Json::Text(text.clone()),
        };
        Json::Object(self.0.iter().map(|(name, fact)| (*name, value(fact))).collect())
    }
}

impl fmt::Display for Facts {
    fn fmt(&self, f: &mut fmt::Formatter) -> fmt::Result {
        for (at, (name, value)) in self.0.iter().enumerate() {
            let space = if at == 0 { "" } else { " " };
            match value {
                Value::Number(number) => write!(f, "{space}{name} {number}")?,
                Value::Set(set) => write!(f, "{space}{name} {set:016X}")?,
                Value::Text(text) => write!(f, "{space}{name} {text}")?,
            }
        }
        Ok(())
    }
}

/// Numbers from 2^53 on are written as text: some readers of JSON would round them.
#[derive(Clone, Debug, PartialEq, Eq)]
pub enum Json {
    Null,
    True,
    Number(u64),
    Text(String),
    List(Vec<Json>),
    Object(Vec<(&'static str, Json)>),
}

impl fmt::Display for Json {
    fn fmt(&self, f: &mut fmt::Formatter) -> fmt::Result {
        match self {
            Json::Null => f.write_str("null"),
            Json::True => f.write_str("true"),
            Json::Number(number) if *number >> 53 == 0 => write!(f, "{number}"),
            Json::Number(number) => write!(f, "\"{number}\""),
            Json::Text(text) => string(f, text),
            Json::List(list) => separated(f, ('[', ']'), list, |f, item| write!(f, "{item}")),
            Json::Object(fields) => separated(f, ('{', '}'), fields, |f, (name, value)| {
                string(f, name)?;
                write!(f, ":{value}")
            }),
        }
    }
}

fn separated<T>(
    f: &mut fmt::Formatter,
    (open, close): (char, char),
    items: &[T],
    write: impl Fn(&mut fmt::Formatter, &T) -> fmt::Result,
) -> fmt::Result {
    write!(f, "{open}")?;
    for (at, item) in items.iter().enumerate() {
        f.write_str(if at == 0 { "" } else { "," })?;
        write(f, item)?;
    }
    write!(f, "{close}")
}

fn string(f: &mut fmt::Formatter, text: &str) -> fmt::Result {
    f.write_str("\"")?;
    for character in text.chars() {
        match character {
            '"' | '\\' => write!(f, "\\{character}")?,
            '\0'..='\x1F' => write!(f, "\\u{:04x}", u32::from(character))?,
            _ => write!(f, "{character}")?,
        }
    }
    f.write_str("\"")
}

#[cfg(test)]
mod tests {
    use super::*;

    #[test]
    fn lines_and_json() {
        let facts = Facts(vec![
            ("reach", Value::Number(104_960)),
            ("set", Value::Set(0x102)),
            ("name", Value::Text("a\"b\\c\n\u{1}é".to_string())),
        ]);
        assert_eq!(facts.to_string(), "reach 104960 set 0000000000000102 name a\"b\\c\n\u{1}é");
        let text = r#"{"reach":104960,"set":"0000000000000102","name":"a\"b\\c\u000a\u0001é"}"#;
        assert_eq!(facts.json().to_string(), text);
        assert_eq!(Json::Number((1 << 53) - 1).to_string(), "9007199254740991");
        assert_eq!(Json::Number(1 << 53).to_string(), "\"9007199254740992\"");
        assert_eq!(Json::List(vec![Json::Null, Json::True, Json::List(vec![])]).to_string(), "[null,true,[]]");
    }
}
