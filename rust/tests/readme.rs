//! What the READMEs show is what is answered.

mod common;

use common::text;
use std::process::{Command, Stdio};

/// The lines after one that begins with `command`, up to one that is not indented; without the indent.
fn shown(text: &str, command: &str) -> (String, String) {
    let mut lines = text.lines().skip_while(|line| !line.starts_with(&format!("    $ {command}")));
    let first = lines.next().unwrap_or_else(|| panic!("no {command}"));
    let block: Vec<&str> = lines.take_while(|line| line.is_empty() || line.starts_with("    ")).collect();
    let lines = block.iter().map(|line| line.strip_prefix("    ").unwrap_or("").to_string() + "\n");
    (first["    $ ".len()..].to_string(), lines.collect::<String>().trim_end().to_string() + "\n")
}

fn slider() -> Command {
    common::command(env!("CARGO_BIN_EXE_slider"))
}

fn said(command: &mut Command) -> String {
    String::from_utf8(command.stdin(Stdio::null()).output().unwrap().stdout).unwrap()
}

#[test]
fn boards() {
    for path in ["../README.md", "README.md"] {
        let (command, board) = shown(&text(path), "rust/run board");
        let words: Vec<&str> = command.split(' ').skip(1).collect();
        assert_eq!(said(slider().args(words)), board, "{path}");
    }
}

/// The example of the query program: by a shell, with `slider query` in place of `tools/query`.
#[test]
fn queries() {
    let (command, answers) = shown(&text("../README.md"), "printf");
    let line = command.replace("tools/query", r#""$@" query"#);
    assert_ne!(line, command);
    let program = slider();
    let words = std::iter::once(program.get_program()).chain(program.get_args());
    assert_eq!(said(Command::new("sh").args(["-c", &line, "sh"]).args(words)), answers);
}

/// The examples in Rust are those that the documentation's tests run.
#[test]
fn rust() {
    let (readme, tested) = (text("README.md"), text("src/lib.rs"));
    let examples: Vec<&str> = readme.split("```rust\n").skip(1).map(|rest| rest.split("```").next().unwrap()).collect();
    assert_eq!(examples.len(), 2);
    for line in examples.concat().lines().filter(|line| !line.is_empty()) {
        assert!(tested.contains(&format!("//! {line}\n")), "{line}");
    }
}
