//! Arguments, files and streams as an enemy would choose them.

use crate::{in_shell, program, run, slider, slider_on, stored, Ran};
use std::ffi::{OsStr, OsString};
use std::fs::File;
use std::os::unix::ffi::OsStrExt;
use std::path::PathBuf;
use std::process::Stdio;

/// Commands that answer, each with the status that it has where its answer can be written.
const ANSWERING: [(&[&str], i32); 12] = [
    (&["--help"], 0),
    (&["--version"], 0),
    (&["build", "--help"], 0),
    (&["build", "1"], 0),
    (&["build", "1", "--slots", "64", "--budget", "0"], 1),
    (&["build", "1", "--slots", "64", "--json"], 1),
    (&["audit", "build-1.txt"], 0),
    (&["board", "R", "d4", "0000000000000000"], 0),
    (&["search", "B", "a1", "1"], 0),
    (&["rays", "R", "d4"], 0),
    (&["pext"], 0),
    (&["query"], 0),
];

/// With a standard output that is closed, or open and not for writing, Rust's takes the answer and drops it: the status stands.
#[test]
fn closed_output() {
    for (words, status) in ANSWERING {
        for shell in [r#"exec "$@" >&-"#, r#"exec "$@" 1< /dev/null"#] {
            let ran = in_shell(shell, words);
            assert_eq!((ran.status, ran.out.as_str()), (Some(status), ""), "{words:?}: {}", ran.err);
        }
    }
    let ran = in_shell(r#"exec "$@" >&-"#, &["build", "1", "--slots", "0", "--out", "/dev/null"]);
    assert_eq!((ran.status, ran.err.as_str()), (Some(1), ""));
}

/// Thrown away on purpose is another thing.
#[test]
fn null_output() {
    for (words, status) in ANSWERING {
        assert_eq!(in_shell(r#"exec "$@" > /dev/null"#, words).status, Some(status), "{words:?}");
        assert_eq!(in_shell(r#"exec "$@" 1<> /dev/null"#, words).status, Some(status), "{words:?}, for reading and writing");
    }
}

#[test]
fn full_device() {
    for (words, _) in ANSWERING {
        let full = File::options().write(true).open("/dev/full").unwrap();
        let output = program(words).stdin(Stdio::null()).stdout(full).output().unwrap();
        let error = String::from_utf8(output.stderr).unwrap();
        assert_eq!(output.status.code(), Some(2), "{words:?}: {error}");
        assert!(error.contains("slider: cannot write the answer: "), "{words:?}: {error}");
    }
}

/// A reader that goes away does not make the program panic, and its status stands.
#[test]
fn broken_pipe() {
    for (words, status) in ANSWERING {
        let mut child = program(words).spawn().unwrap();
        drop(child.stdout.take());
        let output = child.wait_with_output().unwrap();
        let error = String::from_utf8(output.stderr).unwrap();
        assert_eq!(output.status.code(), Some(status), "{words:?}: {error}");
        assert_eq!(error, "", "{words:?}");
    }
}

/// Nobody to tell: the status stands.
#[test]
fn closed_error() {
    assert_eq!(in_shell(r#"exec "$@" 2>&-"#, &["build", "x"]).status, Some(2));
    let ran = in_shell(r#"exec "$@" 2>&-"#, &["build", "1", "--slots", "0"]);
    assert_eq!((ran.status, ran.out.lines().count()), (Some(1), 132));
    assert_eq!(in_shell(r#"exec "$@" >&- 2>&-"#, &["build", "1"]).status, Some(0));
}

/// A standard input that is closed, or open and not for reading, is an empty one to Rust.
#[test]
fn closed_input() {
    for shell in [r#"exec "$@" <&-"#, r#"exec "$@" 0> /dev/null"#] {
        in_shell(shell, &["query"]).gives("slider 1\n", 0);
        in_shell(shell, &["audit"]).is_bad(&["standard input, line 1, field outcome: the report ends before it"]);
        in_shell(shell, &["audit", "build-1.txt"]).gives("accepted reach 104960\n", 0);
    }
    let ran = in_shell(r#"exec "$@" < ."#, &["query"]);
    assert_eq!((ran.out.as_str(), ran.status), ("slider 1\n", Some(2)));
    ran.says(&["cannot read the queries"]);
}

/// A report without an end is not read to it, and long words are not echoed whole.
#[test]
fn without_end() {
    slider("audit /dev/zero").is_bad(&["cannot read /dev/zero: it is longer than any report"]);
    let long = "7".repeat(60_000);
    let ran = slider_on(&["build", "--multipliers", "/dev/stdin"], long.as_bytes());
    ran.is_bad(&["\"/dev/stdin\", line 1: \"777", ".. (60000 bytes) is no number"]);
    assert!(ran.err.len() < 400, "{} bytes", ran.err.len());
    let ran = slider_on(&["audit"], format!("outcome {long}\n").as_bytes());
    ran.is_bad(&["line 1, field outcome: \"777"]);
    assert!(ran.err.len() < 400, "{} bytes", ran.err.len());
}

#[test]
fn long_words() {
    let long = "x".repeat(100_000);
    let (option, equals) = (format!("--{long}"), format!("--budget={long}"));
    for words in [
        vec![long.as_str()],
        vec!["build", &long],
        vec!["build", "1", &long],
        vec!["build", &option],
        vec!["build", "1", "--budget", &long],
        vec!["build", "1", &equals],
        vec!["build", "--multipliers", &long],
        vec!["audit", &long],
        vec!["board", &long, "d4", "0000000000000000"],
        vec!["board", "R", &long, "0000000000000000"],
        vec!["board", "R", "d4", &long],
        vec!["help", &long],
    ] {
        let ran = slider_on(&words, b"");
        ran.is_bad(&["xxx"]);
        assert!(ran.err.len() < 600, "{} bytes", ran.err.len());
    }
}

/// The name as any bytes but / and 0.
fn named(name: &[u8]) -> PathBuf {
    let folder = PathBuf::from(env!("CARGO_TARGET_TMPDIR")).join("names");
    std::fs::create_dir_all(&folder).unwrap();
    folder.join(OsStr::from_bytes(name))
}

#[test]
fn names_of_any_bytes() {
    let accepted = "accepted reach 104960\n";
    for name in [&b"\xFF\xFE"[..], b"a\nb", b"--json", b"-", b"report\x1B[2J"] {
        let path = named(name);
        std::fs::write(&path, stored("build-1.txt")).unwrap();
        run(program(&[OsStr::new("audit"), path.as_os_str()]), b"").gives(accepted, 0);
        // relative, after --
        let mut command = program(&[OsStr::new("audit"), OsStr::new("--"), OsStr::from_bytes(name)]);
        command.current_dir(path.parent().unwrap());
        if name != b"-" {
            run(command, b"").gives(accepted, 0);
        }
        std::fs::write(&path, "1\n".repeat(128)).unwrap();
        let ran = run(program(&[OsStr::new("build"), OsStr::new("--multipliers"), path.as_os_str()]), b"");
        assert!(ran.out.starts_with("outcome refused 6 block 0\n"), "{}", ran.err);
        let mut option = OsString::from("--out=");
        option.push(&path);
        let ran = run(program(&[OsStr::new("build"), OsStr::new("1"), OsStr::new("--slots=0"), &option]), b"");
        assert_eq!((ran.status, ran.out.as_str()), (Some(1), ""), "{}", ran.err);
        assert!(std::fs::read_to_string(&path).unwrap().starts_with("outcome refused 4 block 0\n"));
        // a message shows no byte of it that could do harm
        std::fs::write(&path, "nothing").unwrap();
        let ran = run(program(&[OsStr::new("audit"), path.as_os_str()]), b"");
        ran.is_bad(&["line 1, field outcome"]);
        assert!(!ran.err.contains('\x1B') && ran.err.lines().count() == 1, "{:?}", ran.err);
    }
}

#[test]
fn words_that_are_no_text() {
    let bytes = OsStr::from_bytes;
    for words in [
        vec![bytes(b"\xFF")],
        vec![bytes(b"build"), bytes(b"\xFF")],
        vec![bytes(b"build"), bytes(b"1"), bytes(b"--budget=\xFF")],
        vec![bytes(b"build"), bytes(b"1"), bytes(b"--\xFF")],
        vec![bytes(b"board"), bytes(b"R"), bytes(b"\xFF4"), bytes(b"0000000000000000")],
        vec![bytes(b"help"), bytes(b"\xFF")],
    ] {
        let ran: Ran = run(program(&words), b"");
        ran.is_bad(&[]);
    }
    run(program(&[bytes(b"build"), bytes(b"\xFF")]), b"").is_bad(&["the argument \"\\xFF\" is no text"]);
}

/// Memory that cannot be had is told, and is no panic.
#[test]
fn little_memory() {
    let limited = |words: &[&str]| in_shell(r#"ulimit -v 200000 && exec "$@""#, words);
    if limited(&["--version"]).status != Some(0) {
        return eprintln!("not tried: the emulator itself needs more memory than the limit");
    }
    limited(&["build", "1", "--slots", "16777216"]).is_bad(&["the memory for 16777216 slots cannot be had"]);
    assert_eq!(limited(&["build", "1"]).status, Some(0));
}
