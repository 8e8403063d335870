use crate::{program, slider, slider_on, stored};
use std::fs::File;
use std::process::Stdio;

#[test]
fn help() {
    let help = slider("--help");
    assert_eq!((help.err.as_str(), help.status), ("", Some(0)));
    assert_eq!(slider("-h").out, help.out);
    assert_eq!(slider("help").out, help.out);
    for command in ["build", "audit", "query", "board"] {
        assert!(help.out.contains(&format!("  slider {command}")), "{command}");
        for words in [format!("{command} --help"), format!("help {command}"), format!("{command} 1 2 3 -h")] {
            let ran = slider(&words);
            assert!(ran.out.starts_with(&format!("slider {command}")) && ran.out.contains("Exit status:"), "{words}");
            assert_eq!((ran.err.as_str(), ran.status), ("", Some(0)), "{words}");
        }
    }
    assert_eq!(slider("--version").out, concat!("slider ", env!("CARGO_PKG_VERSION"), "\n"));
}

#[test]
fn unknown_words() {
    slider("").is_bad(&["no command", "slider build SEED"]);
    slider("frobnicate").is_bad(&["unknown command \"frobnicate\"", "slider --help"]);
    slider("--frobnicate").is_bad(&["unknown command \"--frobnicate\""]);
    slider("build --frobnicate 1").is_bad(&["unknown option --frobnicate", "slider build --help"]);
}

#[cfg(unix)]
#[test]
fn an_argument_that_is_no_text() {
    use std::os::unix::ffi::OsStrExt;
    let mut command = program(&["build"]);
    let output = command.arg(std::ffi::OsStr::from_bytes(b"\xFF")).output().unwrap();
    assert_eq!(output.status.code(), Some(2));
    assert!(String::from_utf8(output.stderr).unwrap().contains("is no text"));
}

#[test]
fn boards() {
    for words in ["board R d4 000008000A000000", "board B c6 0002000000004081"] {
        let ran = slider(words);
        let name = words.to_lowercase().replace(' ', "-") + ".txt";
        assert_eq!((ran.out, ran.err.as_str(), ran.status), (stored(&name), "", Some(0)), "{words}");
    }
    for (words, message) in [
        ("board", "no piece"),
        ("board R", "no square"),
        ("board R d4", "no blockers"),
        ("board Q d4 0000000000000000", "piece: \"Q\" is neither R, a rook, nor B, a bishop"),
        ("board R d9 0000000000000000", "square: \"d9\" is no square, a1 to h8"),
        ("board R d44 0000000000000000", "square: \"d44\" is no square"),
        ("board R d4 0", "blockers: \"0\" is not 16 upper-case hexadecimal digits"),
        ("board R d4 000000000000000g", "blockers: \"000000000000000g\""),
        ("board R d4 0000000000000000 e5", "\"e5\" is one argument too many"),
    ] {
        slider(words).is_bad(&[message]);
    }
}

/// A reader that goes away does not make the program panic, and its status stands.
#[test]
fn broken_pipe() {
    for (words, status) in [
        (&["--help"][..], 0),
        (&["build", "--help"], 0),
        (&["build", "1", "--slots", "64", "--budget", "0"], 1),
        (&["build", "1"], 0),
        (&["audit", "build-1.txt"], 0),
        (&["board", "R", "d4", "0000000000000000"], 0),
        (&["query"], 0),
    ] {
        let mut child = program(words).spawn().unwrap();
        drop(child.stdout.take());
        let output = child.wait_with_output().unwrap();
        assert_eq!((output.status.code(), String::from_utf8(output.stderr).unwrap().as_str()), (Some(status), ""), "{words:?}");
    }
}

/// A disk that is full is a failure.
#[cfg(target_os = "linux")]
#[test]
fn full_disk() {
    for words in [&["--help"][..], &["build", "1", "--slots", "64"], &["audit", "build-1.txt"], &["query"]] {
        let full = File::options().write(true).open("/dev/full").unwrap();
        let output = program(words).stdin(Stdio::null()).stdout(full).output().unwrap();
        let error = String::from_utf8(output.stderr).unwrap();
        assert_eq!(output.status.code(), Some(2), "{words:?}: {error}");
        assert!(error.starts_with("slider: cannot write"), "{words:?}: {error}");
    }
}

/// Nothing is shown of progress where standard error is no terminal.
#[test]
fn quiet() {
    for words in ["build 1", "audit build-1.txt"] {
        assert_eq!(slider(words).err, "", "{words}");
    }
    assert_eq!(slider_on(&["query"], &b"R a1 0000000000000000\n".repeat(20_000)).err, "");
}
