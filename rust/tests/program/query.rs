use crate::{program, slider, slider_on};
use std::io::{Read, Write};

/// The rulebook's example, and the stored run of the Rattle program `query`, whose answers a Python program worked out.
#[test]
fn stored_queries() {
    let example = b"R d4 000008000A000000\nB h1 0000000000004000\nQ a1 0000000000000000\n";
    let answer = "slider 1\nR d4 000008000A000000 00000808F6080808\nB h1 0000000000004000 0000000000004000\n?\n";
    let ran = slider_on(&["query"], example);
    assert_eq!((ran.out.as_str(), ran.err.as_str(), ran.status), (answer, "", Some(0)));

    let crates = std::path::Path::new(concat!(env!("CARGO_MANIFEST_DIR"), "/../crates/query"));
    let (input, output) =
        (std::fs::read(crates.join("stdin")).unwrap(), std::fs::read_to_string(crates.join("stdout")).unwrap());
    for seed in ["0", "0xaea0b05615e97b6c"] {
        let ran = slider_on(&["query", "--seed", seed], &input);
        assert_eq!(ran.status, Some(0), "{}", ran.err);
        assert!(ran.out == output, "seed {seed}: not the stored answers");
    }
}

#[test]
fn edges() {
    for (input, output) in [
        (&b""[..], "slider 1\n"),
        (b"\n", "slider 1\n?\n"),
        (b"\n\n", "slider 1\n?\n?\n"),
        (b"\0", "slider 1\n?\n"),
        (b"R a1 0000000000000102", "slider 1\nR a1 0000000000000102 0000000000000102\n"),
        (b"R a1 0000000000000102\r\n", "slider 1\n?\n"),
        (b"R a1 000000000000010\xC3\xA9\n", "slider 1\n?\n"),
        (b"R \xC3\xA9 0000000000000102\nr a1 0000000000000102\nR a9 0000000000000102\n", "slider 1\n?\n?\n?\n"),
    ] {
        let ran = slider_on(&["query"], input);
        assert_eq!((ran.out.as_str(), ran.status), (output, Some(0)), "{input:?}");
    }
}

/// An answer comes before more input is awaited.
#[test]
fn answers_as_lines_come() {
    let mut child = program(&["query"]).spawn().unwrap();
    let (mut stdin, mut stdout) = (child.stdin.take().unwrap(), child.stdout.take().unwrap());
    let mut read = |length: usize| {
        let mut bytes = vec![0; length];
        stdout.read_exact(&mut bytes).unwrap();
        String::from_utf8(bytes).unwrap()
    };
    assert_eq!(read(9), "slider 1\n");
    for _ in 0..3 {
        stdin.write_all(b"B a1 0000000000000000\n").unwrap();
        assert_eq!(read(39), "B a1 0000000000000000 8040201008040200\n");
    }
    drop(stdin);
    assert_eq!(child.wait().unwrap().code(), Some(0));
}

#[test]
fn bad_arguments() {
    slider("query --seed").is_bad(&["--seed needs a value"]);
    slider("query --seed x").is_bad(&["--seed: \"x\" is no number"]);
    slider("query 5").is_bad(&["\"5\" is one argument too many"]);
    slider("query --table").is_bad(&["unknown option --table"]);
}
