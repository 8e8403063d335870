//! Help, and words of the command line, beside those of usage.rs.

use crate::{slider, slider_on, stored};

/// What scripts may have read of the first commands stays byte for byte; `slider more` lists what came later.
#[test]
fn help_stays() {
    slider("--help").gives(&stored("help.txt"), 0);
    for command in ["build", "audit", "query", "board"] {
        slider(&format!("{command} --help")).gives(&stored(&format!("help-{command}.txt")), 0);
    }
    let version = concat!("slider ", env!("CARGO_PKG_VERSION"), "\n");
    for words in ["--version", "--version extra", "--version --json", "help --version"] {
        slider(words).gives(version, 0);
    }
    for words in ["help", "-h", "--help extra", "-h build", "help build audit", "help help", "help --help"] {
        slider(words).gives(&stored("help.txt"), 0);
    }
    slider("help frobnicate").is_bad(&["unknown command \"frobnicate\""]);
}

#[test]
fn what_came_later() {
    let more = slider("more");
    assert_eq!((more.err.as_str(), more.status), ("", Some(0)));
    for command in ["search", "rays", "mask", "pext", "version"] {
        assert!(more.out.contains(&format!("  slider {command}")), "{command}");
        for words in [format!("{command} --help"), format!("help {command}"), format!("{command} 1 2 3 -h")] {
            let ran = slider(&words);
            assert!(ran.out.starts_with(&format!("slider {command}")) && ran.out.contains("Exit status:"), "{words}");
            assert_eq!((ran.err.as_str(), ran.status), ("", Some(0)), "{words}");
        }
    }
    for option in ["build .. --origin", "build .. --out FILE", "build .. --json", "audit .. --seed N", "audit .. --json"] {
        assert!(more.out.contains(&format!("  slider {option}")), "{option}");
    }
    for words in ["-V 1", "version extra", "more extra"] {
        slider(words).is_bad(&["is one argument too many"]);
    }
}

#[test]
fn words() {
    for (words, message) in [
        ("build -", "SEED: \"-\" is no number"),
        ("build -x", "unknown option -x"),
        ("build -1", "unknown option -1"),
        ("build 1 --budget -5", "--budget: \"-5\" has a sign"),
        ("build -- -1", "SEED: \"-1\" has a sign: numbers are 0 to 2^64 - 1"),
        ("build -- --help", "SEED: \"--help\" is no number"),
        ("build --slots 0 -- 1 --json", "\"--json\" is one argument too many"),
    ] {
        slider(words).is_bad(&[message]);
    }
    slider("rays -- R a1").gives("rays 01010101010101FE\n", 0);
    slider("rays R -- a1").gives("rays 01010101010101FE\n", 0);
    slider("audit -- build-1.txt").gives("accepted reach 104960\n", 0);
    assert_eq!(slider("build --slots 0 -- 1").status, Some(1));
    // a file of this name, as for any other: standard input is /dev/stdin
    slider_on(&["build", "--multipliers", "-"], b"1\n").is_bad(&["cannot read \"-\""]);
}
