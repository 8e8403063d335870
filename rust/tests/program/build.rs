use crate::{slider, slider_on, stored};

/// Each run of tests/data/runs.txt: the first four lines, the status, and the lines of the blocks by the name of a stored report.
#[test]
fn runs_as_stored() {
    let runs = stored("runs.txt");
    let zero: String =
        (0..128).map(|b| format!("block {b} multiplier {0:016X} mask {0:016X} offset 0 shift 0 attempts 0\n", 0)).collect();
    for run in runs.split("\n\n") {
        let lines: Vec<&str> = run.lines().collect();
        let command = lines[0].strip_prefix("$ slider ").unwrap();
        let blocks = match lines[5].strip_prefix("blocks ").unwrap() {
            "zero" => zero.clone(),
            name => {
                let (name, attempts) = name.strip_suffix(" without attempts").map_or((name, true), |name| (name, false));
                let blocks = stored(name).lines().skip(4).map(|line| line.to_string() + "\n").collect::<Vec<_>>();
                let without = |line: &String| line[..line.find(" attempts ").unwrap()].to_string() + " attempts 0\n";
                if attempts {
                    blocks.concat()
                } else {
                    blocks.iter().map(without).collect()
                }
            }
        };
        let ran = slider(command);
        assert_eq!(ran.out, format!("{}\n{blocks}", lines[1..5].join("\n")), "{command}");
        assert_eq!(format!("status {}", ran.status.unwrap()), lines[6], "{command}");
        assert_eq!(ran.err, "", "{command}");
    }
}

#[test]
fn whole_reports() {
    for seed in ["0", "1", "0xaea0b05615e97b6c", "0x6fd4ce64c83f5143", "18446744073709551615"] {
        assert_eq!(slider(&format!("build {seed}")).out, stored(&format!("build-{seed}.txt")), "seed {seed}");
    }
    assert_eq!(slider("build 0xFFFFFFFFFFFFFFFF").out, stored("build-18446744073709551615.txt"));
}

#[test]
fn options_in_any_order_and_form() {
    let one = slider("build 1 --slots 64 --budget 0");
    assert!(one.out.starts_with("outcome refused 5 block 0\n"));
    for words in
        ["build --budget=0x0 1 --slots=0x40", "build --slots 64 --budget 0 1", "build --marks 64 1 --slots 64 --budget 0"]
    {
        assert_eq!(slider(words).out, one.out, "{words}");
    }
    // with multipliers no seed is needed
    assert_eq!(slider("build --multipliers multipliers-five-ones.txt").out, stored("lent-five-ones.txt"));
}

#[test]
fn bad_arguments() {
    for (words, message) in [
        ("build", "no SEED"),
        ("build --slots 64", "no SEED"),
        ("build x", "SEED: \"x\" is no number"),
        ("build -1", "unknown option -1"),
        ("build +1", "SEED: \"+1\""),
        ("build 0x", "SEED: \"0x\""),
        ("build 1 2", "\"2\" is one argument too many"),
        ("build 18446744073709551616", "no number below 2^64"),
        ("build 0x10000000000000000", "no number below 2^64"),
        ("build 1 --budget", "--budget needs a value"),
        ("build 1 --budget x", "--budget: \"x\""),
        ("build 1 --slots 1.5", "--slots: \"1.5\""),
        ("build 1 --slots 16777217", "--slots: at most 16777216"),
        ("build 1 --marks 0xffffffffffffffff", "--marks: at most 16777216"),
        ("build 1 --slots 1 --slots 2", "--slots is given twice"),
        ("build 1 --garbage", "unknown option --garbage"),
        ("build 1 --seed 2", "unknown option --seed"),
        ("build 1 --multipliers no-such-file", "cannot read \"no-such-file\""),
        ("build 1 --multipliers .", "cannot read \".\""),
        ("build 1 --multipliers build-1.txt", "\"build-1.txt\", line 1: \"outcome ok\" is no number"),
    ] {
        slider(words).is_bad(&[message]);
    }
    slider_on(&["build", ""], b"").is_bad(&["SEED: \"\""]);
}
