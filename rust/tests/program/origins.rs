//! Reports that name what they came from (`build --origin`), and audits that hold a report against the build from a seed.

use crate::{slider, slider_on, stored, Ran};

fn audited(report: &str) -> Ran {
    slider_on(&["audit"], report.as_bytes())
}

/// The last line of a report that names its origin: what made it.
fn made() -> String {
    let version = slider("version").out;
    format!("made {}\n", version.lines().collect::<Vec<_>>().join(" "))
}

/// The report is byte for byte the one without the option; two lines follow.
#[test]
fn two_lines_follow() {
    for seed in ["0", "1", "0xaea0b05615e97b6c", "0x6fd4ce64c83f5143", "18446744073709551615"] {
        let wanted = stored(&format!("build-{seed}.txt"));
        let decimal = seed.strip_prefix("0x").map_or(seed.to_string(), |hex| u64::from_str_radix(hex, 16).unwrap().to_string());
        let from = format!("from seed {decimal} budget 16777216 slots 107648 marks 107648\n");
        slider(&format!("build {seed} --origin")).gives(&(wanted + &from + &made()), 0);
    }
    let ran = slider("build --multipliers multipliers-five-ones.txt --origin");
    assert!(ran.out.starts_with(&(stored("lent-five-ones.txt") + "from list 128 list-fnv ")), "{}", ran.out);
    for run in stored("runs.txt").split("\n\n") {
        let command = run.lines().next().unwrap().strip_prefix("$ slider ").unwrap();
        let (plain, told) = (slider(command), slider(&format!("{command} --origin")));
        assert!(told.out.starts_with(&(plain.out + "from ")) && told.out.ends_with(&made()), "{command}: {}", told.out);
        assert_eq!((told.err, told.status, told.out.lines().count()), (plain.err, plain.status, 134), "{command}");
    }
}

#[test]
fn what_a_report_came_from() {
    for (words, line) in [
        ("build 7 --budget 0 --slots 64", "from seed 7 budget 0 slots 64 marks 64"),
        ("build 7 --slots 64 --marks 65", "from seed 7 budget 16777216 slots 64 marks 65"),
        ("build 7 --budget 16777217 --slots 0", "from seed 7 budget 16777217 slots 0 marks 0"),
        ("build --multipliers multipliers-127.txt --slots 9", "from list 127 list-fnv 9767E5CC695B7946 slots 9 marks 9"),
    ] {
        let ran = slider(&format!("{words} --origin"));
        let from = ran.out.lines().find(|line| line.starts_with("from ")).unwrap();
        assert_eq!((from, ran.status), (line, Some(1)), "{words}");
    }
}

#[test]
fn slots_that_the_report_names() {
    let report = slider("build 1 --slots 104960 --origin").out;
    let accepted = "accepted reach 104960\nrebuilt from seed 1 budget 16777216 slots 104960 marks 104960\n";
    audited(&report).gives(accepted, 0);
    slider_on(&["audit", "--slots", "104960"], report.as_bytes()).gives(accepted, 0);
    let ran = slider_on(&["audit", "--slots", "104959"], report.as_bytes());
    assert_eq!((ran.out.as_str(), ran.status), ("refused 4 block 127\n", Some(1)));
}

#[test]
fn damaged_lines() {
    let report = stored("build-1.txt");
    for (more, message) in [
        ("from seed 1\n", "line 133, field budget: missing"),
        ("from\n", "line 133: the report is over"),
        ("fromage seed 1\n", "line 133: the report is over"),
        ("from sand 1 budget 2 slots 3 marks 4\n", "line 133, field from: \"sand\" is neither seed nor list"),
        ("from list 128 list-fnv 5 slots 3 marks 4\n", "line 133, field list-fnv: \"5\" is not 16 upper-case"),
        ("from seed 1 budget 2 slots 16777217 marks 4\n", "line 133, field slots: 16777217 are more than"),
        ("from seed 1 budget 2 slots 3 marks 4\n", "line 134, field made: the report ends before it"),
        ("made by nobody\n", "line 133: the report is over"),
    ] {
        audited(&(report.clone() + more)).is_bad(&["standard input", message]);
    }
    audited(&(slider("build 1 --origin").out + "\n")).is_bad(&["line 135: the report is over"]);
    audited(&slider("build 1 --slots 0 --origin").out).is_bad(&["line 1, field outcome: the report is of a refused build"]);
    slider("audit --seed build-1.txt").is_bad(&["--seed: \"build-1.txt\" is no number"]);
}

/// A report that names its seed, or is held against one: each line is seen, multipliers and counts too.
#[test]
fn seeds() {
    let new = slider("build 1 --origin").out;
    let rebuilt = "accepted reach 104960\nrebuilt from seed 1 budget 16777216 slots 107648 marks 107648\n";
    audited(&new).gives(rebuilt, 0);
    slider("audit --seed 1 build-1.txt").gives(rebuilt, 0);
    slider("audit build-1.txt --seed=0x1").gives(rebuilt, 0);
    slider_on(&["audit", "--seed", "1"], new.as_bytes()).gives(rebuilt, 0);

    // a count, attempts-max with it, and a multiplier that builds the same offsets: accepted without a seed
    let (count, most) = ("attempts 7207", "attempts-max 171853");
    let other = slider("search R h8 2").out;
    let other = other.strip_prefix("found ").unwrap().split(' ').next().unwrap();
    let swapped = stored("build-1.txt").replace("0000040040348102", other);
    let swapped = swapped.replace("FD018B2303A5733B", &fnv_of_lent(&swapped));
    for (changed, field) in [
        (
            stored("build-1.txt").replace(count, "attempts 7208"),
            "line 132, field attempts: the report says 7208, the rebuilt tables have 7207",
        ),
        (
            stored("build-1.txt").replace(most, "attempts-max 171854").replace("attempts 171853", "attempts 171854"),
            "field attempts: the report says 171854, the rebuilt tables have 171853",
        ),
        (swapped, "line 132, field multiplier: the report says"),
    ] {
        audited(&changed).gives("accepted reach 104960\n", 0);
        slider_on(&["audit", "--seed", "1"], changed.as_bytes()).is_bad(&[field, "the records are right", "from seed 1 "]);
        let named = changed + &new.lines().skip(132).map(|line| line.to_string() + "\n").collect::<String>();
        audited(&named).is_bad(&[field]);
    }

    // another seed than the report's
    slider("audit --seed 2 build-1.txt").is_bad(&["line 5, field multiplier", "more differences", "from seed 2 "]);
    slider_on(&["audit", "--seed", "2"], new.as_bytes()).is_bad(&["the build from seed 2 "]);
    let renamed = new.replace("from seed 1 ", "from seed 2 ");
    audited(&renamed).is_bad(&["line 5, field multiplier"]);
    let budget = new.replace("budget 16777216", "budget 171852");
    audited(&budget).is_bad(&["line 1, field outcome: the report says ok, the build that it names is refused"]);
    let marks = new.replace("marks 107648", "marks 107649");
    audited(&marks).is_bad(&["line 133, field from: the report says from seed 1 budget 16777216 slots 107648 marks 107649"]);
}

/// The digest of the table that a report's multipliers build.
fn fnv_of_lent(report: &str) -> String {
    let list: String = report.lines().skip(4).map(|line| format!("0x{}\n", line.split(' ').nth(3).unwrap())).collect();
    let ran = slider_on(&["build", "--multipliers", "/dev/stdin"], list.as_bytes());
    assert_eq!(ran.status, Some(0), "{}", ran.err);
    ran.out.lines().nth(3).unwrap().split(' ').nth(1).unwrap().to_string()
}

/// Of a list: counts are 0, and the list is named by its digest.
#[test]
fn lists() {
    let report = slider("build --multipliers multipliers-0.txt --origin").out;
    let ran = audited(&report);
    let lines: Vec<&str> = ran.out.lines().collect();
    assert!(lines.len() == 2 && lines[1].starts_with("rebuilt from list 128 list-fnv "), "{}", ran.out);
    audited(&report.replacen("attempts 0", "attempts 1", 1)).is_bad(&["line 5, field attempts: the report says 1"]);
    audited(&report.replace("list-fnv ", "list-fnv 0")).is_bad(&["line 133, field list-fnv"]);
    let at = report.find("list-fnv ").unwrap() + 9;
    let digit = if &report[at..=at] == "0" { "1" } else { "0" };
    let renamed = format!("{}{digit}{}", &report[..at], &report[at + 1..]);
    audited(&renamed).is_bad(&["line 133, field from: the report says from list 128 list-fnv "]);
    slider_on(&["audit", "--seed", "0"], report.as_bytes()).is_bad(&["line 5, field attempts", "from seed 0 "]);
}
