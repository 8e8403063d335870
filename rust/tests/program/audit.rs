use crate::{slider, slider_on, stored, Ran};

fn audited(report: &str) -> Ran {
    slider_on(&["audit"], report.as_bytes())
}

/// The report of seed 1 with one text, which it has once or at first, in place of another.
#[track_caller]
fn edited(old: &str, new: &str) -> String {
    let report = stored("build-1.txt");
    assert!(report.contains(old), "{old}");
    report.replacen(old, new, 1)
}

fn line(number: usize) -> String {
    stored("build-1.txt").lines().nth(number - 1).unwrap().to_string()
}

#[test]
fn stored_reports_are_accepted() {
    for name in
        ["build-0.txt", "build-1.txt", "build-0xaea0b05615e97b6c.txt", "build-0x6fd4ce64c83f5143.txt", "lent-five-ones.txt"]
    {
        // the reach is the end of block 127, which has 4096 slots
        let report = stored(name);
        let offset: u64 = report.lines().last().unwrap().split(' ').nth(7).unwrap().parse().unwrap();
        let ran = slider(&format!("audit {name}"));
        assert_eq!(
            (ran.out, ran.err, ran.status),
            (format!("accepted reach {}\n", offset + 4096), String::new(), Some(0)),
            "{name}"
        );
    }
    let report = stored("build-1.txt");
    for args in [&["audit"][..], &["audit", "-"], &["audit", "--slots", "107648", "-"]] {
        assert_eq!(slider_on(args, report.as_bytes()).out, "accepted reach 104960\n");
    }
}

#[test]
fn slots_of_the_report() {
    let report = slider("build 1 --slots 104960").out;
    assert_eq!(slider_on(&["audit", "--slots", "104960"], report.as_bytes()).out, "accepted reach 104960\n");
    audited(&report).is_bad(&[
        "line 4, field table-fnv: the report says 2378B0B4534C033B, the rebuilt tables have FD018B2303A5733B",
        "line 4, field marks-fnv: the report says 8C7EEAEF604029A5, the rebuilt tables have 1665126B5C4CB9A5",
        "not that of their build with 107648 slots",
    ]);
    let ran = slider_on(&["audit", "--slots", "104959"], report.as_bytes());
    assert_eq!((ran.out.as_str(), ran.status), ("refused 4 block 127\n", Some(1)));
    ran.says(&["do not build with 104959 slots"]);
}

/// What the report says beside its records is wrong: named, and no verdict.
#[test]
fn wrong_numbers_are_named() {
    for (old, new, message) in [
        ("used 104960", "used 104961", "line 2, field used: the report says 104961, the rebuilt tables have 104960"),
        (
            "attempts-max 171853",
            "attempts-max 171854",
            "line 3, field attempts-max: the report says 171854 block 71, its blocks have 171853 block 71",
        ),
        ("block 71\n", "block 72\n", "line 3, field attempts-max: the report says 171853 block 72"),
        ("table-fnv FD", "table-fnv FE", "line 4, field table-fnv: the report says FE018B2303A5733B"),
        ("marks-fnv 16", "marks-fnv 17", "line 4, field marks-fnv: the report says 1765126B5C4CB9A5"),
    ] {
        audited(&edited(old, new)).is_bad(&[message, "the records are right"]);
    }
    let all = edited("used 104960", "used 0").replace("table-fnv FD", "table-fnv 00").replace("marks-fnv 16", "marks-fnv 00");
    audited(&all).is_bad(&["field used", "field table-fnv", "field marks-fnv"]);
}

/// Wrong records: the audit's own verdict, and what differs.
#[test]
fn wrong_records_are_refused() {
    let (first, last) = (line(5), line(132));
    let change = |line: &str, field: usize, new: &str| {
        let mut words: Vec<&str> = line.split(' ').collect();
        words[field] = new;
        edited(line, &words.join(" "))
    };
    for (report, verdict, message) in [
        (change(&first, 5, "0040201008040201"), "refused 8 block 0\n", "line 5, field mask: the report says 0040201008040201"),
        (change(&first, 9, "57"), "refused 8 block 0\n", "line 5, field shift: the report says 57"),
        (
            change(&first, 7, "1"),
            "refused 11 block 0 subset 0\n",
            "line 5, field offset: the report says 1, the rebuilt tables have 0",
        ),
        (change(&last, 7, "107648"), "refused 7 block 127 subset 0\n", "line 132, field offset: the report says 107648"),
        (
            change(&last, 7, "4294967295"),
            "refused 7 block 127 subset 0\n",
            "line 132, field offset: the report says 4294967295",
        ),
        (change(&last, 9, "255"), "refused 8 block 127\n", "line 132, field shift: the report says 255"),
        (change(&first, 3, "0000000000000000"), "refused 6 block 0\n", "its multipliers do not build"),
        (change(&last, 3, "FFFFFFFFFFFFFFFF"), "refused 6 block 127\n", "its multipliers do not build"),
    ] {
        let ran = audited(&report);
        assert_eq!((ran.out.as_str(), ran.status), (verdict, Some(1)), "{}", ran.err);
        ran.says(&[message]);
    }
}

/// What is no report: line and field, and nothing on standard output.
#[test]
fn damaged_reports() {
    let report = stored("build-1.txt");
    let line_5 = line(5);
    let cut = |lines: usize| report.lines().take(lines).map(|line| line.to_string() + "\n").collect::<String>();
    for (report, message) in [
        (String::new(), "line 1, field outcome: the report ends before it"),
        ("\n".to_string(), "line 1, field outcome: \"\" stands in its place"),
        (edited("outcome ok", "outcome OK"), "line 1, field outcome: \"OK\" is neither ok nor refused"),
        (edited("outcome ok", "outcome"), "line 1, field outcome: missing"),
        (edited("outcome ok", "outcome ok "), "line 1: \"\" is one word too many"),
        (edited("outcome ok", "outcome ok\r"), "line 1, field outcome: \"ok\\r\" is neither"),
        (edited("outcome ok", "outcome refused 4 block 0"), "line 1, field outcome: the report is of a refused build"),
        (edited("outcome ok", "outcome refused 4 block"), "line 1, field block: missing"),
        (edited("outcome ok", "outcome refused four"), "line 1, field outcome: \"four\" is no decimal number"),
        (edited("used 104960", "used 104960x"), "line 2, field used: \"104960x\" is no decimal number"),
        (edited("used 104960", "used 0104960"), "line 2, field used: \"0104960\" is no decimal number"),
        (edited("used 104960", "used +104960"), "line 2, field used: \"+104960\" is no decimal number"),
        (edited("used 104960", "used 18446744073709551616"), "line 2, field used"),
        (edited("used 104960", "uses 104960"), "line 2, field used: \"uses\" stands in its place"),
        (
            edited("attempts-max 171853 block", "attempts-max 171853 blocks"),
            "line 3, field block: \"blocks\" stands in its place",
        ),
        (edited("FD018B2303A5733B", "fd018B2303A5733B"), "line 4, field table-fnv: \"fd018B2303A5733B\" is not 16 upper-case"),
        (edited("FD018B2303A5733B", "FD018B2303A5733"), "line 4, field table-fnv: \"FD018B2303A5733\" is not 16 upper-case"),
        (edited("1665126B5C4CB9A5", "G665126B5C4CB9A5"), "line 4, field marks-fnv: \"G665126B5C4CB9A5\" is not 16 upper-case"),
        (edited("block 0 multiplier ", "block 0 multiplier 0"), "line 5, field multiplier"),
        (edited("block 0 multiplier", "block 1 multiplier"), "line 5, field block: 1 stands where 0 is due"),
        (edited(&line_5, &line_5.replace("offset 0", "offset 4294967296")), "line 5, field offset: 4294967296 is too large"),
        (edited(&line_5, &line_5.replace("shift 58", "shift 256")), "line 5, field shift: 256 is too large"),
        (edited(&line_5, &line_5.replace("offset 0", "offset")), "line 5, field offset: \"shift\" is no decimal number"),
        (edited(&line_5, &(line_5.clone() + " 1")), "line 5: \"1\" is one word too many"),
        (edited(&(line_5.clone() + "\n"), ""), "line 5, field block: 1 stands where 0 is due"),
        (cut(4), "line 5, field block: the report ends before it"),
        (cut(131), "line 132, field block: the report ends before it"),
        (report[..report.len() - 1].to_string(), "line 132, field block: the line has no line feed"),
        (report.clone() + "\n", "line 133: the report is over"),
        (report.clone() + &report, "line 133: the report is over"),
        ("x".repeat(70_000), "longer than any report"),
    ] {
        audited(&report).is_bad(&["standard input", message]);
    }
    slider_on(&["audit"], b"outcome \xFF\n").is_bad(&["line 1, field outcome: the line is no text"]);
}

#[test]
fn files_and_arguments() {
    slider("audit no-such-file").is_bad(&["cannot read no-such-file"]);
    slider("audit .").is_bad(&["cannot read ."]);
    slider("audit runs.txt").is_bad(&["runs.txt, line 1, field outcome: \"$\" stands in its place"]);
    slider("audit build-1.txt build-0.txt").is_bad(&["\"build-0.txt\" is one argument too many"]);
    slider("audit --budget 5 build-1.txt").is_bad(&["unknown option --budget"]);
    slider("audit --slots many build-1.txt").is_bad(&["--slots: \"many\""]);
}
