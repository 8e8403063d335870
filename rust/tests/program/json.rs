//! `--json`, for scripts.

use crate::{slider, slider_on, stored};

#[test]
fn builds() {
    let built = slider("build 1 --json");
    assert_eq!((built.err.as_str(), built.status, built.out.lines().count()), ("", Some(0), 1));
    for part in [
        r#"{"outcome":"ok","used":104960,"attempts-max":{"attempts":171853,"block":71},"table-fnv":"FD018B2303A5733B","#,
        r#""marks-fnv":"1665126B5C4CB9A5","blocks":[{"block":0,"multiplier":"4002141002084100","mask":"0040201008040200","#,
        r#","offset":100864,"shift":52,"attempts":7207}],"from":{"seed":"1","budget":16777216,"slots":107648,"marks":107648}"#,
        concat!(r#","made":{"version":""#, env!("CARGO_PKG_VERSION"), r#"","commit":""#),
    ] {
        assert!(built.out.contains(part), "{part}: {}", built.out);
    }
    assert_eq!(slider("build 1 --origin --json").out, built.out);
    let refused = slider("build 1 --slots 63 --json");
    assert_eq!((refused.err.as_str(), refused.status), ("", Some(1)));
    assert!(refused.out.starts_with(r#"{"outcome":"refused","number":4,"block":0,"used":0,"#), "{}", refused.out);
    assert!(refused.out.contains(r#""blocks":[],"#), "{}", refused.out);
    let refused = slider("build 1 --budget 16777217 --json");
    assert!(refused.out.starts_with(r#"{"outcome":"refused","number":10,"block":null,"#), "{}", refused.out);
}

#[test]
fn audits() {
    let rebuilt = r#"{"seed":"1","budget":16777216,"slots":107648,"marks":107648}"#;
    let accepted = |rebuilt: &str| format!("{{\"accepted\":true,\"reach\":104960,\"rebuilt\":{rebuilt}}}\n");
    slider("audit --json build-1.txt").gives(&accepted("null"), 0);
    slider("audit --json --seed 1 build-1.txt").gives(&accepted(rebuilt), 0);
    let edited = |old: &str, new: &str| stored("build-1.txt").replacen(old, new, 1);
    let ran = slider_on(&["audit", "--json"], edited("offset 0 ", "offset 1 ").as_bytes());
    assert_eq!((ran.out.as_str(), ran.status), ("{\"refused\":11,\"block\":0,\"subset\":0}\n", Some(1)));
    let ran = slider_on(&["audit", "--json"], edited("used 104960", "used 104961").as_bytes());
    let text = "{\"false\":[\"line 2, field used: the report says 104961, the rebuilt tables have 104960\"]}\n";
    assert_eq!((ran.out.as_str(), ran.status), (text, Some(2)));
}

#[test]
fn flags() {
    slider("build 1 --json=yes").is_bad(&["--json takes no value"]);
    slider("build 1 --json --json").is_bad(&["--json is given twice"]);
    slider("build 1 --origin=1").is_bad(&["--origin takes no value"]);
    slider("query --json").is_bad(&["unknown option --json"]);
}
