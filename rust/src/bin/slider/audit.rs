//! `slider audit`.

use crate::args::Args;
use crate::build::{from_seed, lent};
use crate::facts::Json;
use crate::input::Input;
use crate::report::{Origin, Report, Source};
use crate::{output, say, Command, Done, Failure, BAD};
use slider::{ALL_SLOTS, MAX_BUDGET};

pub const COMMAND: Command = Command { name: "audit", help: HELP, values: &["--slots", "--seed"], flags: &["--json"], run };

const HELP: &str = "\
slider audit [FILE] [--slots N]

Reads a report of `slider build` from FILE, or from standard input where there is none or it is -, rebuilds the table from the
report's multipliers, and audits the report's records over it: for each of the 107648 subsets the look-up has to be the walk.

  accepted reach N                        all holds, and the report agrees with the rebuilt tables
  refused NUMBER [block BLOCK [subset I]] the first fault, of the rebuilding or of the audit

What the report says otherwise than the rebuilt tables have it (used, table-fnv, marks-fnv, mask, offset, shift) is named on
standard error. Attempt counts cannot be told from multipliers; only attempts-max is held against the report's own lines.

  --slots N   slots that the report was built with (107648); both fnv depend on it

Exit status: 0 accepted; 1 refused; 2 the report cannot be read, or its records are right and it says something else that is not.
";

/// A report has some 15 KB; what is longer is none.
const LONGEST: u64 = 65_536;

fn run(mut args: Args) -> Done {
    let input = Input::of(args.next());
    let slots = args.slots("--slots")?;
    let seed = args.number("--seed")?;
    let json = args.flag("--json");
    args.end()?;

    let name = input.name();
    let report = Report::read(&input.read("report", LONGEST)?).map_err(|error| format!("{name}, {error}"))?;
    if report.outcome.is_err() {
        return Err(format!("{name}, line 1, field outcome: the report is of a refused build, which left no tables").into());
    }
    let slots = slots.or(report.origin.map(|origin| origin.slots as usize)).unwrap_or(ALL_SLOTS);

    let (build, by_list, table) = lent(&report.multipliers(), slots, slots)?;
    if let Err(refusal) = build.outcome {
        say(&format!("{name}: its multipliers do not build with {slots} slots: {refusal}"));
        return output::refused(refusal, json);
    }
    let due = due(&report, seed, slots, by_list)?;
    let differences = match due.outcome {
        Ok(()) => report.differences(&due),
        Err(_) => vec!["line 1, field outcome: the report says ok, the build that it names is refused".to_string()],
    };
    said(&name, &differences);
    match slider::audit(&report.records, &table) {
        Err(refusal) => {
            say(&format!("{name}: {refusal}"));
            output::refused(refusal, json)
        }
        Ok(reach) if differences.is_empty() => accepted(reach, due.origin, json),
        Ok(_) => {
            let build =
                due.origin.map_or(format!("of their build with {slots} slots"), |origin| format!("of the build {origin}"));
            say(&format!("{name}: the records are right, but the report is not that {build}"));
            falsified(&differences, json)
        }
    }
}

/// The report that is due: of the build from the seed that is named, else of the build from its own multipliers.
fn due(report: &Report, seed: Option<u64>, slots: usize, mut by_list: Report) -> Result<Report, Failure> {
    let told = report.origin.map(|origin| origin.source);
    let (seed, budget) = match (seed, told) {
        (Some(seed), Some(Source::Seed { budget, .. })) => (seed, budget),
        (Some(seed), _) => (seed, MAX_BUDGET),
        (None, Some(Source::Seed { seed, budget })) => (seed, budget),
        (None, told) => {
            by_list.origin = told.and(by_list.origin);
            return Ok(by_list);
        }
    };
    let (_, report, _) = from_seed(seed, budget, slots, slots)?;
    Ok(report)
}

fn accepted(reach: u64, rebuilt: Option<Origin>, json: bool) -> Done {
    if json {
        let rebuilt = rebuilt.map_or(Json::Null, |origin| origin.facts().json());
        let fields = vec![("accepted", Json::True), ("reach", Json::Number(reach)), ("rebuilt", rebuilt)];
        return output::put(&format!("{}\n", Json::Object(fields)));
    }
    let rebuilt = rebuilt.map_or(String::new(), |origin| format!("rebuilt {origin}\n"));
    output::put(&format!("accepted reach {reach}\n{rebuilt}"))
}

/// The first differences, on standard error; a report of another seed differs in hundreds.
fn said(name: &str, differences: &[String]) {
    const FIRST: usize = 12;
    for difference in differences.iter().take(FIRST) {
        say(&format!("{name}, {difference}"));
    }
    if differences.len() > FIRST {
        say(&format!("{name}: {} more differences", differences.len() - FIRST));
    }
}

/// In words it has been said; scripts get all of it as JSON.
fn falsified(differences: &[String], json: bool) -> Done {
    if json {
        let list = differences.iter().cloned().map(Json::Text).collect();
        output::put(&format!("{}\n", Json::Object(vec![("false", Json::List(list))])))?;
    }
    Ok(BAD)
}
