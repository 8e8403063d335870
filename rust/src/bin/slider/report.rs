//! The report of a build: written by `slider build`, read again by `slider audit`.
//!
//! Scripts read its lines by their words and their order. What it came from and what made it are lines of their own, after these, where
//! they are asked for.

use crate::args::{quoted, MOST_SLOTS};
use crate::facts::{Facts, Json, Value};
use crate::lines::{Line, Lines};
use slider::{Build, Identity, Record, BLOCKS, IDENTITY};
use std::fmt;

/// What a build came to, and what it came from.
#[derive(Clone, Debug, PartialEq, Eq)]
pub struct Report {
    /// The refusal's number, and its block where it carries one.
    pub outcome: Result<(), (u64, Option<u64>)>,
    used: u64,
    /// The largest attempt count, and the first block that has it.
    most: (u64, u64),
    table_fnv: u64,
    marks_fnv: u64,
    pub records: [Record; BLOCKS],
    counts: [u64; BLOCKS],
    /// `None` where the report does not tell.
    pub origin: Option<Origin>,
    /// By what it was made.
    made: Option<String>,
}

/// What a build came from.
#[derive(Clone, Copy, Debug, PartialEq, Eq)]
pub struct Origin {
    pub source: Source,
    pub slots: u64,
    pub marks: u64,
}

#[derive(Clone, Copy, Debug, PartialEq, Eq)]
pub enum Source {
    Seed {
        seed: u64,
        budget: u64,
    },
    /// So many lent multipliers, and FNV-1a over them.
    List {
        length: u64,
        fnv: u64,
    },
}

/// FNV-1a, 64 bits.
pub fn fnv(bytes: impl IntoIterator<Item = u8>) -> u64 {
    let step = |hash: u64, byte: u8| (hash ^ u64::from(byte)).wrapping_mul(0x0000_0100_0000_01B3);
    bytes.into_iter().fold(0xCBF2_9CE4_8422_2325, step)
}

/// Over slots in little-endian order.
pub fn fnv_of_slots(slots: &[u64]) -> u64 {
    fnv(slots.iter().flat_map(|slot| slot.to_le_bytes()))
}

/// The largest count, and the first block that has it; 0 and 0 where all are 0.
fn most(counts: &[u64]) -> (u64, u64) {
    let mut most = (0, 0);
    for (block, &count) in (0..).zip(counts) {
        if count > most.0 {
            most = (count, block);
        }
    }
    most
}

impl Report {
    pub fn of(build: &Build, table: &[u64], marks: &[u64], source: Source) -> Report {
        Report {
            outcome: build.outcome.map_err(|refusal| (refusal.number().into(), refusal.block().map(|block| block as u64))),
            used: build.used as u64,
            most: most(&build.counts),
            table_fnv: fnv_of_slots(table),
            marks_fnv: fnv_of_slots(marks),
            records: build.records,
            counts: build.counts,
            origin: Some(Origin { source, slots: table.len() as u64, marks: marks.len() as u64 }),
            made: Some(IDENTITY.to_string()),
        }
    }

    /// Without the lines of its origin.
    pub fn alone(self) -> Report {
        Report { origin: None, made: None, ..self }
    }

    pub fn multipliers(&self) -> [u64; BLOCKS] {
        self.records.map(|record| record.multiplier)
    }

    fn block(&self, block: usize) -> Facts {
        let record = self.records[block];
        Facts(vec![
            ("block", Value::Number(block as u64)),
            ("multiplier", Value::Set(record.multiplier)),
            ("mask", Value::Set(record.mask)),
            ("offset", Value::Number(record.offset.into())),
            ("shift", Value::Number(record.shift.into())),
            ("attempts", Value::Number(self.counts[block])),
        ])
    }
}

// ---- as text

impl fmt::Display for Report {
    fn fmt(&self, f: &mut fmt::Formatter) -> fmt::Result {
        match self.outcome {
            Ok(()) => writeln!(f, "outcome ok")?,
            Err((number, Some(block))) => writeln!(f, "outcome refused {number} block {block}")?,
            Err((number, None)) => writeln!(f, "outcome refused {number}")?,
        }
        writeln!(f, "used {}", self.used)?;
        writeln!(f, "attempts-max {} block {}", self.most.0, self.most.1)?;
        writeln!(f, "table-fnv {:016X} marks-fnv {:016X}", self.table_fnv, self.marks_fnv)?;
        (0..BLOCKS).try_for_each(|block| writeln!(f, "{}", self.block(block)))?;
        self.origin.iter().try_for_each(|origin| writeln!(f, "{origin}"))?;
        self.made.iter().try_for_each(|made| writeln!(f, "made {made}"))
    }
}

impl Origin {
    pub fn facts(&self) -> Facts {
        let mut facts = match self.source {
            Source::Seed { seed, budget } => {
                vec![("seed", Value::Text(seed.to_string())), ("budget", Value::Number(budget))]
            }
            Source::List { length, fnv } => vec![("list", Value::Number(length)), ("list-fnv", Value::Set(fnv))],
        };
        facts.extend([("slots", Value::Number(self.slots)), ("marks", Value::Number(self.marks))]);
        Facts(facts)
    }
}

impl fmt::Display for Origin {
    fn fmt(&self, f: &mut fmt::Formatter) -> fmt::Result {
        write!(f, "from {}", self.facts())
    }
}

// ---- as JSON

impl Report {
    pub fn json(&self) -> Json {
        let mut fields = match self.outcome {
            Ok(()) => vec![("outcome", Json::Text("ok".to_string()))],
            Err((number, block)) => vec![
                ("outcome", Json::Text("refused".to_string())),
                ("number", Json::Number(number)),
                ("block", block.map_or(Json::Null, Json::Number)),
            ],
        };
        let (attempts, block) = self.most;
        let hex = |fnv| Json::Text(format!("{fnv:016X}"));
        let told = if self.outcome.is_ok() { BLOCKS } else { 0 }; // a refused build has no blocks to tell of
        let attempts_max = Facts(vec![("attempts", Value::Number(attempts)), ("block", Value::Number(block))]);
        fields.extend([
            ("used", Json::Number(self.used)),
            ("attempts-max", attempts_max.json()),
            ("table-fnv", hex(self.table_fnv)),
            ("marks-fnv", hex(self.marks_fnv)),
            ("blocks", Json::List((0..told).map(|block| self.block(block).json()).collect())),
            ("from", self.origin.map_or(Json::Null, |origin| origin.facts().json())),
            ("made", identity(&IDENTITY).json()),
        ]);
        Json::Object(fields)
    }
}

pub fn identity(identity: &Identity) -> Facts {
    let text = |text: &str| Value::Text(text.to_string());
    Facts(vec![
        ("version", text(identity.version)),
        ("commit", text(identity.commit)),
        ("kit", text(identity.kit)),
        ("library-sha256", text(identity.library)),
    ])
}

// ---- read again

impl Report {
    /// Reads what `Display` writes, and nothing else. An error names the line and the field.
    pub fn read(text: &[u8]) -> Result<Report, String> {
        let mut lines = Lines::new(text);
        let outcome = read_outcome(lines.next("outcome")?)?;

        let mut line = lines.next("used")?;
        let used = line.decimal("used")?;
        line.end()?;

        let mut line = lines.next("attempts-max")?;
        let most = (line.decimal("attempts-max")?, line.labelled("block")?);
        line.end()?;

        let mut line = lines.next("table-fnv")?;
        let (table_fnv, marks_fnv) = (line.hex("table-fnv")?, line.labelled_hex("marks-fnv")?);
        line.end()?;

        let (mut records, mut counts) = ([Record::default(); BLOCKS], [0; BLOCKS]);
        for block in 0..BLOCKS {
            let mut line = lines.next("block")?;
            match line.decimal::<usize>("block")? {
                number if number == block => {}
                number => return Err(line.error("block", &format!("{number} stands where {block} is due"))),
            }
            records[block].multiplier = line.labelled_hex("multiplier")?;
            records[block].mask = line.labelled_hex("mask")?;
            records[block].offset = line.labelled("offset")?;
            records[block].shift = line.labelled("shift")?;
            counts[block] = line.labelled("attempts")?;
            line.end()?;
        }

        let (mut origin, mut made) = (None, None);
        if lines.begins("from") {
            origin = Some(read_origin(lines.next("from")?)?);
            made = Some(lines.next("made")?.rest());
        }
        lines.end()?;
        Ok(Report { outcome, used, most, table_fnv, marks_fnv, records, counts, origin, made })
    }
}

fn read_outcome(mut line: Line) -> Result<Result<(), (u64, Option<u64>)>, String> {
    let outcome = match line.word("outcome")? {
        "ok" => Ok(()),
        "refused" => {
            let number = line.decimal("outcome")?;
            Err((number, if line.has_more() { Some(line.labelled("block")?) } else { None }))
        }
        word => return Err(line.error("outcome", &format!("{} is neither ok nor refused", quoted(word.as_ref())))),
    };
    line.end()?;
    Ok(outcome)
}

fn read_origin(mut line: Line) -> Result<Origin, String> {
    let source = match line.word("from")? {
        "seed" => Source::Seed { seed: line.decimal("seed")?, budget: line.labelled("budget")? },
        "list" => Source::List { length: line.decimal("list")?, fnv: line.labelled_hex("list-fnv")? },
        word => return Err(line.error("from", &format!("{} is neither seed nor list", quoted(word.as_ref())))),
    };
    let mut slots = |name| match line.labelled(name)? {
        slots @ 0..=MOST_SLOTS => Ok(slots),
        slots => Err(line.error(name, &format!("{slots} are more than are lent here, {MOST_SLOTS}"))),
    };
    let origin = Origin { source, slots: slots("slots")?, marks: slots("marks")? };
    line.end()?;
    Ok(origin)
}

// ---- compared

/// Lines of the first block and of the origin.
const FIRST_BLOCK: usize = 5;
const ORIGIN: usize = FIRST_BLOCK + BLOCKS;

impl Report {
    /// Where this report says something else than `due`, a sentence each. Of a report that does not say what it came from, counts are
    /// not compared: multipliers do not tell them.
    pub fn differences(&self, due: &Report) -> Vec<String> {
        let mut all = Vec::new();
        let mut field = |line: usize, field: &str, here: String, there: String| {
            if here != there {
                all.push(format!("line {line}, field {field}: the report says {here}, the rebuilt tables have {there}"));
            }
        };
        let hex = |number| format!("{number:016X}");
        field(2, "used", self.used.to_string(), due.used.to_string());
        field(4, "table-fnv", hex(self.table_fnv), hex(due.table_fnv));
        field(4, "marks-fnv", hex(self.marks_fnv), hex(due.marks_fnv));
        for (block, (here, there)) in self.records.iter().zip(&due.records).enumerate() {
            let line = FIRST_BLOCK + block;
            field(line, "multiplier", hex(here.multiplier), hex(there.multiplier));
            field(line, "mask", hex(here.mask), hex(there.mask));
            field(line, "offset", here.offset.to_string(), there.offset.to_string());
            field(line, "shift", here.shift.to_string(), there.shift.to_string());
            if due.origin.is_some() {
                field(line, "attempts", self.counts[block].to_string(), due.counts[block].to_string());
            }
        }
        if let (Some(here), Some(there)) = (self.origin, due.origin) {
            field(ORIGIN, "from", here.to_string(), there.to_string());
        }
        let (said, has) = (self.most, most(&self.counts));
        if said != has {
            let text = |(count, block)| format!("{count} block {block}");
            all.push(format!("line 3, field attempts-max: the report says {}, its blocks have {}", text(said), text(has)));
        }
        all
    }
}

#[cfg(test)]
mod tests {
    use super::*;

    fn some() -> Report {
        let mut report = Report {
            outcome: Ok(()),
            used: 107_648,
            most: (9, 3),
            table_fnv: u64::MAX,
            marks_fnv: 0xCBF2_9CE4_8422_2325,
            records: [Record { multiplier: 1, mask: 2, offset: u32::MAX, shift: 255 }; BLOCKS],
            counts: [7; BLOCKS],
            origin: None,
            made: None,
        };
        report.counts[3] = 9;
        report.counts[5] = 9;
        report
    }

    fn told() -> Report {
        let source = Source::Seed { seed: u64::MAX, budget: 16_777_217 };
        let origin = Some(Origin { source, slots: 107_648, marks: MOST_SLOTS });
        Report { origin, made: Some("slider 9 of anybody".to_string()), ..some() }
    }

    #[test]
    fn fnv_of_known_bytes() {
        // published values of FNV-1a, 64 bits
        assert_eq!(fnv([]), 0xCBF2_9CE4_8422_2325);
        assert_eq!(fnv_of_slots(&[]), 0xCBF2_9CE4_8422_2325);
        let by_hand = b"foobar!?".iter().fold(0xCBF2_9CE4_8422_2325_u64, |h, &b| (h ^ b as u64).wrapping_mul(0x100_0000_01B3));
        assert_eq!(fnv_of_slots(&[u64::from_le_bytes(*b"foobar!?")]), by_hand);
        assert_eq!(fnv(*b"foobar"), 0x8594_4171_F739_67E8);
        assert_eq!(fnv_of_slots(&[u64::from_le_bytes(*b"foobar!?")]), fnv(*b"foobar!?"));
    }

    #[test]
    fn reads_what_it_writes() {
        for outcome in [Ok(()), Err((3, None)), Err((4, Some(127)))] {
            for report in [some(), told()] {
                let report = Report { outcome, ..report };
                assert_eq!(Report::read(report.to_string().as_bytes()), Ok(report));
            }
        }
        let list = Origin { source: Source::List { length: 128, fnv: 5 }, slots: 0, marks: 1 };
        for report in [some(), told(), Report { origin: Some(list), ..told() }] {
            assert_eq!(Report::read(report.to_string().as_bytes()), Ok(report));
        }
    }

    #[test]
    fn most_is_the_first() {
        assert_eq!(most(&some().counts), (9, 3));
        assert_eq!(most(&[0; BLOCKS]), (0, 0));
    }

    #[test]
    fn every_field_is_compared() {
        type Change = fn(&mut Report);
        let changes: [(&str, Change); 9] = [
            ("line 2, field used", |r| r.used += 1),
            ("line 4, field table-fnv", |r| r.table_fnv -= 1),
            ("line 4, field marks-fnv", |r| r.marks_fnv += 1),
            ("line 5, field multiplier", |r| r.records[0].multiplier ^= 1 << 63),
            ("line 6, field mask", |r| r.records[1].mask += 1),
            ("line 7, field offset", |r| r.records[2].offset -= 1),
            ("line 132, field shift", |r| r.records[127].shift -= 1),
            ("line 132, field attempts", |r| r.counts[127] += 1),
            ("line 133, field from", |r| r.origin.as_mut().unwrap().slots += 1),
        ];
        for (begins, change) in changes {
            let mut other = told();
            change(&mut other);
            let found = other.differences(&told());
            assert!(found.len() == 1 && found[0].starts_with(begins), "{begins}: {found:?}");
        }
        let most = Report { most: (9, 5), ..told() }.differences(&told());
        assert_eq!(most, ["line 3, field attempts-max: the report says 9 block 5, its blocks have 9 block 3"]);
        assert!(told().differences(&told()).is_empty());
    }

    /// A report that is cut is no report, and no byte of its first or last lines can be changed without notice.
    #[test]
    fn damage_is_seen() {
        for report in [some(), told()] {
            let text = report.to_string().into_bytes();
            let whole = |end: usize| report.origin.is_some() && end == some().to_string().len(); // without its last two lines
            let near_an_end = |at: &usize| *at < 330 || text.len() - at < 220;
            for end in (0..text.len()).filter(near_an_end).filter(|end| !whole(*end)) {
                assert!(Report::read(&text[..end]).is_err(), "cut at {end}");
            }
            for at in (0..text.len()).filter(near_an_end) {
                for byte in [b'\n', b' ', b'0', b'a', b'A', b'+', 255] {
                    let mut damaged = text.clone();
                    damaged[at] = byte;
                    let read = Report::read(&damaged);
                    assert!(read.map_or(true, |report| report.to_string().into_bytes() == damaged), "byte {byte} at {at}");
                }
            }
            let over = if report.origin.is_some() { "line 135:" } else { "line 133:" };
            assert!(Report::read(&[text, b"\n".to_vec()].concat()).unwrap_err().starts_with(over));
        }
    }
}
