//! Counts of comparisons and of differences, row by row.
use crate::ours::Answer;

/// In comparison `index` of a row one bit of our answer is flipped, to see that the harness sees it.
#[derive(Clone, Copy)]
pub struct Flip {
    pub index: u64,
    pub bit: u32,
}

/// One sort of comparison.
pub struct Tally {
    pub name: String,
    pub count: u64,
    pub differences: u64,
    /// Text of the first difference.
    pub first: Option<String>,
    /// Which comparisons differed: the first few.
    pub at: Vec<u64>,
    /// The last is the next.
    flips: Vec<Flip>,
    next_flip: u64,
}

impl Tally {
    pub fn new(name: &str, mut flips: Vec<Flip>) -> Tally {
        flips.sort_by_key(|f| u64::MAX - f.index);
        let next_flip = flips.last().map_or(u64::MAX, |f| f.index);
        Tally { name: name.into(), count: 0, differences: 0, first: None, at: vec![], flips, next_flip }
    }

    #[inline]
    pub fn same(&mut self, ours: u64, theirs: u64, what: impl Fn() -> String) {
        let ours = if self.count == self.next_flip { self.flipped(ours) } else { ours };
        if ours != theirs {
            self.differ(|| format!("{}: ours {ours:#x}, the other {theirs:#x}", what()));
        }
        self.count += 1;
    }

    #[cold]
    fn flipped(&mut self, ours: u64) -> u64 {
        let flip = self.flips.pop().unwrap();
        self.next_flip = self.flips.last().map_or(u64::MAX, |f| f.index);
        ours ^ 1 << flip.bit
    }

    /// An answer that may be a refusal, value and number in one comparison. `theirs`: the value, or the refusal's number.
    #[inline]
    pub fn said(&mut self, ours: Answer, theirs: Result<u64, u64>, what: impl Fn() -> String) {
        match theirs {
            Ok(value) if ours.number == 0 => self.same(ours.value, value, what),
            Err(number) if ours.value == 0 => self.same(ours.number, number, what),
            _ => {
                self.differ(|| format!("{}: ours {ours:?}, the other {theirs:?}", what()));
                self.count += 1;
            }
        }
    }

    fn differ(&mut self, text: impl Fn() -> String) {
        self.differences += 1;
        if self.at.len() < 8 {
            self.at.push(self.count);
        }
        if self.first.is_none() {
            self.first = Some(text());
        }
    }
}

/// The rows of one part, in the order of their start.
pub struct Report {
    part: &'static str,
    pub rows: Vec<Tally>,
    started: usize,
    flips: Vec<(usize, Flip)>,
    quiet: bool,
}

impl Report {
    /// `flips`: row, counted from 1, and what is flipped in it. `quiet`: nothing is printed.
    pub fn new(part: &'static str, flips: Vec<(usize, Flip)>, quiet: bool) -> Report {
        Report { part, rows: vec![], started: 0, flips, quiet }
    }

    /// Rows end in the order in which they start.
    pub fn start(&mut self, name: &str) -> Tally {
        self.started += 1;
        let row = self.started;
        Tally::new(name, self.flips.iter().filter(|f| f.0 == row).map(|f| f.1).collect())
    }

    pub fn end(&mut self, t: Tally) {
        let row = format!("{} {}", self.part, self.rows.len() + 1);
        self.say(|| format!("{row:>11}  {:<96} {:>11} compared {:>5} differ", t.name, t.count, t.differences));
        if let Some(text) = &t.first {
            self.say(|| format!("             first, comparison {}: {text}", t.at[0]));
        }
        self.rows.push(t);
    }

    pub fn ends(&mut self, list: impl IntoIterator<Item = Tally>) {
        list.into_iter().for_each(|t| self.end(t));
    }

    pub fn say(&self, line: impl Fn() -> String) {
        if !self.quiet {
            println!("{}", line());
        }
    }

    pub fn count(&self) -> u64 {
        self.rows.iter().map(|t| t.count).sum()
    }

    pub fn differences(&self) -> u64 {
        self.rows.iter().map(|t| t.differences).sum()
    }
}
