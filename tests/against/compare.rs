//! One file: the check's answer, and each lent buffer before and after, beside the oracle's report or refusal.
use crate::lent::Lent;
use crate::seen::Seen;
use crate::sizes::{Sizes, SLICES};
use common::guard::{self, Guarded};
use common::tally::Tally;
use common::{gablemadder, Check};
use oracle::check::Checked;
use std::ops::Range;

/// To each side of the file.
const MARGIN: usize = 8;
const JUNK: u8 = 0x5a;
/// Larger files are lent too little of some slices only.
const LARGE: usize = 100_000;

pub struct Compare {
    pub tally: Tally,
    pub seen: Seen,
    pub calls: u64,
    pub lent: Lent,
    file: Guarded<u8>,
    at: Range<usize>,
    written: Guarded<usize>,
}

impl Check for Compare {
    /// The oracle's answer, 0 or a refusal from 1 to 9.
    fn check(&mut self, file: &[u8], what: impl FnOnce() -> String) -> u32 {
        self.put(file);
        let checked = Checked::of(file);
        let answer = checked.as_ref().err().copied().unwrap_or(0);
        let result = match &checked {
            Err(number) => {
                let sizes = Sizes::any(&mut self.lent.random);
                self.call(sizes, Err(*number)).map_err(|e| format!("{sizes:?}: {e}"))
            }
            Ok(checked) => {
                self.seen.part(file, checked);
                self.accepted(checked, file.len() > LARGE)
            }
        };
        let result = result.and(self.is_file(file));
        self.tally.check_input(file, result, what);
        answer
    }
}

impl Compare {
    pub fn new(seed: u64) -> Compare {
        Compare {
            tally: Tally::default(),
            seen: Seen::wanted(),
            calls: 0,
            lent: Lent::new(seed),
            file: Guarded::new("file"),
            at: 0..0,
            written: Guarded::new("written"),
        }
    }

    /// The same file so many times, each time over other junk.
    pub fn again(&mut self, file: &[u8], times: u64, what: &str) {
        self.put(file);
        let checked = Checked::of(file).ok().expect("a part that is accepted");
        for _ in 0..times {
            let sizes = Sizes::needed(&checked).enough(&mut self.lent.random);
            let result = self.call(sizes, Ok(&checked.text)).and(self.is_file(file));
            self.seen.add(what);
            self.tally.check(result.is_ok(), || format!("{what}: {}", result.unwrap_err()));
        }
    }

    /// Directly before pages that can't be touched, or directly after some; now and then at every alignment in turn. Elsewhere there is a margin.
    pub fn put(&mut self, file: &[u8]) {
        let turn = (self.tally.compared % 32) as usize;
        let (start, after) = match turn {
            0..=15 => (MARGIN, 0),
            16..=23 => (0, MARGIN),
            _ => (MARGIN + turn % 8, MARGIN),
        };
        self.at = start..start + file.len();
        self.file.lend(self.at.end + after, after == 0);
        self.file.fill(JUNK);
        self.file[self.at.clone()].copy_from_slice(file);
        self.written.lend(1, turn % 4 != 3);
        guard::checks(&self.file[self.at.clone()]);
    }

    pub fn is_file(&self, file: &[u8]) -> Result<(), String> {
        let (start, end) = (self.at.start, self.at.end);
        let margins = [&self.file[..start], &self.file[end..]].concat();
        if self.file[start..end] == *file && margins.iter().all(|b| *b == JUNK) {
            Ok(())
        } else {
            Err("the file is changed".into())
        }
    }

    /// Twice with enough of everything, over other junk; then with too little of each.
    fn accepted(&mut self, checked: &Checked, large: bool) -> Result<(), String> {
        let needed = Sizes::needed(checked);
        let first = needed.enough(&mut self.lent.random);
        let second = if self.lent.random.below(2) == 0 { first } else { needed.enough(&mut self.lent.random) };
        self.with(checked, first)?;
        self.with(checked, second)?;
        for slice in 0..SLICES.len() {
            let skipped = large && self.lent.random.below(4) != 0;
            if needed.0[slice] > 0 && !skipped {
                let short = needed.short_of(&mut self.lent.random, slice);
                self.with(checked, short)?;
            }
        }
        Ok(())
    }

    pub fn with(&mut self, checked: &Checked, sizes: Sizes) -> Result<(), String> {
        let needed = Sizes::needed(checked);
        for k in 0..SLICES.len() {
            self.seen.length(k, sizes.0[k], needed.0[k]);
        }
        self.call(sizes, checked.answer(&sizes.lent())).map_err(|e| format!("{sizes:?}: {e}"))
    }

    /// A call over junk, and all that it has to leave.
    pub fn call(&mut self, sizes: Sizes, wanted: Result<&str, u32>) -> Result<(), String> {
        self.lent.lend(sizes);
        let before = self.lent.random.next() as usize;
        self.written[0] = before;
        self.calls += 1;
        let Lent { words, reals, rows, report, .. } = &mut self.lent;
        let file = &self.file[self.at.clone()];
        let ours = gablemadder::check(file, words.cells(), reals.cells(), rows.cells(), report.cells(), &mut self.written[0]);
        let written = self.written[0];
        let theirs = wanted.err().unwrap_or(0);
        self.seen.answer(theirs);
        if ours != theirs {
            return Err(format!("{ours} for {theirs}"));
        }
        let length = wanted.map_or(before, str::len);
        if written != length {
            return Err(format!("answers {ours} and says {written} bytes for {length}"));
        }
        self.is_left(theirs)?;
        match wanted {
            Ok(text) => self.is_report(text),
            Err(_) if self.lent.report.is_unchanged() => Ok(()),
            Err(_) => Err(format!("answers {ours} and changes the report")),
        }
    }

    /// Refusals from 1 to 10 change no buffer; else scratch and rows are all zero.
    fn is_left(&self, number: u32) -> Result<(), String> {
        let lent = &self.lent;
        let as_wanted = if (1..=10).contains(&number) {
            [lent.words.is_unchanged(), lent.reals.is_unchanged(), lent.rows.is_unchanged()]
        } else {
            [lent.words.is_zero(), lent.reals.is_zero(), lent.rows.is_zero()]
        };
        match as_wanted.iter().position(|is| !is) {
            Some(k) => Err(format!("answers {number} and leaves something else in the {}", SLICES[k])),
            None => Ok(()),
        }
    }

    /// The report in the first bytes, those after them unchanged.
    fn is_report(&mut self, text: &str) -> Result<(), String> {
        let n = text.len();
        if !self.lent.report.is_unchanged_past(n) {
            return Err(format!("changes bytes past the {n} of the report"));
        }
        let ours = &self.lent.report.cells()[..n];
        if ours == text.as_bytes() {
            return Ok(());
        }
        Err(format!("the report is\n{}for\n{text}", String::from_utf8_lossy(ours)))
    }
}
