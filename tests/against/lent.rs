//! The buffers that the check is lent, full of garbage: the scratch, the fault rows and the report.
use crate::sizes::Sizes;
use common::gablemadder::FaultRow;
use common::random::Random;
use common::scratch::Scratch;

pub struct Lent {
    pub random: Random,
    pub words: Scratch<u32>,
    pub reals: Scratch<f64>,
    pub rows: Scratch<FaultRow>,
    pub report: Scratch<u8>,
}

impl Lent {
    pub fn new(seed: u64) -> Lent {
        let (words, reals) = (Scratch::named("words"), Scratch::named("reals"));
        let (rows, report) = (Scratch::named("rows"), Scratch::named("report"));
        Lent { random: Random(seed), words, reals, rows, report }
    }

    pub fn lend(&mut self, sizes: Sizes) {
        let [words, reals, rows, report] = sizes.0;
        let kinds = [0; 4].map(|_| self.random.below(4) as usize);
        self.words.lend(words, kinds[0], words / 8, &mut self.random);
        self.reals.lend(reals, kinds[1], words / 8, &mut self.random);
        self.rows.lend(rows, kinds[2], words / 8, &mut self.random);
        self.report.lend(report, kinds[3], 128, &mut self.random);
    }
}
