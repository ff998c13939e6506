//! One file: the check's answer where it is lent nothing, beside the oracle's, with the lent bytes before and after.
use common::tally::Tally;
use common::{gablemadder, reader, Check};

const MARGIN: [u8; 8] = [0x5a; 8];
/// What refuses a part that nothing else turns back: no scratch is lent.
const NO_SCRATCH: u32 = 10;

#[derive(Default)]
pub struct Compare {
    pub tally: Tally,
    /// How often the oracle answered each of 0 to 9.
    pub seen: [u64; 10],
    lent: Vec<u8>,
}

impl Check for Compare {
    /// The oracle's answer. The benchmark's reader, which knows 1 to 7 only, has to agree too, or it would be no peer.
    fn check(&mut self, file: &[u8], what: impl FnOnce() -> String) -> u32 {
        // at every alignment in turn
        let start = (self.tally.compared % 8) as usize;
        self.lent.clear();
        self.lent.extend_from_slice(&MARGIN[..start]);
        self.lent.extend_from_slice(file);
        self.lent.extend_from_slice(&MARGIN);
        let end = start + file.len();
        let ours = gablemadder::refusal(&self.lent[start..end]);
        let unchanged = self.lent[..start] == MARGIN[..start] && self.lent[start..end] == *file && self.lent[end..] == MARGIN;
        let oracle = oracle::refusal(file);
        let want = if oracle == 0 { NO_SCRATCH } else { oracle };
        let peer = reader::verdict(file);
        self.seen[oracle as usize] += 1;
        let same = ours == want && peer == if oracle <= 7 { oracle } else { 0 } && unchanged;
        self.tally.check(same, || {
            let bytes = if unchanged { "unchanged" } else { "CHANGED" };
            format!("{} ({} bytes, {bytes}): ours {ours} for {want}, the benchmark's {peer}", what(), file.len())
        });
        oracle
    }
}
