//! How much a call is lent: just enough, more, or too little of something.
use common::random::Random;
use common::shapes::pick;
use oracle::check::{Checked, Lent};

/// The four slices, in the order of `Sizes`.
pub const SLICES: [&str; 4] = ["words", "reals", "rows", "report"];

/// The length of each slice.
#[derive(Clone, Copy, PartialEq, Debug)]
pub struct Sizes(pub [usize; 4]);

impl Sizes {
    /// The least with which a part is accepted, where it has no more faults than there may be.
    pub fn needed(checked: &Checked) -> Sizes {
        Sizes([checked.words, checked.reals, checked.faults, checked.text.len()])
    }

    /// Of each just enough, or more.
    pub fn enough(&self, random: &mut Random) -> Sizes {
        let just = random.below(4) == 0;
        Sizes(self.0.map(|n| if just { n } else { n + more(random) }))
    }

    /// Of one slice too little, most often one cell too few; now and then of others too, where the lowest refusal counts.
    pub fn short_of(&self, random: &mut Random, slice: usize) -> Sizes {
        let mut sizes = self.enough(random);
        for (k, n) in self.0.into_iter().enumerate().filter(|(_, n)| *n > 0) {
            let some = random.below(n as u64) as usize;
            let less = pick(random, &[n - 1, n - 1, n - 1, some, 0]);
            if k == slice || random.below(8) == 0 {
                sizes.0[k] = less;
            }
        }
        sizes
    }

    /// Anything, for a file that is turned back before its lengths count.
    pub fn any(random: &mut Random) -> Sizes {
        let most = pick(random, &[1, 64, 4000]);
        Sizes([0; 4].map(|_| random.below(most) as usize))
    }

    /// As the oracle takes them.
    pub fn lent(&self) -> Lent {
        let [words, reals, rows, report] = self.0;
        Lent { words, reals, rows, report }
    }
}

fn more(random: &mut Random) -> usize {
    let (few, many) = (random.below(50) as usize, random.below(3000) as usize);
    pick(random, &[0, 0, 1, 2, 5, few, few, many])
}
