//! The calls of the probe, each lent what it needs or some more, full of garbage, and one cell too few.
use crate::found::{Found, Hit, Sample};
use common::field::Blocks;
use common::gablemadder;
use common::random::Random;
use common::scratch::{is_refusal, Scratch};

struct Call {
    name: &'static str,
    call: fn(&[u8], &mut [u32], &mut [f64], &[f64], &mut [u32], &mut [f64]) -> u32,
    /// How many cells and numbers it takes beside the scratch, for so many readings (as many as there are polygons at the most) and rays.
    needs: fn(usize, usize) -> [usize; 2],
}

const SAMPLES: Call = Call {
    name: "sample_list",
    call: |file, words, reals, _, cells, numbers| gablemadder::sample_list(file, words, reals, cells, numbers),
    needs: |readings, _| [1 + 2 * readings, 8 * readings],
};
const CAST: Call = Call { name: "raycast", call: gablemadder::raycast, needs: |_, rays| [rays, rays] };
const OPEN: Call = Call {
    name: "open_towards",
    call: |file, words, reals, rays, cells, _| gablemadder::open_towards(file, words, reals, rays, cells),
    needs: |_, rays| [rays, 0],
};

/// What a call is lent.
pub struct Calls {
    pub random: Random,
    words: Scratch<u32>,
    reals: Scratch<f64>,
    cells: Scratch<u32>,
    numbers: Scratch<f64>,
}

impl Calls {
    pub fn new(seed: u64) -> Calls {
        Calls { random: Random(seed), words: Scratch::new(), reals: Scratch::new(), cells: Scratch::new(), numbers: Scratch::new() }
    }

    fn lend(&mut self, [words, reals]: [usize; 2], [cells, numbers]: [usize; 2], small: usize) {
        let kinds = [0; 4].map(|_| self.random.below(4) as usize);
        self.words.lend(words, kinds[0], small, &mut self.random);
        self.reals.lend(reals, kinds[1], small, &mut self.random);
        self.cells.lend(cells, kinds[2], small, &mut self.random);
        self.numbers.lend(numbers, kinds[3], small, &mut self.random);
    }

    fn call(&mut self, call: &Call, file: &[u8], rays: &[f64]) -> u32 {
        (call.call)(file, self.words.cells(), self.reals.cells(), rays, self.cells.cells(), self.numbers.cells())
    }

    /// Nothing is changed past so much of each.
    fn is_unchanged_past(&self, [words, reals]: [usize; 2], [cells, numbers]: [usize; 2]) -> bool {
        let scratch = self.words.is_unchanged_past(words) && self.reals.is_unchanged_past(reals);
        scratch && self.cells.is_unchanged_past(cells) && self.numbers.is_unchanged_past(numbers)
    }

    fn is_refusal(&self, call: &str, ours: u32, number: u32) -> Result<(), String> {
        is_refusal(call, ours, number, self.is_unchanged_past([0; 2], [0; 2]))
    }

    /// Refusals 1 to 9 come before 10, so what is lent may be anything.
    pub fn refused(&mut self, file: &[u8], number: u32) -> Result<(), String> {
        let n = self.random.below(64) as usize;
        for call in [SAMPLES, CAST, OPEN] {
            self.lend([n; 2], [n; 2], n);
            let ours = self.call(&call, file, &vec![0.5; 6 * n]);
            self.is_refusal(call.name, ours, number)?;
        }
        Ok(())
    }

    pub fn found(&mut self, file: &[u8], rays: &[f64]) -> Result<Found, String> {
        let polygons = Blocks::of(file).expect("an accepted file").polygons;
        Ok(Found {
            samples: self.answered(&SAMPLES, file, rays, |_, cells, numbers| samples(polygons, cells, numbers))?,
            hits: self.answered(&CAST, file, rays, |count, cells, numbers| {
                (0..count).map(|k| hit(polygons, cells[k], numbers[k].to_bits()).ok_or(format!("ray {k} strikes polygon {}", cells[k]))).collect()
            })?,
            open: self.answered(&OPEN, file, rays, |count, cells, _| {
                (0..count).map(|k| [false, true].get(cells[k] as usize).copied().ok_or(format!("says {}", cells[k]))).collect()
            })?,
        })
    }

    /// What is read of the cells after a call that answers 0 and changes none past those that it needs. A few numbers that are no whole ray follow the
    /// rays now and then.
    fn answered<T>(
        &mut self,
        call: &Call,
        file: &[u8],
        rays: &[f64],
        read: impl Fn(usize, &[u32], &[f64]) -> Result<Vec<T>, String>,
    ) -> Result<Vec<T>, String> {
        let (Blocks { polygons, vertices }, count) = (Blocks::of(file).expect("an accepted file"), rays.len() / 6);
        let (scratch, lists) = (scratch(polygons, vertices), (call.needs)(polygons, count));
        let mut more = |n: usize| n + self.random.below(2) as usize * self.random.below(50) as usize;
        let (lent, lists_lent) = (scratch.map(&mut more), lists.map(&mut more));
        let mut with_more = rays.to_vec();
        with_more.resize(rays.len() + self.random.below(6) as usize, 1.0);
        self.lend(lent, lists_lent, vertices);
        let ours = self.call(call, file, &with_more);
        if ours != 0 {
            return Err(format!("{} {ours} for 0", call.name));
        }
        let list = read(count, self.cells.cells(), self.numbers.cells()).map_err(|e| format!("{}: {e}", call.name))?;
        if !self.is_unchanged_past(scratch, (call.needs)(list.len(), count)) || !same_bits(rays, &with_more) {
            return Err(format!("{}: cells past the needed ones, or the rays, are changed", call.name));
        }
        Ok(list)
    }

    /// One cell too few of any: 10, and nothing changed.
    pub fn too_short(&mut self, file: &[u8], rays: &[f64]) -> Result<(), String> {
        let Blocks { polygons, vertices } = Blocks::of(file).expect("an accepted file");
        for call in [SAMPLES, CAST, OPEN] {
            let needs = (call.needs)(polygons, rays.len() / 6);
            self.lend(scratch(polygons, vertices), needs, 0);
            let Calls { words, reals, cells, numbers, .. } = self;
            let with =
                |words: &mut [u32], reals: &mut [f64], cells: &mut [u32], numbers: &mut [f64]| (call.call)(file, words, reals, rays, cells, numbers);
            let mut answers = vec![
                with(words.one_short(), reals.cells(), cells.cells(), numbers.cells()),
                with(words.cells(), reals.one_short(), cells.cells(), numbers.cells()),
                with(&mut [], &mut [], cells.cells(), numbers.cells()),
            ];
            if needs[0] > 0 {
                answers.push(with(words.cells(), reals.cells(), cells.one_short(), numbers.cells()));
            }
            if needs[1] > 0 {
                answers.push(with(words.cells(), reals.cells(), cells.cells(), numbers.one_short()));
            }
            answers.into_iter().try_for_each(|ours| self.is_refusal(&format!("{}, a cell too few,", call.name), ours, 10))?;
        }
        Ok(())
    }
}

/// The scratch that refusal 10 asks for, of u32 and of f64.
pub fn scratch(polygons: usize, vertices: usize) -> [usize; 2] {
    [12 * polygons + 8 * vertices + 1024, 24 * polygons + 8 * vertices + 2048]
}

/// Their number stands in the first cell.
fn samples(most: usize, cells: &[u32], numbers: &[f64]) -> Result<Vec<Sample>, String> {
    let n = cells[0] as usize;
    if n > most {
        return Err(format!("{n} of at most {most}"));
    }
    let sample = |k: usize| {
        let bits = |i: usize| numbers[8 * k + i].to_bits();
        let faces = [1, 2].map(|i| cells[2 * k + i] as usize);
        Sample { faces, thickness: bits(0), area: bits(1), point: [2, 3, 4].map(bits), normal: [5, 6, 7].map(bits) }
    };
    Ok((0..n).map(sample).collect())
}

/// The number of polygons and a t of 0 for no hit; None where the cells are neither that nor of a polygon.
fn hit(polygons: usize, polygon: u32, t: u64) -> Option<Hit> {
    let none = polygon as usize == polygons && t == 0;
    ((polygon as usize) < polygons || none).then_some((!none).then_some((polygon, t)))
}

fn same_bits(a: &[f64], b: &[f64]) -> bool {
    a.iter().zip(b).all(|(x, y)| x.to_bits() == y.to_bits())
}
