//! One file: the answers, the buffers, and what the report has, for the fuzzer to look for more of.
use crate::which;
use against::compare::Compare;
use against::sizes::Sizes;
use common::field::{word, Blocks};
use common::random::Random;
use oracle::check::Checked;
use std::ptr::addr_of_mut;

const FEATURES: usize = 4096;

/// What libFuzzer takes for counters beside those of the code; it clears them before each input.
#[used]
#[link_section = "__libfuzzer_extra_counters"]
static mut SEEN: [u8; FEATURES] = [0; FEATURES];

/// With enough of everything, by both libraries, and with too little of something. Nothing hangs on the files before.
pub fn check(c: &mut Compare, file: &[u8]) -> Result<(), String> {
    let seed = file.iter().fold(file.len() as u64, |seed, b| (seed ^ u64::from(*b)).wrapping_mul(0x0100_0000_01b3));
    let mut random = Random(seed);
    c.tally.compared = random.below(32);
    c.lent.random = Random(random.next());
    c.put(file);
    match Checked::of(file) {
        Err(number) => {
            seen("refused", number.into());
            let sizes = Sizes::any(&mut random);
            which::counted();
            c.call(sizes, Err(number)).map_err(|e| format!("{sizes:?}: {e}"))?;
            which::product();
            c.call(sizes, Err(number)).map_err(|e| format!("{sizes:?}: {e}"))?;
        }
        Ok(checked) => {
            features(file, &checked);
            let needed = Sizes::needed(&checked);
            let enough = needed.enough(&mut random);
            which::counted();
            c.with(&checked, enough)?;
            which::product();
            c.with(&checked, enough)?;
            let some: Vec<usize> = (0..needed.0.len()).filter(|k| needed.0[*k] > 0).collect();
            let slice = some[random.below(some.len() as u64) as usize];
            c.with(&checked, needed.short_of(&mut random, slice))?;
        }
    }
    c.is_file(file)
}

/// A count of this kind, by its size.
fn seen(what: &str, count: u64) {
    let hash = what.bytes().chain([count as u8]).fold(0xcbf2_9ce4u32, |h, b| (h ^ u32::from(b)).wrapping_mul(0x0100_0193));
    let at = (hash ^ hash >> 15) as usize % FEATURES;
    unsafe {
        let cell = addr_of_mut!(SEEN).cast::<u8>().add(at);
        *cell = (*cell).saturating_add(1);
    }
}

fn size(n: usize) -> u64 {
    u64::from(usize::BITS - n.leading_zeros())
}

/// Of a part its size, and of a report, by the process: each finding without its numbers, how many faults and faces it stands for, bends, and whether there
/// is a thickness and a height.
fn features(file: &[u8], checked: &Checked) {
    let blocks = Blocks::of(file).expect("a file that can be read");
    let process = word(file, blocks.job()).to_string();
    seen("polygons", size(blocks.polygons));
    let (first, lines) = checked.text.split_once('\n').expect("a first line");
    let head: Vec<&str> = first.split(' ').collect();
    seen("bends", head[2].parse().unwrap_or(0));
    seen("lengths", u64::from(head[1] != "-") + 2 * u64::from(head[3] != "-"));
    seen("faults", size(checked.faults));
    for line in lines.lines() {
        let fields: Vec<&str> = line.split('|').collect();
        let text: String = fields[4].chars().filter(|c| !c.is_ascii_digit()).collect();
        let faces = fields[3].split(',').count();
        seen(&[&process, fields[0], fields[1], &text].concat(), 0);
        seen(fields[1], size(fields[2].parse().unwrap_or(0)));
        seen(&[fields[1], "faces"].concat(), size(faces));
    }
}
