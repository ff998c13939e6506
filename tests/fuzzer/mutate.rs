//! How the fuzzer changes a part file: most often by what a part is made of, so that the file stays one; else its bytes.
use crate::mend::{self, mended, readable};
use crate::points::{self, LIMITS};
use against::machining::limits as machining;
use against::parts;
use against::printing::fit;
use against::sheet::limits as sheet_limits;
use common::damage::damage;
use common::field::{real, set_real, set_word, word};
use common::mesh::Mesh;
use common::random::Random;
use common::shapes::{nudge, pick};
use common::{change, ids};

/// Polygons of a part drawn anew, or put together from two: more would make the file slow.
const FEW: usize = 24;

type Plain = fn(&[u8], usize) -> Vec<u8>;

/// A changed copy of at most so many bytes; none where the fuzzer is to change the bytes by itself.
pub fn changed(random: &mut Random, file: &[u8], most: usize, plain: Plain) -> Option<Vec<u8>> {
    let way = random.below(20);
    let made = match (way, readable(file)) {
        (0, _) => return None,
        (1, _) => mended(&plain(file, most)),
        (2, _) => {
            let mut copy = file.to_vec();
            (0..1 + random.below(2)).for_each(|_| damage(random, &mut copy));
            copy
        }
        (_, None) => mended(file),
        (3, Some(mut mesh)) => {
            mesh.job = plain(&mesh.job, mesh.job.len());
            mesh.job.resize(128, 0);
            mend::job(&mut mesh.job);
            mesh.bytes()
        }
        (_, Some(mut mesh)) => {
            (0..pick(random, &[1, 1, 1, 2, 3, 6])).for_each(|_| part(random, &mut mesh));
            mesh.bytes()
        }
    };
    (made.len() <= most).then_some(made)
}

fn part(random: &mut Random, mesh: &mut Mesh) {
    if mesh.polygons.is_empty() || random.below(60) == 0 {
        return anew(random, mesh);
    }
    match random.below(28) {
        0..=4 => points::plane(random, mesh),
        5 | 6 => points::corner(random, mesh),
        7 => points::alone(random, mesh),
        8 | 9 => points::polygon(random, mesh),
        10 => points::side(random, mesh),
        11 => points::split(random, mesh),
        12 | 13 => points::face(random, mesh),
        14 | 15 => points::surface(random, mesh),
        16 => points::whole(random, mesh),
        17..=19 => job(random, &mut mesh.job),
        20 => *mesh = change::changed(random, mesh),
        21 => ids::rename(random, mesh),
        22..=25 => fitted(random, mesh),
        _ => *mesh = parts::changed(random, mesh),
    }
}

/// The job, radii or walls at a limit of its process, by what the Rust measures of the part.
fn fitted(random: &mut Random, mesh: &mut Mesh) {
    match (word(&mesh.job, 0), random.below(2)) {
        (0, 0) => machining::fit_wall(random, mesh),
        (0, _) => machining::fit_rounds(random, mesh),
        (1, _) => sheet_limits::fit_rounds(random, mesh),
        _ => {
            let what = pick(random, &fit::ALL);
            fit::fitted(random, mesh, what);
        }
    }
}

/// A small part drawn anew beside this one, or in its place.
fn anew(random: &mut Random, mesh: &mut Mesh) {
    let drawn = parts::draw(random);
    if drawn.polygons.len() > FEW {
        return;
    }
    if random.below(2) == 0 {
        mesh.polygons.clear();
    }
    mesh.polygons.extend(drawn.polygons);
}

/// Another process, another flag, or one of the job's numbers.
fn job(random: &mut Random, job: &mut [u8]) {
    match random.below(6) {
        0 => set_word(job, 0, random.below(5) as u32),
        1 => {
            let flags = word(job, 4) ^ pick(random, &[1, 2, 4, 8, 9]);
            set_word(job, 4, flags);
        }
        2 => {
            let (at, list): (usize, [u32; 6]) =
                pick(random, &[(64, [0, 1, 300, 450, 899, 900]), (68, [0, 1, 0, 1, 0, 1]), (72, [0, 1, 999, 1000, 1500, 100_000]), (76, [1, 2, 3, 20, 39, 40])]);
            let some = word(job, at).wrapping_add(pick(random, &[1, u32::MAX, 10]));
            let value = pick(random, &list);
            set_word(job, at, pick(random, &[value, some]));
        }
        _ => {
            let at = pick(random, &[8, 16, 24, 32, 40, 48, 56, 80]);
            let near = pick(random, &LIMITS);
            let c = real(job, at);
            let made = pick(random, &[near, near, c * 2.0, c / 2.0, c.next_up(), c.next_down(), -c, 0.0, c + near]);
            set_real(job, at, nudge(random, made));
        }
    }
    mend::job(job);
}

/// The polygons of both, or the polygons of one with the job of the other.
pub fn crossed(random: &mut Random, a: &[u8], b: &[u8]) -> Option<Vec<u8>> {
    let (mut a, b) = (readable(a)?, readable(b)?);
    match random.below(3) {
        0 => a.job = b.job,
        1 if a.polygons.len() + b.polygons.len() <= FEW => a.polygons.extend(b.polygons),
        _ => {
            let n = b.polygons.len();
            let from = random.below(n as u64 + 1) as usize;
            let to = from + random.below((n - from).min(4) as u64 + 1) as usize;
            let at = random.below(a.polygons.len() as u64 + 1) as usize;
            a.polygons.splice(at..at, b.polygons[from..to].iter().cloned());
        }
    }
    a.is_allowed().then(|| a.bytes())
}
