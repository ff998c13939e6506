//! Parts of the other tests with a job of any process, and what is changed in a part.
use crate::machining::limits as machining;
use crate::printing::{fit, floors, hollows, jobs, over};
use crate::sheet::{brackets, jobs as sheet_jobs, limits as sheet_limits};
use common::field::set_word;
use common::generate::draw::Draw;
use common::generate::file;
use common::generate::job::{Job, PROCESSES};
use common::generate::part::Part;
use common::mesh::Mesh;
use common::random::Random;
use common::shapes::pick;
use common::{bores, change, damage, ids, many, shapes, trees, voxels, walls};

/// As the generator draws it, or as the tests of machining, sheet metal and printing do.
pub fn job(random: &mut Random) -> Vec<u8> {
    let process = random.below(PROCESSES.len() as u64) as u32;
    let mut job = match random.below(5) {
        0 => machining::job(random),
        1 => sheet_jobs::draw(random),
        2 => return jobs::draw(random),
        _ => {
            let drawn = Job::draw(&mut Draw::of(random.next(), 0), process);
            file::bytes(&Part::default(), &drawn)[..128].to_vec()
        }
    };
    set_word(&mut job, 0, process);
    job
}

fn shape(random: &mut Random) -> Mesh {
    match random.below(23) {
        0..=3 => voxels::draw(random),
        4..=6 => brackets::draw(random),
        7 => brackets::squares(random),
        8 => brackets::twins(random),
        9 => machining::corner(random),
        10 => shapes::draw(random),
        11 if random.below(8) == 0 => Mesh::empty(),
        11 | 12 => {
            let mut mesh = Mesh::empty();
            bores::bore(random, &mut mesh);
            mesh
        }
        13 => floors::draw(random),
        14 => floors::flat(random),
        15 | 16 => walls::draw(random),
        // with a job for printing
        17 => pick(random, &[over::plate, over::small])(random),
        18 => pick(random, &[over::sums, over::bored])(random),
        20..=22 => trees::draw(random),
        _ => hollows::draw(random),
    }
}

/// Now and then of about as many polygons as are scanned at the most, before they are walked.
pub fn draw(random: &mut Random) -> Mesh {
    let mut mesh = shape(random);
    if random.below(6) == 0 {
        trees::about_scanned(random, &mut mesh);
    }
    if random.below(3) != 0 {
        mesh.job = job(random);
    }
    mesh
}

/// With another job, other ids, a job, radii or walls at a limit, or another shape.
pub fn changed(random: &mut Random, mesh: &Mesh) -> Mesh {
    let mut copy = if random.below(6) == 0 { change::changed(random, mesh) } else { mesh.clone() };
    if random.below(2) == 0 {
        copy.job = job(random);
    }
    match random.below(10) {
        0 => machining::fit_wall(random, &mut copy),
        1 => machining::fit_rounds(random, &mut copy),
        2 => sheet_limits::fit_rounds(random, &mut copy),
        3 | 4 => {
            let what = pick(random, &fit::ALL);
            fit::fitted(random, &mut copy, what);
        }
        _ => {}
    }
    if random.below(2) == 0 {
        ids::rename(random, &mut copy);
    }
    copy
}

/// Its bytes, damaged in one place or two.
pub fn damaged(random: &mut Random, mesh: &Mesh) -> Vec<u8> {
    let mut bytes = mesh.bytes();
    for _ in 0..1 + random.below(2) {
        damage::damage(random, &mut bytes);
    }
    bytes
}

fn of_process(mut mesh: Mesh, process: u32) -> Mesh {
    set_word(&mut mesh.job, 0, process);
    mesh
}

/// About as many faults as there may be, and more: corners, flanges and hollows, each with a name.
pub fn of_many_faults() -> Vec<(String, Mesh)> {
    let pits = [(682, 0), (683, 1), (684, 2), (683, 0), (1024, 0)];
    let bends = [(341, 0), (341, 1), (341, 2), (341, 3), (400, 400)];
    // and that they are not closed is one more
    let volumes = [(2046, 1), (2047, 1), (2048, 1), (2046, 2046), (2047, 2047), (2048, 2048), (2047, 16), (4096, 7)];
    let corners = pits.map(|(n, other)| (format!("{n} pits, {other}"), of_process(voxels::pits(n, other), 0)));
    let flanges = bends.map(|(n, tight)| (format!("{n} bends, {tight} tight"), of_process(sheet_limits::many_faults(n, 6, tight), 1)));
    let hollows = volumes.map(|(n, volumes)| (format!("{n} hollows of {volumes} volumes"), many::hollows(n, volumes)));
    let lengths = ("682 pits whose corners differ".to_string(), many::corners(682, true));
    corners.into_iter().chain(flanges).chain(hollows).chain([lengths]).collect()
}

/// At the most polygons, by each process.
pub fn large(random: &mut Random) -> Vec<(String, Mesh)> {
    let parts: Vec<(&str, Mesh)> = shapes::large(random);
    let each = |(name, mesh): &(&str, Mesh), process: u32| (format!("{name}, process {process}"), of_process(mesh.clone(), process));
    parts.iter().flat_map(|part| (0..5).map(|process| each(part, process))).collect()
}
