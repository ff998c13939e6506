//! Parts to time, each with a name: those of machining, sheet metal and printing, of about 6, 200, 800, 3,200 and 4,000 polygons, and parts of about
//! 2,048 faults.
use crate::{holes, plates, prints};
use common::generate::file;
use common::generate::job::{Job, CNC, FDM, SHEET, SLA, SLS};
use common::generate::part::Part;
use common::generate::plate::{cuts, plate, slab, Cell};
use common::generate::ring::Ring;
use common::mesh::Mesh;
use common::{large, many};

const WIDTH: f64 = 10.0;

#[derive(Clone)]
pub struct Timed {
    pub name: String,
    pub process: u32,
    pub file: Vec<u8>,
}

fn of_process(process: u32, parts: Vec<(String, Vec<u8>)>) -> impl Iterator<Item = Timed> {
    parts.into_iter().map(move |(name, file)| Timed { name, process, file })
}

fn thin_plate(process: u32) -> Timed {
    let mut part = Part::default();
    part.block(1, [0.0; 3], [20.0, 20.0, 0.5]);
    Timed { name: "a thin plate".into(), process, file: file::bytes(&part, &Job::defaults(process)) }
}

/// A sheet of 2 mm with holes, of which one in three is small.
fn with_holes((nx, ny): (usize, usize)) -> Timed {
    let (xs, ys) = (cuts(&vec![WIDTH; nx]), cuts(&vec![WIDTH; ny]));
    let hole = |k: usize| Cell::Through(Ring::circle((xs[k / ny] + 5.0, ys[k % ny] + 5.0), [0.9, 1.5, 2.0][k % 3], 32));
    let mut part = Part::default();
    plate(&mut part, &slab(1, 0.0, 2.0, (64, 64)), &xs, &ys, &(0..nx * ny).map(hole).collect::<Vec<_>>());
    Timed { name: format!("a sheet with {} holes", nx * ny), process: SHEET, file: file::bytes(&part, &Job::defaults(SHEET)) }
}

pub fn by_size() -> Vec<Timed> {
    let plates = [CNC, SHEET, FDM, SLA, SLS].map(thin_plate).into_iter();
    let sheets = [(1, 2), (2, 4), (3, 11), (3, 14)].map(with_holes).into_iter();
    let printed = [FDM, SLA, SLS].into_iter().flat_map(|process| of_process(process, prints::all(process)));
    plates.chain(of_process(CNC, plates::all())).chain(sheets).chain(of_process(SHEET, holes::all())).chain(printed).collect()
}

/// Castings with a face of 2,048 triangles, of one area or of two, or curved, by every process.
pub fn of_one_face() -> Vec<Timed> {
    let by = |process: u32| {
        large::for_readings().into_iter().map(move |(name, mut mesh)| {
            mesh.job = Mesh::read(&file::bytes(&Part::default(), &Job::defaults(process))).job;
            Timed { name, process, file: mesh.bytes() }
        })
    };
    [CNC, SHEET, FDM, SLA, SLS].into_iter().flat_map(by).collect()
}

/// About as many faults as there may be, in few lines and in many.
pub fn of_many_faults() -> Vec<Timed> {
    let timed = |name: &str, process: u32, mesh: Mesh| Timed { name: name.into(), process, file: mesh.bytes() };
    let corners = [false, true].map(|differ| timed("corners of 682 pits", CNC, many::corners(682, differ)));
    let hollows = [1, 16, 128, 512, 1024, 2048].map(|volumes| timed("2,047 hollows in an open body", SLS, many::hollows(2047, volumes)));
    corners.into_iter().chain(hollows).collect()
}
