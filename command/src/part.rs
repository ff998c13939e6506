//! A part, and the part file that holds it: `Part::read` and `Part::bytes`.
//!
//! The reader tests what refusals 1 to 7 test, in the same order, and says at which place a file is wrong.
use crate::range::{self, Range};
use gablemadder::{Face, Refusal, MOST_POLYGONS, MOST_VERTICES};
use std::fmt::{self, Display, Formatter};

pub const VERTEX: usize = 24;
pub const POLYGON: usize = 80;
pub const JOB: usize = 128;
pub const TRAILER: usize = 16;
/// Bytes of the longest part file.
pub const MOST_BYTES: usize = VERTEX * MOST_VERTICES + POLYGON * MOST_POLYGONS + JOB + TRAILER;

#[derive(Clone, Debug, PartialEq)]
pub struct Part {
    pub vertices: Vec<[f64; 3]>,
    pub polygons: Vec<Polygon>,
    pub job: Job,
}

#[derive(Clone, Copy, Debug, PartialEq)]
pub struct Polygon {
    pub face: Face,
    /// Its corners are the vertices from `first` on, `count` of them.
    pub first: usize,
    pub count: usize,
    pub surface: Surface,
}

#[derive(Clone, Copy, Debug, PartialEq)]
pub enum Surface {
    Plane,
    Cylinder { origin: [f64; 3], direction: [f64; 3], radius: f64 },
    Revolved { origin: [f64; 3], direction: [f64; 3] },
    Other,
}

#[derive(Clone, Copy, Debug, PartialEq, Eq)]
pub enum Process {
    Cnc,
    Sheet,
    Fdm,
    Sla,
    Sls,
}

#[derive(Clone, Debug, PartialEq)]
pub struct Job {
    pub process: Process,
    pub up: [f64; 3],
    pub layer: f64,
    pub min_wall: f64,
    pub min_hole: f64,
    pub nozzle: Option<f64>,
    /// The overhang limit in tenths of a degree.
    pub overhang: Option<u32>,
    pub material: Option<Material>,
}

#[derive(Clone, Debug, PartialEq)]
pub struct Material {
    /// 1 to 40 characters, from blank to tilde.
    pub name: String,
    pub class: Class,
    pub min_wall: f64,
    /// In thousandths.
    pub bend_ratio: Option<u32>,
}

#[derive(Clone, Copy, Debug, PartialEq, Eq)]
pub enum Class {
    Metal,
    Plastic,
}

impl Process {
    pub const ALL: [Process; 5] = [Process::Cnc, Process::Sheet, Process::Fdm, Process::Sla, Process::Sls];

    pub fn name(self) -> &'static str {
        match self {
            Process::Cnc => "CNC",
            Process::Sheet => "sheet",
            Process::Fdm => "FDM",
            Process::Sla => "SLA",
            Process::Sls => "SLS",
        }
    }
}

impl Class {
    pub const ALL: [Class; 2] = [Class::Metal, Class::Plastic];

    pub fn name(self) -> &'static str {
        match self {
            Class::Metal => "metal",
            Class::Plastic => "plastic",
        }
    }
}

/// What is wrong with a file: the refusal, and the place with what stands there.
#[derive(Clone, Debug, PartialEq)]
pub struct Wrong {
    pub refusal: Refusal,
    pub place: String,
}

impl Display for Wrong {
    fn fmt(&self, f: &mut Formatter) -> fmt::Result {
        write!(f, "{}: {}", self.refusal, self.place)
    }
}

impl Part {
    /// The corners of a polygon.
    pub fn corners(&self, polygon: &Polygon) -> &[[f64; 3]] {
        &self.vertices[polygon.first..polygon.first + polygon.count]
    }

    /// Reads a part file's bytes.
    pub fn read(file: &[u8]) -> Result<Part, Wrong> {
        let (vertices, polygons) = counts(file)?;
        let blocks = Blocks { file, vertices, polygons };
        let job = blocks.job().map_err(|place| Wrong { refusal: Refusal::BadJob, place })?;
        let vertices = blocks.all_vertices().map_err(|place| Wrong { refusal: Refusal::BadVertex, place })?;
        let polygons = blocks.all_polygons().map_err(|place| Wrong { refusal: Refusal::BadPolygon, place })?;
        Ok(Part { vertices, polygons, job })
    }

    /// The part file's bytes.
    pub fn bytes(&self) -> Vec<u8> {
        let mut out = Vec::with_capacity(VERTEX * self.vertices.len() + POLYGON * self.polygons.len() + JOB + TRAILER);
        for vertex in &self.vertices {
            put_reals(&mut out, vertex);
        }
        for polygon in &self.polygons {
            put_polygon(&mut out, polygon);
        }
        put_job(&mut out, &self.job);
        let (vertices, polygons) = (self.vertices.len() as u32, self.polygons.len() as u32);
        put_words(&mut out, &[1, vertices, polygons, POLYGON as u32 * polygons + (JOB + TRAILER) as u32]);
        out
    }
}

/// V and P by the trailer: refusals 1 to 4.
fn counts(file: &[u8]) -> Result<(usize, usize), Wrong> {
    let wrong = |refusal, place| Err(Wrong { refusal, place });
    let length = file.len();
    if length < JOB + TRAILER {
        return wrong(Refusal::TooShort, format!("{length} bytes"));
    }
    let trailer = |k: usize| word(file, length - TRAILER + 4 * k);
    if trailer(0) != 1 {
        return wrong(Refusal::WrongEdition, format!("trailer: edition {}", trailer(0)));
    }
    let (vertices, polygons) = (trailer(1) as usize, trailer(2) as usize);
    if vertices > MOST_VERTICES || polygons > MOST_POLYGONS {
        return wrong(Refusal::TooLarge, format!("trailer: {vertices} vertices and {polygons} polygons"));
    }
    let back = POLYGON * polygons + JOB + TRAILER;
    if length != VERTEX * vertices + back {
        let due = VERTEX * vertices + back;
        return wrong(Refusal::WrongLength, format!("{length} bytes, where {vertices} vertices and {polygons} polygons take {due}"));
    }
    if trailer(3) as usize != back {
        return wrong(Refusal::WrongLength, format!("trailer: back is {}, where {polygons} polygons make it {back}", trailer(3)));
    }
    Ok((vertices, polygons))
}

/// A file whose length is what its counts make.
struct Blocks<'a> {
    file: &'a [u8],
    vertices: usize,
    polygons: usize,
}

impl Blocks<'_> {
    fn entry_at(&self, polygon: usize) -> usize {
        VERTEX * self.vertices + POLYGON * polygon
    }

    fn job(&self) -> Result<Job, String> {
        let at = self.entry_at(self.polygons);
        job_at(&self.file[at..at + JOB]).map_err(|what| format!("job: {what}"))
    }

    fn all_vertices(&self) -> Result<Vec<[f64; 3]>, String> {
        (0..self.vertices).map(|i| self.vertex(i)).collect()
    }

    fn vertex(&self, i: usize) -> Result<[f64; 3], String> {
        let at = reals(self.file, VERTEX * i);
        in_range(at, range::COORDINATE).map_err(|what| format!("{}: {what}", self.place_of(i)))?;
        Ok(at)
    }

    /// The polygon that has this vertex, by the entries as they stand, and which corner of it the vertex is.
    fn place_of(&self, vertex: usize) -> String {
        for p in 0..self.polygons {
            let at = self.entry_at(p);
            let (first, count) = (word(self.file, at + 8) as usize, word(self.file, at + 12) as usize);
            if first <= vertex && vertex - first < count {
                return format!("{}, vertex {}", self.polygon_name(p), vertex - first);
            }
        }
        format!("vertex {vertex} of the file")
    }

    fn polygon_name(&self, p: usize) -> String {
        let at = self.entry_at(p);
        format!("polygon {p} (face {}:{})", word(self.file, at), word(self.file, at + 4))
    }

    fn all_polygons(&self) -> Result<Vec<Polygon>, String> {
        let mut polygons = Vec::with_capacity(self.polygons);
        let mut first = 0;
        for p in 0..self.polygons {
            let polygon = self.polygon(p, first).map_err(|what| format!("{}: {what}", self.polygon_name(p)))?;
            first += polygon.count;
            polygons.push(polygon);
        }
        match self.vertices - first {
            0 => Ok(polygons),
            1 => Err(format!("the last vertex of {} belongs to no polygon", self.vertices)),
            left => Err(format!("the last {left} vertices of {} belong to no polygon", self.vertices)),
        }
    }

    /// A polygon's entry, whose vertices have to begin at `first`.
    fn polygon(&self, p: usize, first: usize) -> Result<Polygon, String> {
        let at = self.entry_at(p);
        let entry = &self.file[at..at + POLYGON];
        let count = word(entry, 12) as usize;
        if word(entry, 8) as usize != first {
            return Err(format!("its first vertex is {}, where the polygons before it end at {first}", word(entry, 8)));
        }
        if !(range::FEWEST_CORNERS..=range::MOST_CORNERS).contains(&count) {
            return Err(format!("it has {count} vertices; 3 to 64 are allowed"));
        }
        if first + count > self.vertices {
            return Err(format!("it has {count} vertices, and the file only {} more", self.vertices - first));
        }
        if word(entry, 20) != 0 {
            return Err(format!("the word after its kind is {}, which has to be 0", word(entry, 20)));
        }
        let surface = surface_at(entry)?;
        Ok(Polygon { face: Face { feature: word(entry, 0), index: word(entry, 4) }, first, count, surface })
    }
}

fn surface_at(entry: &[u8]) -> Result<Surface, String> {
    let kind = word(entry, 16);
    let axis = || -> Result<([f64; 3], [f64; 3]), String> {
        let (origin, way) = (reals(entry, 24), reals(entry, 48));
        in_range(origin, range::COORDINATE).map_err(|what| format!("origin: {what}"))?;
        direction(way).map_err(|what| format!("direction: {what}"))?;
        Ok((origin, way))
    };
    match kind {
        0 => zero(entry, 24..80, "a plane has no use for").map(|()| Surface::Plane),
        1 => {
            let (origin, direction) = axis()?;
            let radius = field(real(entry, 72), range::RADIUS, "radius")?;
            Ok(Surface::Cylinder { origin, direction, radius })
        }
        2 => {
            let (origin, direction) = axis()?;
            zero(entry, 72..80, "a revolved face has no use for")?;
            Ok(Surface::Revolved { origin, direction })
        }
        3 => zero(entry, 24..80, "a surface of kind 3 has no use for").map(|()| Surface::Other),
        _ => Err(format!("its kind is {kind}; 0 plane, 1 cylinder, 2 revolved and 3 other are known")),
    }
}

const MATERIAL: u32 = 1;
const NOZZLE: u32 = 2;
const OVERHANG: u32 = 4;
const BEND_RATIO: u32 = 8;

fn job_at(job: &[u8]) -> Result<Job, String> {
    let Some(&process) = Process::ALL.get(word(job, 0) as usize) else {
        return Err(format!("process is {}; 0 CNC, 1 sheet, 2 FDM, 3 SLA and 4 SLS are known", word(job, 0)));
    };
    let flags = word(job, 4);
    let has = |flag: u32| flags & flag != 0;
    if flags > 15 {
        return Err(format!("flags are {flags}; 15 is the most"));
    }
    if has(BEND_RATIO) && !has(MATERIAL) {
        return Err("it has a bend ratio and no material".to_string());
    }
    let up = reals(job, 8);
    direction(up).map_err(|what| format!("up: {what}"))?;
    let layer = field(real(job, 32), range::LAYER, "layer")?;
    let nozzle = optional(job, has(NOZZLE), 40..48, "nozzle", |at| field(real(job, at), range::NOZZLE, "nozzle"))?;
    let min_wall = field(real(job, 48), range::MIN_WALL, "min_wall")?;
    let min_hole = field(real(job, 56), range::MIN_HOLE, "min_hole")?;
    let overhang = optional(job, has(OVERHANG), 64..68, "overhang", |at| at_most(word(job, at), range::MOST_TENTHS, "overhang", "tenths"))?;
    let material = material_at(job, has(MATERIAL), has(BEND_RATIO))?;
    Ok(Job { process, up, layer, min_wall, min_hole, nozzle, overhang, material })
}

fn material_at(job: &[u8], has: bool, has_ratio: bool) -> Result<Option<Material>, String> {
    let class = optional(job, has, 68..72, "material's class", |at| {
        let class = Class::ALL.get(word(job, at) as usize).copied();
        class.ok_or_else(|| format!("material's class is {}; 0 metal and 1 plastic are known", word(job, at)))
    })?;
    let bend_ratio =
        optional(job, has_ratio, 72..76, "bend ratio", |at| at_most(word(job, at), range::MOST_THOUSANDTHS, "bend ratio", "thousandths"))?;
    let length = word(job, 76) as usize;
    if !(has && (1..=range::MOST_NAME).contains(&length) || !has && length == 0) {
        let allowed = if has { "1 to 40 are allowed" } else { "without a material it has to be 0" };
        return Err(format!("the length of the material's name is {length}; {allowed}"));
    }
    let min_wall = optional(job, has, 80..88, "material's min_wall", |at| field(real(job, at), range::MATERIAL_MIN_WALL, "material's min_wall"))?;
    let name = name_at(&job[88..], length)?;
    Ok(class.zip(min_wall).map(|(class, min_wall)| Material { name, class, min_wall, bend_ratio }))
}

fn name_at(bytes: &[u8], length: usize) -> Result<String, String> {
    let (name, rest) = bytes.split_at(length);
    if let Some(k) = name.iter().position(|&byte| !range::is_name_byte(byte)) {
        return Err(format!("byte {k} of the material's name is hexadecimal {:02x}; 20 to 7e are allowed", name[k]));
    }
    if let Some(k) = rest.iter().position(|&byte| byte != 0) {
        return Err(format!(
            "byte {} of the material's name, past its length of {length}, is hexadecimal {:02x} and has to be 0",
            length + k,
            rest[k]
        ));
    }
    Ok(name.iter().map(|&byte| byte as char).collect())
}

/// A field that counts where its flag is set, and has to be zero bits otherwise.
fn optional<T>(
    job: &[u8],
    has: bool,
    at: std::ops::Range<usize>,
    name: &str,
    read: impl FnOnce(usize) -> Result<T, String>,
) -> Result<Option<T>, String> {
    if has {
        return read(at.start).map(Some);
    }
    match job[at].iter().all(|&byte| byte == 0) {
        true => Ok(None),
        false => Err(format!("{name} is not zero, and its flag is not set")),
    }
}

fn zero(entry: &[u8], at: std::ops::Range<usize>, why: &str) -> Result<(), String> {
    let names = ["origin x", "origin y", "origin z", "direction x", "direction y", "direction z", "radius"];
    match entry[at.clone()].chunks(8).position(|field| field != [0; 8]) {
        None => Ok(()),
        Some(k) => Err(format!("{}, which {why}, is not zero", names[(at.start - 24) / 8 + k])),
    }
}

fn at_most(n: u32, most: u32, name: &str, unit: &str) -> Result<u32, String> {
    match n <= most {
        true => Ok(n),
        false => Err(format!("{name} is {n} {unit}; {most} is the most")),
    }
}

fn field(x: f64, range: Range, name: &str) -> Result<f64, String> {
    number(x, range).map_err(|what| format!("{name} {what}"))?;
    Ok(x)
}

fn number(x: f64, range: Range) -> Result<(), String> {
    match x {
        _ if range.has(x) => Ok(()),
        _ if x.is_nan() => Err("is not a number".to_string()),
        _ => Err(format!("is {x:?}; {range} is allowed")),
    }
}

fn in_range(v: [f64; 3], range: Range) -> Result<(), String> {
    for (x, axis) in v.into_iter().zip(["x", "y", "z"]) {
        field(x, range, axis)?;
    }
    Ok(())
}

/// Tests a direction: its components, then its length.
pub fn direction(v: [f64; 3]) -> Result<(), String> {
    in_range(v, range::COMPONENT)?;
    let square = range::length_sq(v);
    match range::LENGTH_SQ.has(square) {
        true => Ok(()),
        false => Err(format!("its length is {:?}; from 0.5 to 2 is allowed", square.sqrt())),
    }
}

fn word(bytes: &[u8], at: usize) -> u32 {
    u32::from_le_bytes(bytes[at..at + 4].try_into().expect("four bytes"))
}

fn real(bytes: &[u8], at: usize) -> f64 {
    f64::from_le_bytes(bytes[at..at + 8].try_into().expect("eight bytes"))
}

fn reals(bytes: &[u8], at: usize) -> [f64; 3] {
    [real(bytes, at), real(bytes, at + 8), real(bytes, at + 16)]
}

fn put_words(out: &mut Vec<u8>, words: &[u32]) {
    for n in words {
        out.extend(n.to_le_bytes());
    }
}

fn put_reals(out: &mut Vec<u8>, reals: &[f64]) {
    for x in reals {
        out.extend(x.to_le_bytes());
    }
}

fn put_polygon(out: &mut Vec<u8>, polygon: &Polygon) {
    let none = [0.0; 3];
    let (kind, origin, direction, radius) = match polygon.surface {
        Surface::Plane => (0, none, none, 0.0),
        Surface::Cylinder { origin, direction, radius } => (1, origin, direction, radius),
        Surface::Revolved { origin, direction } => (2, origin, direction, 0.0),
        Surface::Other => (3, none, none, 0.0),
    };
    put_words(out, &[polygon.face.feature, polygon.face.index, polygon.first as u32, polygon.count as u32, kind, 0]);
    put_reals(out, &origin);
    put_reals(out, &direction);
    put_reals(out, &[radius]);
}

impl Job {
    /// Its 128 bytes.
    pub fn bytes(&self) -> Vec<u8> {
        let mut out = Vec::with_capacity(JOB);
        put_job(&mut out, self);
        out
    }
}

fn put_job(out: &mut Vec<u8>, job: &Job) {
    let start = out.len();
    let material = job.material.as_ref();
    let ratio = material.and_then(|m| m.bend_ratio);
    let flag = |has: bool, flag: u32| if has { flag } else { 0 };
    let flags = flag(material.is_some(), MATERIAL)
        | flag(job.nozzle.is_some(), NOZZLE)
        | flag(job.overhang.is_some(), OVERHANG)
        | flag(ratio.is_some(), BEND_RATIO);
    put_words(out, &[job.process as u32, flags]);
    put_reals(out, &job.up);
    put_reals(out, &[job.layer, job.nozzle.unwrap_or(0.0), job.min_wall, job.min_hole]);
    let name = material.map_or(&[][..], |m| m.name.as_bytes());
    put_words(out, &[job.overhang.unwrap_or(0), material.map_or(0, |m| m.class as u32), ratio.unwrap_or(0), name.len() as u32]);
    put_reals(out, &[material.map_or(0.0, |m| m.min_wall)]);
    out.extend(name);
    out.resize(start + JOB, 0);
}
