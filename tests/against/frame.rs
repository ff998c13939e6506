//! A test of the rules of a process: the check of its files beside the patched Rust's (tests/against/compare.rs), and how often what is to be seen occurs, by
//! the Rust's faults before it merges equal ones. Own files in one thread, generated ones and changed copies of them in another, and the figures of both.
use crate::compare::Compare;
use crate::counts::Counts;
use common::field::{set_word, word, Blocks};
use common::ids::{self, Id};
use common::mesh::Mesh;
use common::random::Random;
use common::{stream, Check};
use oracle::faults::{DfmReport, Part, Process};
use std::io;
use std::marker::PhantomData;
use std::thread;

const LEAST: u64 = 200_000;
/// Changed copies of larger files cost more than they show.
const LARGE: usize = 100_000;

pub trait Rules: 'static {
    /// The processes that have these rules, as a job numbers them.
    const PROCESSES: &'static [u32];

    fn wanted() -> Counts;

    /// What the Rust says of an accepted file.
    fn note(counts: &mut Counts, mesh: &Mesh, faces: &[Id], part: &Part, report: &DfmReport);
}

pub struct Files<R> {
    compare: Compare,
    pub counts: Counts,
    rules: PhantomData<R>,
}

impl<R: Rules> Files<R> {
    fn new(seed: u64) -> Files<R> {
        Files { compare: Compare::new(seed), counts: R::wanted(), rules: PhantomData }
    }

    /// The oracle's answer to the file, whose process is one of these, or none at all.
    pub fn check(&mut self, file: &[u8], what: impl FnOnce() -> String) -> u32 {
        let mut file = file.to_vec();
        if let Some(job) = Blocks::of(&file).map(|blocks| blocks.job()) {
            let process = word(&file, job);
            if process < 5 && !R::PROCESSES.contains(&process) {
                let number = self.compare.tally.compared as usize;
                set_word(&mut file, job, R::PROCESSES[number % R::PROCESSES.len()]);
            }
        }
        let answer = self.compare.check(&file, what);
        self.counts.answer(answer);
        if let Ok(part) = Part::read(&file) {
            let mesh = Mesh::read(&file);
            let report = part.report(Process::ALL[word(&mesh.job, 0) as usize]);
            R::note(&mut self.counts, &mesh, &ids::of_faces(&mesh), &part, &report);
        }
        answer
    }

    /// So many parts drawn from this seed, each as it is and changed.
    pub fn shapes(&mut self, seed: u64, count: u64, draw: fn(&mut Random) -> Mesh, changed: fn(&mut Random, &Mesh) -> Mesh) {
        let mut random = Random(seed);
        for number in 0..count {
            let mesh = draw(&mut random);
            self.check(&mesh.bytes(), || format!("shape {number}"));
            let changed = changed(&mut random, &mesh);
            self.check(&changed.bytes(), || format!("shape {number}, changed"));
        }
    }
}

/// Takes generated files from standard input; `own` is told whether the run is a quick one. Ends the program, non-zero on a difference or where too
/// little was seen.
pub fn run<R: Rules>(name: &str, seed: u64, own: fn(&mut Files<R>, bool), changed: fn(&mut Random, &Mesh) -> Mesh) -> ! {
    let quick = std::env::args().any(|a| a == "--quick");
    let own = thread::spawn(move || {
        let mut files = Files::<R>::new(seed);
        own(&mut files, quick);
        (files.compare, files.counts)
    });
    let mut files = Files::<R>::new(seed + 1);
    from_input(&mut files, seed + 2, changed).expect("a stream of part files");
    let (a, counts) = own.join().expect("a test thread failed");
    let b = files.compare;
    let (compared, calls) = (a.tally.compared + b.tally.compared, a.calls + b.calls);
    let different = a.tally.different + b.tally.different;
    let mut counts = counts.and(files.counts);
    counts.add("fewer rows than faults", a.seen.count("refused 11") + b.seen.count("refused 11"));
    println!("{name}: {}", counts.text());
    let rare = counts.too_rare();
    let few = !quick && (compared < LEAST || !rare.is_empty());
    if few {
        println!("{name}: fewer than {LEAST} files, or too rare: {}", rare.join("; "));
    }
    println!("{name}: {compared} files, {} of them accepted, {calls} calls, {different} differences", counts.count("accepted"));
    std::process::exit((different != 0 || few) as i32);
}

/// Generated files, as they are and changed.
fn from_input<R: Rules>(files: &mut Files<R>, seed: u64, changed: fn(&mut Random, &Mesh) -> Mesh) -> io::Result<()> {
    let mut random = Random(seed);
    stream::each(|number, file| {
        if files.check(file, || format!("generated file {number}")) == 0 && file.len() < LARGE {
            let changed = changed(&mut random, &Mesh::read(file));
            files.check(&changed.bytes(), || format!("generated file {number}, changed"));
        }
    })
}
