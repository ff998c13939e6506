//! The settings of a job, one by one, as a part's text and the options of `obj` name them.
use crate::line::{lines, Line, Wrong};
use crate::part::{Class, Job, Material, Process};
use crate::range;

pub const NAMES: [&str; 8] = ["process", "up", "layer", "min_wall", "min_hole", "nozzle", "overhang", "material"];

/// The settings as far as they are read.
#[derive(Default)]
pub struct Settings {
    process: Option<Process>,
    up: Option<[f64; 3]>,
    layer: Option<f64>,
    min_wall: Option<f64>,
    min_hole: Option<f64>,
    nozzle: Option<f64>,
    overhang: Option<u32>,
    material: Option<Material>,
}

impl Settings {
    /// Reads a line of the job.
    pub fn read(&mut self, line: &mut Line) -> Result<(), Wrong> {
        let Some(name) = NAMES.into_iter().find(|name| line.is(name)) else {
            return Err(line.wrong("a setting of the job or \"face\""));
        };
        let again = line.wrong("each setting once");
        line.keyword(name)?;
        match name {
            "process" => set(&mut self.process, line.one_of(&Process::ALL, Process::name)?),
            "up" => set(&mut self.up, line.direction()?),
            "layer" => set(&mut self.layer, line.real(range::LAYER)?),
            "min_wall" => set(&mut self.min_wall, line.real(range::MIN_WALL)?),
            "min_hole" => set(&mut self.min_hole, line.real(range::MIN_HOLE)?),
            "nozzle" => set(&mut self.nozzle, line.real(range::NOZZLE)?),
            "overhang" => set(&mut self.overhang, line.places(1, range::MOST_TENTHS)?),
            _ => set(&mut self.material, material(line)?),
        }
        .ok_or(again)
    }

    fn option(&mut self, name: &str, value: &str) -> Result<(), Wrong> {
        // a direction may have commas, as that of a picture has
        let value = if name == "up" { value.replace(',', " ") } else { value.to_string() };
        let text = format!("{name} {value}");
        let all = lines(&text)?;
        let mut line = all[0].clone();
        self.read(&mut line)?;
        line.end()?;
        match all.len() {
            2 => Ok(()),
            _ => Err(all[1].wrong("one line")),
        }
    }

    /// What is not set follows the process, as `PrintSettings::defaults` of crates/file_job has it, to which tests/command/defaults.py holds this; nozzle and
    /// overhang only where it has a use for them.
    fn with_defaults(mut self) -> Settings {
        let Some(process) = self.process else {
            return self;
        };
        let (layer, min_wall, min_hole) = match process {
            Process::Cnc | Process::Sheet | Process::Fdm => (0.2, 0.8, 2.0),
            Process::Sla => (0.05, 0.5, 0.5),
            Process::Sls => (0.1, 0.8, 1.5),
        };
        let (nozzle, overhang) = match process {
            Process::Fdm => (Some(0.4), Some(450)),
            Process::Sla => (None, Some(600)),
            Process::Cnc | Process::Sheet | Process::Sls => (None, None),
        };
        self.up.get_or_insert([0.0, 1.0, 0.0]);
        self.layer.get_or_insert(layer);
        self.min_wall.get_or_insert(min_wall);
        self.min_hole.get_or_insert(min_hole);
        self.nozzle = self.nozzle.or(nozzle);
        self.overhang = self.overhang.or(overhang);
        self
    }

    /// The job, or the name of a setting that it needs.
    pub fn job(self) -> Result<Job, &'static str> {
        Ok(Job {
            process: self.process.ok_or("process")?,
            up: self.up.ok_or("up")?,
            layer: self.layer.ok_or("layer")?,
            min_wall: self.min_wall.ok_or("min_wall")?,
            min_hole: self.min_hole.ok_or("min_hole")?,
            nozzle: self.nozzle,
            overhang: self.overhang,
            material: self.material,
        })
    }
}

/// The job that options describe, each a setting's name and what stands after it in a part's text; or what is wrong with one of them. `none` leaves the
/// nozzle or the overhang out.
pub fn job(options: &[(&str, String)]) -> Result<Job, String> {
    let mut settings = Settings::default();
    let is_none = |(name, value): &&(&str, String)| ["nozzle", "overhang"].contains(name) && value == "none";
    for (name, value) in options.iter().filter(|option| !is_none(option)) {
        settings.option(name, value).map_err(|wrong| format!("--{name}: expected {}, found {}", wrong.expected, wrong.found))?;
    }
    let mut job = settings.with_defaults().job().map_err(|name| format!("--{name} is needed"))?;
    for (name, _) in options.iter().filter(is_none) {
        match *name {
            "nozzle" => job.nozzle = None,
            _ => job.overhang = None,
        }
    }
    Ok(job)
}

/// Sets what was not set before.
fn set<T>(place: &mut Option<T>, value: T) -> Option<()> {
    place.replace(value).is_none().then_some(())
}

fn material(line: &mut Line) -> Result<Material, Wrong> {
    let name = line.name()?;
    let class = line.one_of(&Class::ALL, Class::name)?;
    line.keyword("min_wall")?;
    let min_wall = line.real(range::MATERIAL_MIN_WALL)?;
    let mut bend_ratio = None;
    if line.is("bend_ratio") {
        line.keyword("bend_ratio")?;
        bend_ratio = Some(line.places(3, range::MOST_THOUSANDTHS)?);
    }
    Ok(Material { name, class, min_wall, bend_ratio })
}

#[cfg(test)]
mod tests {
    use super::*;

    fn said(options: &[(&'static str, &str)]) -> Result<Job, String> {
        job(&options.iter().map(|(name, value)| (*name, value.to_string())).collect::<Vec<_>>())
    }

    #[test]
    fn what_is_not_said_follows_the_process() {
        let cnc = said(&[("process", "CNC")]).unwrap();
        assert_eq!((cnc.up, cnc.layer, cnc.min_wall, cnc.min_hole, cnc.nozzle, cnc.overhang), ([0.0, 1.0, 0.0], 0.2, 0.8, 2.0, None, None));
        let fdm = said(&[("process", "FDM")]).unwrap();
        assert_eq!((fdm.layer, fdm.min_wall, fdm.min_hole, fdm.nozzle, fdm.overhang), (0.2, 0.8, 2.0, Some(0.4), Some(450)));
        let sla = said(&[("process", "SLA")]).unwrap();
        assert_eq!((sla.layer, sla.min_wall, sla.min_hole, sla.nozzle, sla.overhang), (0.05, 0.5, 0.5, None, Some(600)));
        let sls = said(&[("process", "SLS")]).unwrap();
        assert_eq!((sls.layer, sls.min_wall, sls.min_hole, sls.nozzle, sls.overhang), (0.1, 0.8, 1.5, None, None));
    }

    #[test]
    fn all_settings_are_options() {
        let material = "\"A b\" metal min_wall 0.7 bend_ratio 1.5";
        let options = [("process", "sheet"), ("up", "0,0,-1"), ("layer", "0.3"), ("min_wall", "1"), ("min_hole", "3"), ("nozzle", "0.6")];
        let job = said(&[&options[..], &[("overhang", "50.5"), ("material", material)]].concat()).unwrap();
        assert_eq!((job.up, job.layer, job.min_wall, job.min_hole), ([0.0, 0.0, -1.0], 0.3, 1.0, 3.0));
        assert_eq!((job.nozzle, job.overhang), (Some(0.6), Some(505)));
        let material = job.material.unwrap();
        assert_eq!((material.name.as_str(), material.class, material.min_wall, material.bend_ratio), ("A b", Class::Metal, 0.7, Some(1500)));
        let none = said(&[("process", "FDM"), ("nozzle", "none"), ("overhang", "none")]).unwrap();
        assert_eq!((none.nozzle, none.overhang), (None, None));
    }

    #[test]
    fn a_wrong_option_is_told() {
        let cases = [
            (("layer", "0"), "--layer: expected a number from 0.001 to 1000, found \"0\""),
            (("layer", ""), "--layer: expected a number, found the end of the line"),
            (("layer", "none"), "--layer: expected a number, found \"none\""),
            (("layer", "1 2"), "--layer: expected the end of the line, found \"2\""),
            (("layer", "1\nnozzle 2"), "--layer: expected one line, found \"nozzle\""),
            (("process", "cnc"), "--process: expected \"CNC\", \"sheet\", \"FDM\", \"SLA\" or \"SLS\", found \"cnc\""),
            (("material", "steel"), "--material: expected a name in quotes, found \"steel\""),
        ];
        for (option, want) in cases {
            assert_eq!(said(&[("process", "CNC"), option]).unwrap_err(), want);
        }
        assert_eq!(said(&[("process", "CNC"), ("process", "SLA")]).unwrap_err(), "--process: expected each setting once, found \"process\"");
        assert_eq!(said(&[]).unwrap_err(), "--process is needed");
    }
}
