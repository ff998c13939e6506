//! The command line.
use crate::part::Job;
use crate::settings;
use std::ffi::OsString;

pub const HELP: &str = "\
Checks machined, bent and printed parts before they are made.

    gablemadder check [--json] FILE..                    prints the report of each part file
    gablemadder show FILE                                prints a part file as text
    gablemadder make TEXT > FILE                         makes the part file from such a text
    gablemadder obj --process P [..] OBJ > FILE          makes the part file from Wavefront OBJ text; -o FILE, --check
    gablemadder picture [--from x,y,z] FILE > FILE.svg   draws a part with its findings
    gablemadder --help, --version

A file named - is standard input, and after -o standard output. Words after -- are files.

check prints a report as the library writes it, byte for byte; with several files a line `== FILE` stands before each report. With --json it prints
one JSON object a line for each file: file, findings (severity, rule, count, faces, message), thickness, bends and height; or file and refusal (number,
condition, place, advice); or file and error, where it cannot be read. Polygons, and the vertices of one, count from 0.

obj reads the lines `v x y z`, `f a b c ..` and `g n`, which gives the faces after it their number. The job is said by options, each what a part's text
has in its job: --process CNC, sheet, FDM, SLA or SLS, which is needed; --up 0,1,0 --layer 0.2 --min_wall 0.8 --min_hole 2 --nozzle 0.4 --overhang 45
(both may be `none`) --material '\"Aluminium 6061\" metal min_wall 0.8 bend_ratio 1.5'. What is left out follows the process. With -o FILE the part file is
written there. With --check its report is printed, as check prints it, --json too, and no part file unless -o names one.

picture draws the part as seen from a point in the direction x,y,z; without --from it looks from where most findings are seen. A part that has a
shape but that the check refuses is drawn without findings, and the refusal is told.

Status: 0 where no finding is an Error, 1 where one is, 2 where a part was refused or something could not be read or written. Of several files the
worst counts. What is wrong is told in a line on standard error, and nothing of that file's report is printed. A reader of standard output that goes
away early, as in `gablemadder check FILE.. | head`, counts as output that could not be written.
";

#[derive(Debug, PartialEq)]
pub enum Command {
    Help,
    Version,
    Check { files: Vec<OsString>, as_json: bool },
    Show { file: OsString },
    Make { text: OsString },
    Obj(Obj),
    Picture { file: OsString, from: Option<[f64; 3]> },
}

/// A part file from OBJ text.
#[derive(Debug, PartialEq)]
pub struct Obj {
    pub text: OsString,
    pub job: Job,
    /// Where it is written, if not to standard output.
    pub to: Option<OsString>,
    /// Its report is printed, and it goes nowhere else than to `to`.
    pub is_checked: bool,
    pub as_json: bool,
}

/// The words after the command's name.
pub fn read(words: impl Iterator<Item = OsString>) -> Result<Command, String> {
    let mut words = words.peekable();
    let Some(first) = words.next() else {
        return Err(see_help("no command is given"));
    };
    let mut rest = Rest::of(words);
    if rest.option("--help") || rest.option("-h") {
        return Ok(Command::Help);
    }
    match first.to_string_lossy().as_ref() {
        "--help" | "-h" | "help" => Ok(Command::Help),
        "--version" | "-V" => Ok(Command::Version),
        "check" => {
            let as_json = rest.option("--json");
            Ok(Command::Check { files: rest.files()?, as_json })
        }
        "show" => Ok(Command::Show { file: rest.file()? }),
        "make" => Ok(Command::Make { text: rest.file()? }),
        "obj" => obj(rest),
        "picture" => {
            let from = rest.value("--from").map(|text| direction(&text.to_string_lossy())).transpose()?;
            Ok(Command::Picture { file: rest.file()?, from })
        }
        other => Err(see_help(&format!("there is no command {other:?}"))),
    }
}

fn obj(mut rest: Rest) -> Result<Command, String> {
    let (to, is_checked, as_json) = (rest.value("-o"), rest.option("--check"), rest.option("--json"));
    if as_json && !is_checked {
        return Err(see_help("--json is for reports, and --check is not there"));
    }
    // `-` names standard output, as it names standard input where a file is read
    let to_output = to.as_ref().is_some_and(|name| name == "-");
    if to_output && is_checked {
        return Err(see_help("-o - and --check would both write to standard output"));
    }
    let to = to.filter(|_| !to_output);
    let said = rest.values(&settings::NAMES);
    let text = rest.file()?;
    let job = settings::job(&said).map_err(|what| see_help(&what))?;
    Ok(Command::Obj(Obj { text, job, to, is_checked, as_json }))
}

/// Three numbers with commas between, not all of them zero.
fn direction(text: &str) -> Result<[f64; 3], String> {
    let numbers: Option<Vec<f64>> = text.split(',').map(|word| word.trim().parse().ok().filter(|x: &f64| x.is_finite())).collect();
    match numbers.as_deref() {
        Some(&[x, y, z]) if [x, y, z] != [0.0; 3] => Ok([x, y, z]),
        _ => Err(see_help(&format!("--from takes a direction, such as 1,-2,1.5, and not {text:?}"))),
    }
}

fn see_help(what: &str) -> String {
    format!("gablemadder: {what}; `gablemadder --help` says how it is called")
}

/// Whether the word after this option is its value.
fn has_value(option: &str) -> bool {
    option == "--from" || option == "-o" || option.strip_prefix("--").is_some_and(|name| settings::NAMES.contains(&name))
}

/// What follows the command.
struct Rest {
    options: Vec<String>,
    values: Vec<(String, OsString)>,
    files: Vec<OsString>,
}

impl Rest {
    fn of(mut words: impl Iterator<Item = OsString>) -> Rest {
        let mut rest = Rest { options: Vec::new(), values: Vec::new(), files: Vec::new() };
        let mut is_file = false;
        while let Some(word) = words.next() {
            let text = word.to_string_lossy();
            if is_file || !text.starts_with('-') || text == "-" {
                rest.files.push(word);
            } else if text == "--" {
                is_file = true;
            } else if has_value(&text) {
                rest.values.push((text.into_owned(), words.next().unwrap_or_default()));
            } else if let Some((name, value)) = text.split_once('=') {
                rest.values.push((name.to_string(), value.into()));
            } else {
                rest.options.push(text.into_owned());
            }
        }
        rest
    }

    /// Whether this option is there; it is taken out.
    fn option(&mut self, name: &str) -> bool {
        let count = self.options.len();
        self.options.retain(|option| option != name);
        self.options.len() < count
    }

    /// The value of this option, the last where it comes again; it is taken out.
    fn value(&mut self, name: &str) -> Option<OsString> {
        let last = self.values.iter().rfind(|(option, _)| option == name).map(|(_, value)| value.clone());
        self.values.retain(|(option, _)| option != name);
        last
    }

    /// The options with these names after two dashes, in their order; they are taken out.
    fn values(&mut self, names: &[&'static str]) -> Vec<(&'static str, String)> {
        let of = |option: &str| names.iter().copied().find(|name| option.strip_prefix("--") == Some(*name));
        let found = self.values.iter().filter_map(|(option, value)| Some((of(option)?, value.to_string_lossy().into_owned()))).collect();
        self.values.retain(|(option, _)| of(option).is_none());
        found
    }

    fn files(self) -> Result<Vec<OsString>, String> {
        if let Some(option) = self.options.first().or(self.values.first().map(|(option, _)| option)) {
            return Err(see_help(&format!("there is no option {option:?} here")));
        }
        match self.files.is_empty() {
            true => Err(see_help("no file is named")),
            false => Ok(self.files),
        }
    }

    fn file(self) -> Result<OsString, String> {
        let mut files = self.files()?;
        match files.len() {
            1 => Ok(files.remove(0)),
            n => Err(see_help(&format!("{n} files are named, where one is meant"))),
        }
    }
}
