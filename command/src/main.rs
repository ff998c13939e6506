//! The command `gablemadder`: checks part files, shows and makes them, from OBJ text too, and draws them.
#![forbid(unsafe_code)]
mod arguments;
mod check;
mod input;
mod json;
mod line;
mod make;
mod obj;
mod obj_place;
mod output;
mod part;
mod picture;
mod place;
mod progress;
mod range;
#[cfg(test)]
mod round_trips;
mod settings;
mod show;

use arguments::Command;
use std::ffi::OsStr;
use std::io::{self, IsTerminal, Write};
use std::process::ExitCode;

/// How a run ends; the larger the worse.
#[derive(Clone, Copy, Debug, PartialEq, Eq, PartialOrd, Ord)]
pub enum Status {
    Good = 0,
    /// A report has a finding that is an Error.
    HasErrors = 1,
    /// A part was refused, or something could not be read or written.
    Refused = 2,
}

fn main() -> ExitCode {
    let status = arguments::read(std::env::args_os().skip(1)).and_then(run);
    let status = status.unwrap_or_else(|why| {
        complain(&why);
        Status::Refused
    });
    ExitCode::from(status as u8)
}

/// Says a line on standard error. It begins with the name of the file that it is about, or of the command.
pub fn complain(line: &str) {
    // Where standard error cannot be written to, the status still says it.
    let _ = writeln!(io::stderr(), "{line}");
}

fn run(command: Command) -> Result<Status, String> {
    match command {
        Command::Help => output::put(arguments::HELP.as_bytes())?,
        Command::Version => output::put(format!("gablemadder {}\n", env!("CARGO_PKG_VERSION")).as_bytes())?,
        Command::Check { files, as_json } => return check::run(&files, as_json),
        Command::Show { file } => output::put(show::text(&read_part(&file)?.1).as_bytes())?,
        Command::Make { text } => output::put(&make(&text)?)?,
        Command::Obj(order) => return obj::run(&order),
        Command::Picture { file, from } => return draw(&file, from),
    }
    Ok(Status::Good)
}

/// A part file's bytes, and the part.
fn read_part(name: &OsStr) -> Result<(Vec<u8>, part::Part), String> {
    let mut file = Vec::new();
    input::read(name, part::MOST_BYTES, &mut file).map_err(|why| format!("{}: {why}", input::name(name)))?;
    match part::Part::read(&file) {
        Ok(part) => Ok((file, part)),
        Err(wrong) => Err(format!("{}: {}", input::name(name), place::tell(&file, wrong.refusal))),
    }
}

/// Draws a part. Where the check refuses it, it is drawn without findings.
fn draw(name: &OsStr, from: Option<[f64; 3]>) -> Result<Status, String> {
    let (file, part) = read_part(name)?;
    let report = gablemadder::check(&file);
    let known = report.as_ref().ok();
    let from = from.unwrap_or_else(|| picture::view(&part, known));
    output::put(picture::svg(&part, known, from).as_bytes())?;
    match report {
        Ok(_) => Ok(Status::Good),
        Err(refusal) => Err(format!("{}: {}", input::name(name), place::tell(&file, refusal))),
    }
}

/// A part file on a terminal serves nobody.
fn is_for_a_part_file(command: &str) -> Result<(), String> {
    match io::stdout().is_terminal() {
        true => Err(format!("gablemadder: a part file is no text: send it to a file, as in `gablemadder {command} > part.part`")),
        false => Ok(()),
    }
}

/// The part file that a text describes.
fn make(name: &OsStr) -> Result<Vec<u8>, String> {
    is_for_a_part_file("make part.txt")?;
    let mut text = Vec::new();
    input::read(name, input::MOST_TEXT, &mut text).map_err(|why| format!("{}: {why}", input::name(name)))?;
    make::part(&text).map(|part| part.bytes()).map_err(|wrong| format!("{}:{wrong}", input::name(name)))
}
