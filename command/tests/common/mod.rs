//! The command, called.
use std::io::Write;
use std::process::{Command, Output, Stdio};

/// With nothing on standard input.
pub fn gablemadder(words: &[&str]) -> Command {
    let mut command = Command::new(env!("CARGO_BIN_EXE_gablemadder"));
    command.args(words).stdin(Stdio::null());
    command
}

/// Runs it with this on standard input, of which it need not read all.
pub fn run_on(words: &[&str], input: &[u8]) -> Output {
    let mut child = gablemadder(words).stdin(Stdio::piped()).stdout(Stdio::piped()).stderr(Stdio::piped()).spawn().unwrap();
    let mut to = child.stdin.take().unwrap();
    let input = input.to_vec();
    let writer = std::thread::spawn(move || drop(to.write_all(&input)));
    let output = child.wait_with_output().unwrap();
    writer.join().unwrap();
    output
}
