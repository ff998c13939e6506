//! Writing to standard output or to a file, all or nothing as far as the system lets it.
use crate::input;
use std::ffi::OsStr;
use std::fs::File;
use std::io::{self, ErrorKind, Write};
use std::os::fd::AsFd;

/// Writes all of it, or says why not. Where standard output is a file, a part that was written is taken back.
pub fn put(bytes: &[u8]) -> Result<(), String> {
    let mut out = File::from(io::stdout().as_fd().try_clone_to_owned().map_err(words)?);
    let length = out.metadata().ok().filter(|about| about.is_file()).map(|about| about.len());
    out.write_all(bytes).map_err(|error| {
        if let Some(length) = length {
            // The message is the write's; that cutting fails too would add nothing.
            let _ = out.set_len(length);
        }
        words(error)
    })
}

/// The same to a file of this name, whose content from before is lost.
pub fn put_file(path: &OsStr, bytes: &[u8]) -> Result<(), String> {
    let written = File::create(path).and_then(|mut file| {
        file.write_all(bytes).inspect_err(|_| {
            let _ = file.set_len(0);
        })
    });
    written.map_err(|error| format!("{}: it cannot be written: {}", input::name(path), why(error)))
}

fn words(error: io::Error) -> String {
    format!("gablemadder: standard output: {}", why(error))
}

fn why(error: io::Error) -> String {
    match error.kind() {
        ErrorKind::BrokenPipe => "its reader has gone".to_string(),
        ErrorKind::StorageFull => "the disk is full".to_string(),
        ErrorKind::QuotaExceeded => "the disk's quota is used up".to_string(),
        _ => error.to_string(),
    }
}
