//! Reading files whole, up to a greatest size.
use std::borrow::Cow;
use std::ffi::OsStr;
use std::fs::File;
use std::io::{self, ErrorKind, Read};

/// Bytes of the longest text of a part: 16,384 vertices take less than two millions of them.
pub const MOST_TEXT: usize = 1 << 24;
/// Bytes of the longest OBJ text, whose vertices need not be used.
pub const MOST_OBJ: usize = 1 << 28;

/// A file as it is called where people read it, on one line.
pub fn name(path: &OsStr) -> Cow<'_, str> {
    let name = path.to_string_lossy();
    match &*name {
        "-" => Cow::Borrowed("standard input"),
        text if text.contains(char::is_control) => Cow::Owned(text.escape_debug().to_string()),
        _ => name,
    }
}

/// Reads a file, or standard input by the name `-`, into the buffer; or says why it cannot be read. No more than `most` bytes and one are read.
pub fn read(name: &OsStr, most: usize, buffer: &mut Vec<u8>) -> Result<(), String> {
    buffer.clear();
    if name == "-" {
        return read_from(&mut io::stdin().lock(), most, buffer);
    }
    let mut file = File::open(name).map_err(words)?;
    let about = file.metadata().map_err(words)?;
    if about.is_file() && about.len() > most as u64 {
        return Err(too_long(&format!("{} bytes", about.len()), most));
    }
    read_from(&mut file, most, buffer)
}

fn read_from(from: &mut impl Read, most: usize, buffer: &mut Vec<u8>) -> Result<(), String> {
    from.take(most as u64 + 1).read_to_end(buffer).map_err(words)?;
    match buffer.len() > most {
        true => Err(too_long(&format!("over {most} bytes"), most)),
        false => Ok(()),
    }
}

fn too_long(size: &str, most: usize) -> String {
    format!("too long: {size}, and {most} is the most")
}

fn words(error: io::Error) -> String {
    match error.kind() {
        ErrorKind::NotFound => "there is no such file".to_string(),
        ErrorKind::IsADirectory => "it is a folder, not a file".to_string(),
        ErrorKind::PermissionDenied => "it may not be read".to_string(),
        _ => format!("it cannot be read: {error}"),
    }
}
