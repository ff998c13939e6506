//! Part files from standard input, each after its length (u32, little-endian).
use std::io::{self, Read};

/// Each file in turn, with its number.
pub fn each(mut take: impl FnMut(u64, &[u8])) -> io::Result<()> {
    let mut input = io::BufReader::with_capacity(1 << 20, io::stdin());
    let mut length = [0; 4];
    let mut number = 0;
    while input.read_exact(&mut length).is_ok() {
        let mut file = vec![0; u32::from_le_bytes(length) as usize];
        input.read_exact(&mut file)?;
        take(number, &file);
        number += 1;
    }
    Ok(())
}
