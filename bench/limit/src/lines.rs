//! A file, read in pieces.

use std::error::Error;
use std::fs::File;
use std::io::Read;

const PIECE: usize = 1 << 17;

/// Calls `take` with blocks of whole lines; an error where it answers none. One buffer holds each block in
/// turn.
pub fn each_block(path: &str, mut take: impl FnMut(&[u8]) -> Option<()>) -> Result<(), Box<dyn Error>> {
    let mut file = File::open(path)?;
    let mut buffer = vec![0; PIECE];
    let mut filled = 0;
    loop {
        let count = file.read(&mut buffer[filled..])?;
        filled += count;
        let block = match buffer[..filled].iter().rposition(|byte| *byte == b'\n') {
            Some(end) => end + 1,
            None if count == 0 => filled,
            None => 0,
        };
        take(&buffer[..block]).ok_or("an index line cannot be read")?;
        buffer.copy_within(block..filled, 0);
        filled -= block;
        if count == 0 && filled == 0 {
            return Ok(());
        }
        if filled == buffer.len() {
            buffer.resize(filled * 2, 0);
        }
    }
}
