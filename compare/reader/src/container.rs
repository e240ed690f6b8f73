//! Header and chunks: rules 1 to 8.

use crate::{require, require_each, Broken};

/// The chunk type of JSON.
pub const JSON: u32 = 0x4E4F_534A;
/// The chunk type of BIN.
pub const BIN: u32 = 0x004E_4942;

/// A chunk: its type and the place of its data in the file.
pub struct Chunk {
    pub kind: u32,
    pub start: usize,
    pub length: usize,
}

impl Chunk {
    /// The chunk's data.
    pub fn data<'a>(&self, file: &'a [u8]) -> &'a [u8] {
        &file[self.start..self.start + self.length]
    }
}

/// The little-endian u32 at a place.
fn word(file: &[u8], at: usize) -> u32 {
    u32::from_le_bytes([file[at], file[at + 1], file[at + 2], file[at + 3]])
}

/// Rules 1 to 4.
pub fn check_header(file: &[u8]) -> Result<(), Broken> {
    require(1, (20..=16_777_216).contains(&file.len()))?;
    require(2, word(file, 0) == 0x4654_6C67)?;
    require(3, word(file, 4) == 2)?;
    require(4, word(file, 8) as usize == file.len())
}

/// Rule 5: the chunks from byte 12, which fill the file.
pub fn chunks(file: &[u8]) -> Result<Vec<Chunk>, Broken> {
    let mut chunks = Vec::new();
    let mut at = 12;
    while at < file.len() {
        let broken = Broken { rule: 5, item: chunks.len() as u32 };
        if file.len() - at < 8 {
            return Err(broken); // header cut
        }
        let length = word(file, at) as usize;
        let start = at + 8;
        if !length.is_multiple_of(4) || length > file.len() - start {
            return Err(broken);
        }
        chunks.push(Chunk { kind: word(file, at + 4), start, length });
        at = start + length;
    }
    Ok(chunks)
}

/// Rules 6 to 8.
pub fn check_kinds(chunks: &[Chunk]) -> Result<(), Broken> {
    let numbered: Vec<(usize, u32)> = chunks.iter().map(|chunk| chunk.kind).enumerate().collect();
    require_each(6, &numbered, |&(number, kind)| (number == 0) != (kind == JSON))?;
    require_each(7, &numbered, |&(number, kind)| kind == BIN && number != 1)?;
    require(8, chunks[0].length <= 65_536)
}
