//! A file as its JSON tree and its chunks, and its bytes.

use crate::rng::Rng;
use crate::tree::Tree;

pub const JSON: u32 = 0x4E4F_534A;
pub const BIN: u32 = 0x004E_4942;

/// A file before it is written out.
#[derive(Clone)]
pub struct Glb {
    pub root: Tree,
    /// White space in so many of a hundred places.
    pub space: usize,
    /// What fills the JSON chunk to a multiple of 4.
    pub padding: u8,
    /// The chunks after the JSON chunk, padded already.
    pub chunks: Vec<(u32, Vec<u8>)>,
}

impl Glb {
    /// The JSON chunk's bytes.
    pub fn text(&self, rng: &mut Rng) -> Vec<u8> {
        let mut text = Vec::new();
        self.root.write(&mut text, self.space, rng);
        pad(&mut text, self.padding);
        text
    }

    /// The file's bytes.
    pub fn bytes(&self, rng: &mut Rng) -> Vec<u8> {
        assemble(&self.text(rng), &self.chunks)
    }

    /// The data of the BIN chunk, put in if there is none.
    pub fn bin(&mut self) -> &mut Vec<u8> {
        if self.chunks.first().is_none_or(|(kind, _)| *kind != BIN) {
            self.chunks.insert(0, (BIN, Vec::new()));
        }
        &mut self.chunks[0].1
    }
}

/// Fills up to a multiple of 4.
pub fn pad(data: &mut Vec<u8>, filler: u8) {
    data.resize(data.len().next_multiple_of(4), filler);
}

/// A file of this JSON chunk and these chunks after it.
pub fn assemble(text: &[u8], chunks: &[(u32, Vec<u8>)]) -> Vec<u8> {
    let mut file = b"glTF\x02\0\0\0\0\0\0\0".to_vec();
    add_chunk(&mut file, JSON, text);
    for (kind, data) in chunks {
        add_chunk(&mut file, *kind, data);
    }
    fix_length(&mut file);
    file
}

fn add_chunk(file: &mut Vec<u8>, kind: u32, data: &[u8]) {
    file.extend((data.len() as u32).to_le_bytes());
    file.extend(kind.to_le_bytes());
    file.extend(data);
}

/// Puts the header's length right.
pub fn fix_length(file: &mut [u8]) {
    if file.len() >= 12 {
        let length = file.len() as u32;
        file[8..12].copy_from_slice(&length.to_le_bytes());
    }
}

/// The chunks of a file's bytes, as far as they go: type and data.
pub fn split(file: &[u8]) -> Vec<(u32, Vec<u8>)> {
    let word = |at: usize| u32::from_le_bytes([file[at], file[at + 1], file[at + 2], file[at + 3]]);
    let mut chunks = Vec::new();
    let mut at = 12;
    while at + 8 <= file.len() {
        let end = (at + 8).saturating_add(word(at) as usize).min(file.len());
        chunks.push((word(at + 4), file[at + 8..end].to_vec()));
        at = end;
    }
    chunks
}
