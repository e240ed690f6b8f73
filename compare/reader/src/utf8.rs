//! UTF-8 by RFC 3629, section 4: rule 9.

/// The table of the syntax of UTF-8 byte sequences: ranges of the first byte, then of the bytes after it.
const SEQUENCES: [&[(u8, u8)]; 9] = [
    &[(0x00, 0x7F)],
    &[(0xC2, 0xDF), (0x80, 0xBF)],
    &[(0xE0, 0xE0), (0xA0, 0xBF), (0x80, 0xBF)],
    &[(0xE1, 0xEC), (0x80, 0xBF), (0x80, 0xBF)],
    &[(0xED, 0xED), (0x80, 0x9F), (0x80, 0xBF)],
    &[(0xEE, 0xEF), (0x80, 0xBF), (0x80, 0xBF)],
    &[(0xF0, 0xF0), (0x90, 0xBF), (0x80, 0xBF), (0x80, 0xBF)],
    &[(0xF1, 0xF3), (0x80, 0xBF), (0x80, 0xBF), (0x80, 0xBF)],
    &[(0xF4, 0xF4), (0x80, 0x8F), (0x80, 0xBF), (0x80, 0xBF)],
];

/// The bytes are a row of such sequences.
pub fn is_utf8(text: &[u8]) -> bool {
    let mut rest = text;
    while !rest.is_empty() {
        match SEQUENCES.iter().find(|sequence| starts_with(rest, sequence)) {
            Some(sequence) => rest = &rest[sequence.len()..],
            None => return false,
        }
    }
    true
}

fn starts_with(text: &[u8], sequence: &[(u8, u8)]) -> bool {
    text.len() >= sequence.len() && text.iter().zip(sequence).all(|(byte, (low, high))| (low..=high).contains(&byte))
}
