//! One card's step on byte slices, as C and Rust callers reach it. RULES 10.1: "a word is two bytes, the low byte first.
//! An odd number of bytes is a wrong length."

use crate::card;
use crate::refusal::Refusal;

/// As `card::step`, with the records and the output buffer as bytes.
pub fn step(
    n: u32,
    f: u32,
    c: u32,
    card: u32,
    records: &[u8],
    out: &mut [u8],
) -> Result<(), Refusal> {
    let mut next = words_of(out);
    card::step(n, f, c, card, &words_of(records), &mut next)?;
    out.copy_from_slice(&bytes_of(&next));
    Ok(())
}

/// The bytes of these words.
pub fn bytes_of(words: &[u16]) -> Vec<u8> {
    words.iter().flat_map(|word| word.to_le_bytes()).collect()
}

/// The words of these bytes; of an odd count no words, which is everywhere a wrong length.
fn words_of(bytes: &[u8]) -> Vec<u16> {
    if bytes.len() % 2 == 1 {
        return Vec::new();
    }
    let pairs = bytes.chunks_exact(2);
    pairs
        .map(|pair| u16::from_le_bytes([pair[0], pair[1]]))
        .collect()
}
