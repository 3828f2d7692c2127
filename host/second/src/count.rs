//! A count or none, and the words they are read from and written to.

/// The word for none.
pub const NONE: u16 = 65_535;

/// RULES 4.2: "An output a, or an M, at or above its modulus is none"; an m likewise is not counted.
pub fn read(word: u16, modulus: u16) -> Option<u16> {
    Some(word).filter(|&count| count < modulus)
}

/// RULES 1: none "is written as the word 65,535".
pub fn write(count: Option<u16>) -> u16 {
    count.unwrap_or(NONE)
}

/// One more, modulo the modulus.
pub fn next(count: u16, modulus: u16) -> u16 {
    ((u32::from(count) + 1) % u32::from(modulus)) as u16
}

/// How many of the counts or nones read `wanted`.
pub fn times(wanted: Option<u16>, heard: &[Option<u16>]) -> usize {
    heard.iter().filter(|&&count| count == wanted).count()
}
