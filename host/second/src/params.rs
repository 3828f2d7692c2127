//! The limits (RULES 2.1) and the parameters, each from its formula (RULES 2.2).

use crate::refusal::Refusal;

pub const MOST_CARDS: u32 = 16;
pub const MOST_BROKEN: u32 = 5;
pub const LEAST_MODULUS: u32 = 2;
pub const MOST_MODULUS: u32 = 65_535;

/// One row of the table of RULES 2.3.
#[derive(Clone, Copy, Debug, PartialEq, Eq)]
pub struct Parameters {
    pub t: u16,
    pub c0: u16,
    pub c1: u16,
    /// 2·c1, where the cooldown restarts.
    pub restart: u16,
    /// W, the words in a record.
    pub words: usize,
    /// T(f), the beat from which the sound cards agree.
    pub settled: usize,
}

/// The parameters of n and f; tests only 1 and 2.
pub fn parameters(n: u32, f: u32) -> Result<Parameters, Refusal> {
    check_cards(n, f)?;
    let f = f as usize;
    // RULES 2.3: with f = 0 "the four middle entries are given as 0."
    let if_split = |entry: u16| if f == 0 { 0 } else { entry };
    Ok(Parameters {
        t: if_split(t(f)),
        c0: if_split(c0(f)),
        c1: if_split(c1(f)),
        restart: if_split(restart(f)),
        words: words(f),
        settled: settled(f),
    })
}

/// Tests 1 and 2.
pub fn check_cards(n: u32, f: u32) -> Result<(), Refusal> {
    Refusal::CardCount.when(n == 0 || n > MOST_CARDS)?;
    Refusal::BrokenAllowance.when(f > MOST_BROKEN || 3 * f >= n)
}

/// Tests 3.
pub fn check_modulus(c: u32) -> Result<(), Refusal> {
    Refusal::Modulus.when(!(LEAST_MODULUS..=MOST_MODULUS).contains(&c))
}

/// "t = 3(f+2)"
pub fn t(f: usize) -> u16 {
    3 * (f as u16 + 2)
}

/// "c0 = 2t"
pub fn c0(f: usize) -> u16 {
    2 * t(f)
}

/// "c1 = 6t"
pub fn c1(f: usize) -> u16 {
    6 * t(f)
}

/// "A cooldown restarts at 2·c1."
pub fn restart(f: usize) -> u16 {
    2 * c1(f)
}

/// W: "8 times the number of binary digits of f, plus 1. The number 0 has no binary digits."
pub fn words(f: usize) -> usize {
    let binary_digits = usize::BITS - f.leading_zeros();
    8 * binary_digits as usize + 1
}

/// "T(0) = 1, and T(f) = T(f/2) + 2 + 21t."
pub fn settled(f: usize) -> usize {
    if f == 0 {
        1
    } else {
        settled(f / 2) + 2 + 21 * usize::from(t(f))
    }
}
