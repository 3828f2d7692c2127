//! Records as text, and the lines of a text.

use crate::params::{self, check_cards};
use crate::refusal::Refusal;

/// RULES 10.2: "A word is 4 digits", lower case, the high digit first.
const DIGITS: usize = 4;

/// Writes a record as its text of 4·W digits. Tests 1, 2, 5 and 6.
pub fn write_record(n: u32, f: u32, record: &[u16], out: &mut [u8]) -> Result<(), Refusal> {
    check_cards(n, f)?;
    Refusal::Records.when(record.len() != params::words(f as usize))?;
    Refusal::OutputLength.when(out.len() != record.len() * DIGITS)?;
    out.copy_from_slice(write_words(record).as_bytes());
    Ok(())
}

/// Reads a record from its text of 4·W digits. Tests 1, 2, 6 and 10, the table's order.
pub fn read_record(n: u32, f: u32, text: &[u8], out: &mut [u16]) -> Result<(), Refusal> {
    check_cards(n, f)?;
    Refusal::OutputLength.when(out.len() != params::words(f as usize))?;
    out.copy_from_slice(&read_words(text, out.len())?);
    Ok(())
}

/// Line `number` of a text, counted from 1, without its line feed; 10 if there is none.
/// RULES 10.3: "What follows the last line feed is a line only if it has a character."
pub fn line(text: &[u8], number: usize) -> Result<&[u8], Refusal> {
    let mut lines = text.split_inclusive(|&byte| byte == b'\n');
    let line = number.checked_sub(1).and_then(|before| lines.nth(before));
    line.map(without_line_feed).ok_or(Refusal::Text)
}

/// A line without the line feed that ends it, if one does.
pub fn without_line_feed(line: &[u8]) -> &[u8] {
    line.strip_suffix(b"\n").unwrap_or(line)
}

/// The digits of the words, one word after another.
pub fn write_words(words: &[u16]) -> String {
    words.iter().map(|word| format!("{word:04x}")).collect()
}

/// Exactly `count` words from their digits, or 10.
pub fn read_words(text: &[u8], count: usize) -> Result<Vec<u16>, Refusal> {
    Refusal::Text.when(text.len() != count * DIGITS)?;
    let words: Option<_> = text.chunks_exact(DIGITS).map(read_word).collect();
    words.ok_or(Refusal::Text)
}

fn read_word(digits: &[u8]) -> Option<u16> {
    digits
        .iter()
        .try_fold(0, |word, &digit| Some(word << 4 | digit_value(digit)?))
}

/// The value of a character among 0-9, a-f.
fn digit_value(digit: u8) -> Option<u16> {
    match digit {
        b'0'..=b'9' => Some(u16::from(digit - b'0')),
        b'a'..=b'f' => Some(u16::from(digit - b'a') + 10),
        _ => None,
    }
}
