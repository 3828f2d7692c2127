//! Numbers and characters off by one.

use crate::code::{Code, Part};
use crate::edit::Edit;
use crate::tokens::{Sort, Token};

/// The number of a field stays, as in `pair.0`.
pub fn off_by_one(code: &Code, part: &Part) -> Vec<Edit> {
    let places = part.range.clone();
    let places = places.filter(|place| *place == 0 || code.at(place - 1) != ".");
    let token = |place: usize| &code.tokens[place];
    places.flat_map(|place| neighbours(token(place))).collect()
}

fn neighbours(token: &Token) -> Vec<Edit> {
    let texts = match token.sort {
        Sort::Number => numbers(token.text),
        Sort::Quoted => characters(token.text),
        Sort::Word | Sort::Sign => Vec::new(),
    };
    let edit = |text| Edit::of(token, text);
    texts.into_iter().map(edit).collect()
}

/// The number with its type's name after it, if any: `0u16`.
fn numbers(text: &str) -> Vec<String> {
    let digits = text
        .find(|digit: char| !digit.is_ascii_digit())
        .unwrap_or(text.len());
    let (digits, suffix) = text.split_at(digits);
    let value: Option<u64> = digits.parse().ok();
    let above = value.and_then(|value| value.checked_add(1));
    let below = value.and_then(|value| value.checked_sub(1));
    let neighbours = [above, below].into_iter().flatten();
    neighbours
        .map(|number| format!("{number}{suffix}"))
        .collect()
}

fn characters(text: &str) -> Vec<String> {
    let letter = match text.as_bytes() {
        [b'b', b'\'', letter, b'\''] => *letter,
        _ => return Vec::new(),
    };
    let neighbours = [letter + 1, letter - 1].map(char::from);
    let plain = neighbours
        .iter()
        .filter(|letter| letter.is_ascii_graphic() && !r"'\".contains(**letter));
    plain.map(|letter| format!("b'{letter}'")).collect()
}
