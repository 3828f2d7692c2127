//! An operator in the place of another.

use crate::code::{Code, Part};
use crate::edit::Edit;

const COMPARISONS: [(&str, &str); 8] = [
    ("<", "<="),
    ("<=", "<"),
    (">", ">="),
    (">=", ">"),
    ("==", "!="),
    ("!=", "=="),
    ("min", "max"),
    ("max", "min"),
];

const ARITHMETIC: [(&str, &str); 14] = [
    ("+", "-"),
    ("-", "+"),
    ("*", "+"),
    ("/", "%"),
    ("%", "/"),
    ("<<", ">>"),
    (">>", "<<"),
    ("+=", "-="),
    ("-=", "+="),
    ("*=", "+="),
    ("/=", "%="),
    ("%=", "/="),
    ("<<=", ">>="),
    (">>=", "<<="),
];

const BOOLEANS: [(&str, &str); 4] = [("&&", "||"), ("||", "&&"), ("all", "any"), ("any", "all")];

/// Comparisons with their bound taken in or left out, the ends of ranges, and the smaller or larger of two.
pub fn comparisons(code: &Code, part: &Part) -> Vec<Edit> {
    let mut edits = exchanged(code, part, &COMPARISONS);
    for place in part.range.clone().filter(|place| code.at(*place) == "for") {
        let mut head = code.head(place, part.range.end).unwrap_or(place..place);
        if let Some(range) = head.find(|place| ["..", "..="].contains(&code.at(*place))) {
            let new = if code.at(range) == ".." { "..=" } else { ".." };
            edits.push(Edit::of(&code.tokens[range], new));
        }
    }
    edits
}

/// Operators on numbers, and a sign left out.
pub fn arithmetic(code: &Code, part: &Part) -> Vec<Edit> {
    let mut edits = exchanged(code, part, &ARITHMETIC);
    edits.extend(left_out(code, part, "-"));
    edits
}

/// `&&` and `||`, `true` and `false`, `all` and `any`, and a `!` left out.
pub fn booleans(code: &Code, part: &Part) -> Vec<Edit> {
    let mut edits = exchanged(code, part, &BOOLEANS);
    for place in part.range.clone() {
        let new = match code.at(place) {
            "true" => "false",
            "false" => "true",
            _ => continue,
        };
        edits.push(Edit::of(&code.tokens[place], new));
    }
    edits.extend(left_out(code, part, "!"));
    edits
}

/// The operators between two values, and the methods.
fn exchanged(code: &Code, part: &Part, table: &[(&str, &str)]) -> Vec<Edit> {
    let places = part.range.clone().skip(1);
    let places = places.filter(|place| !code.closes_generics(*place));
    let places = places.filter(|place| code.ends_value(place - 1) || code.at(place - 1) == ".");
    let edit = |place: usize| {
        let found = table.iter().find(|(old, _)| *old == code.at(place));
        found.map(|(_, new)| Edit::of(&code.tokens[place], *new))
    };
    places.filter_map(edit).collect()
}

/// The operators before a value.
fn left_out(code: &Code, part: &Part, sign: &str) -> Vec<Edit> {
    let signs = part.range.clone().filter(|place| code.at(*place) == sign);
    let before = signs.filter(|place| *place == part.range.start || !code.ends_value(place - 1));
    before
        .map(|place| Edit::of(&code.tokens[place], ""))
        .collect()
}
