//! Values in one another's place.

use std::ops::Range;

use crate::blocks::Braces;
use crate::code::{Code, Part};
use crate::edit::Edit;

/// Neighbouring arguments of a call, neighbours in a tuple or an array, and the values of neighbouring fields of a struct
/// that is made. What a macro takes stays, and so do the names that a `for` gives.
pub fn arguments(code: &Code, part: &Part) -> Vec<Edit> {
    let opens = part.range.clone();
    let opens = opens.filter(|place| ["(", "["].contains(&code.at(*place)));
    let opens = opens.filter(|place| !["!", "for"].contains(&code.at(place - 1)));
    let mut lists: Vec<_> = opens.map(|open| code.items(open)).collect();
    for (open, sort) in code.braces(&part.range) {
        if sort == Braces::Fields {
            let fields = code.items(open).into_iter();
            lists.push(fields.map(|field| value(code, field)).collect());
        }
    }
    let swapped = |values: &Vec<_>| swapped_neighbours(code, values);
    lists.iter().flat_map(swapped).collect()
}

/// The value of a field; a field without one is its own value's name, and cannot be swapped.
fn value(code: &Code, field: Range<usize>) -> Range<usize> {
    match code.find(field.start, field.end, &[":"]) {
        Some(colon) => colon + 1..field.end,
        None => field.end..field.end,
    }
}

/// Neighbouring indices of one statement, or one arm: `a[i][j]`, and `to[i] = from[j]`.
pub fn indices(code: &Code, part: &Part) -> Vec<Edit> {
    let opens = part.range.clone().skip(1);
    let opens = opens.filter(|place| code.at(*place) == "[" && code.ends_value(place - 1));
    let indices: Vec<_> = opens.map(|open| open + 1..code.closing(open)).collect();
    let in_one_statement = |pair: &&[Range<usize>]| {
        let mut between = pair[0].end..pair[1].start;
        !between.is_empty() && !between.any(|place| [";", "{", "}", "=>"].contains(&code.at(place)))
    };
    let pairs = indices.windows(2).filter(in_one_statement);
    let swapped = |pair: &[_]| swapped_neighbours(code, pair);
    pairs.flat_map(swapped).collect()
}

fn swapped_neighbours(code: &Code, values: &[Range<usize>]) -> Vec<Edit> {
    let mut edits = Vec::new();
    for pair in values.windows(2) {
        let (first, second) = (&pair[0], &pair[1]);
        if !first.is_empty() && !second.is_empty() && code.text_of(first) != code.text_of(second) {
            edits.push(Edit::swap(code.text, code.place(first), code.place(second)));
        }
    }
    edits
}
