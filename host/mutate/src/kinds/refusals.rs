//! Refusals for another reason of RULES 9.1.

use crate::code::{Code, Part};
use crate::edit::Edit;

/// The names of `Refusal` in the crate `rules`, in the order of the table of RULES 9.1: "They are tested in this order".
pub const TABLE: [&str; 11] = [
    "Cards", "Broken", "Modulus", "Set", "Card", "Records", "Sent", "Output", "Lag", "Text", "Beat",
];

/// Each `Refusal::Records` becomes the one that is tested before it, and the one that is tested after it.
pub fn other_reason(code: &Code, part: &Part) -> Vec<Edit> {
    let names = part.range.clone().skip(2);
    let names = names.filter(|place| code.at(place - 2) == "Refusal" && code.at(place - 1) == "::");
    let edits = |place: usize| {
        let others = neighbours(code.at(place)).into_iter();
        others.map(move |other| Edit::of(&code.tokens[place], other))
    };
    names.flat_map(edits).collect()
}

fn neighbours(name: &str) -> Vec<&'static str> {
    let rank = TABLE.iter().position(|other| *other == name);
    rank.map_or(Vec::new(), |rank| {
        let ranks = rank.checked_sub(1).into_iter().chain(Some(rank + 1));
        ranks.filter_map(|rank| TABLE.get(rank).copied()).collect()
    })
}
