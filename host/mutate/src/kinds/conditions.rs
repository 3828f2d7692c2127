//! Conditions that are always true, or never.

use crate::code::{Code, Part};
use crate::edit::Edit;

/// A loop with a condition that is always true has no end, so a loop's is only made false.
pub fn fixed(code: &Code, part: &Part) -> Vec<Edit> {
    let mut edits = Vec::new();
    for place in part.range.clone() {
        let values: &[&str] = match code.at(place) {
            "if" => &["true", "false"],
            "while" => &["false"],
            _ => continue,
        };
        let head = code.head(place, part.range.end);
        if let Some(head) = head.filter(|head| code.at(head.start) != "let") {
            let edit = |value: &&str| Edit::new(code.place(&head), *value);
            edits.extend(values.iter().map(edit));
        }
    }
    edits
}
