//! Functions that answer at once.

use crate::code::{Code, Part, PartSort};
use crate::edit::Edit;

/// A constant of the function's type, where that is a number or a bool, no refusal where it may refuse, and nothing where it
/// returns nothing.
pub fn at_once(code: &Code, part: &Part) -> Vec<Edit> {
    let answers: &[&str] = match part.sort {
        PartSort::Function("") => &[""],
        PartSort::Function("Result<(), Refusal>") => &[" Ok(())"],
        PartSort::Function("bool") => &[" false", " true"],
        PartSort::Function("u8" | "u16" | "u32" | "u64" | "usize") => &[" 0", " 1"],
        PartSort::Function("i8" | "i16" | "i32" | "i64" | "isize") => &[" 0", " 1"],
        PartSort::Function(_) | PartSort::Constant => &[],
    };
    let start = code.tokens[part.range.start].end();
    answers
        .iter()
        .map(|answer| Edit::new(start..start, format!(" return{answer};")))
        .collect()
}
