//! The kinds of mutation. Each yields the edits that it makes in one function's body or one constant's value.

mod conditions;
mod constants;
mod operators;
mod order;
pub mod refusals;
mod returns;
mod statements;

use crate::code::{Code, Part};
use crate::edit::Edit;

pub struct Kind {
    pub name: &'static str,
    /// Of these mutants in a crate, the first and then every nth are run unless all are asked for. It is odd where
    /// the edits come in pairs, so that both of a pair have their turn.
    pub step: usize,
    pub edits: fn(&Code, &Part) -> Vec<Edit>,
}

impl Kind {
    const fn new(name: &'static str, step: usize, edits: fn(&Code, &Part) -> Vec<Edit>) -> Kind {
        Kind { name, step, edits }
    }
}

pub static KINDS: [Kind; 11] = [
    Kind::new("comparison", 2, operators::comparisons),
    Kind::new("arithmetic", 2, operators::arithmetic),
    Kind::new("boolean", 1, operators::booleans),
    Kind::new("constant", 5, constants::off_by_one),
    Kind::new("refusal", 1, refusals::other_reason),
    Kind::new("indices", 1, order::indices),
    Kind::new("arguments", 5, order::arguments),
    Kind::new("guards", 1, statements::swapped_guards),
    Kind::new("dropped", 2, statements::dropped),
    Kind::new("return", 3, returns::at_once),
    Kind::new("condition", 5, conditions::fixed),
];
