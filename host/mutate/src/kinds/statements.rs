//! Statements left out, and neighbouring guards in the other order.

use crate::code::{Code, Part};
use crate::edit::Edit;

pub fn dropped(code: &Code, part: &Part) -> Vec<Edit> {
    let statements = code.statements_by_block(&part.range).concat();
    let statements = statements.iter().filter(|statement| code.can_go(statement));
    statements
        .map(|statement| Edit::new(code.place(statement), ""))
        .collect()
}

pub fn swapped_guards(code: &Code, part: &Part) -> Vec<Edit> {
    let mut edits = Vec::new();
    for statements in code.statements_by_block(&part.range) {
        for pair in statements.windows(2) {
            let (first, second) = (&pair[0], &pair[1]);
            if code.is_guard(first) && code.is_guard(second) {
                edits.push(Edit::swap(code.text, code.place(first), code.place(second)));
            }
        }
    }
    edits
}
