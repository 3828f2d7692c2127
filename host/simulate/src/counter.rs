//! The program of the sound cards of a run.

use generate::Shape;
use second::card;
use second::lag::lag;

/// One card's step and the lag of two counts, as a program has them.
#[derive(Clone, Copy)]
pub struct Counter {
    /// The next record of a card that hears these n records.
    pub step: fn(Shape, usize, &[u16]) -> Vec<u16>,
    /// The lag of one count against another.
    pub lag: fn(Shape, u16, u16) -> i32,
}

/// The second implementation.
pub const SECOND: Counter = Counter {
    step: |Shape { n, f, c }, card, heard| {
        let mut next = vec![0; Shape { n, f, c }.words()];
        card::step(n, f, c, card as u32, heard, &mut next).expect("a table is within the rules");
        next
    },
    lag: |shape, one, other| {
        lag(shape.c, one.into(), other.into()).expect("counts are below the modulus")
    },
};
