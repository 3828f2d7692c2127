//! Shapes of racks that antt works through in a moment.

use generate::{Random, Shape};
use second::group::Group;
use second::params::MOST_CARDS;

/// A shape with at most that many cards, and rarely a large modulus: the smallest count heard more
/// than f times is defined by a walk through all counts.
pub fn small_shape(random: &mut Random, cards: u32) -> Shape {
    loop {
        let shape = Shape::random(random);
        if shape.n <= cards && (shape.c <= 100 || random.one_in(20)) {
            return shape;
        }
    }
}

/// The shape of a group that is split.
pub fn split_shape(random: &mut Random) -> Shape {
    loop {
        let shape = small_shape(random, MOST_CARDS);
        if shape.f > 0 {
            return shape;
        }
    }
}

/// A group that is split.
pub fn split_group(random: &mut Random) -> Group {
    let Shape { n, f, c } = split_shape(random);
    Group::outermost(n, f, c).expect("a drawn shape is within the limits")
}
