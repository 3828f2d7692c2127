//! The three steps by which the cards of a split group come to one count.

use crate::count;
use crate::group::Group;

/// A card's words a and b for a split group.
#[derive(Clone, Copy, Debug, PartialEq, Eq)]
pub struct Output {
    pub a: Option<u16>,
    pub b: bool,
}

/// RULES 5.6: "d modulo 3 picks the step, and the king is card d/3 of the group." `heard` is the
/// a of every card of the group. "After each step a count gains 1 modulo c; none stays none."
pub fn step(group: Group, d: u16, own: Output, heard: &[Option<u16>]) -> Output {
    let king = heard[usize::from(d / 3)];
    let Output { a, b } = match d % 3 {
        0 => drop_if_rare(group, own, heard),
        1 => adopt_frequent(group, own, heard),
        _ => obey_king(own, king),
    };
    Output {
        a: a.map(|count| count::next(count, group.c)),
        b,
    }
}

/// Step 0: "If fewer than n-f cards sent this card's a, a becomes none. b stays."
fn drop_if_rare(group: Group, own: Output, heard: &[Option<u16>]) -> Output {
    let a = own.a.filter(|_| is_common(group, own.a, heard));
    Output { a, ..own }
}

/// Step 1: "b becomes 1 if at least n-f cards sent this card's old a, else 0; here none is
/// compared as if it were a value. a becomes the smallest count heard more than f times, or none
/// if there is no such count."
fn adopt_frequent(group: Group, own: Output, heard: &[Option<u16>]) -> Output {
    let frequent = |&count: &u16| count::times(Some(count), heard) > group.f;
    Output {
        a: heard.iter().flatten().copied().filter(frequent).min(),
        b: is_common(group, own.a, heard),
    }
}

/// Step 2: "If a is none or b is 0, a becomes the king's a, or 0 if the king has none. b becomes 1."
fn obey_king(own: Output, king: Option<u16>) -> Output {
    let kept = own.a.filter(|_| own.b);
    Output {
        a: kept.or_else(|| king.or(Some(0))),
        b: true,
    }
}

/// Whether at least n-f cards sent `wanted`.
fn is_common(group: Group, wanted: Option<u16>, heard: &[Option<u16>]) -> bool {
    count::times(wanted, heard) >= group.quorum()
}
