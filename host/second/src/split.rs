//! One beat of one card in a split group: the halves observed, the pointer followed.

use std::cmp::Reverse;

use crate::count;
use crate::group::Group;
use crate::king::{self, Output};
use crate::params;

/// Where the eight words m0 m1 M0 M1 w0 w1 a b stand; a half's words follow them.
pub const SMALL_M: usize = 0;
pub const BIG_M: usize = 2;
pub const W: usize = 4;
pub const A: usize = 6;
pub const B: usize = 7;
pub const WORDS: usize = 8;

/// What a card itself keeps for a split group, apart from its m0 and m1.
#[derive(Clone, Copy)]
struct Kept {
    votes: [Option<u16>; 2],
    cooldowns: [u16; 2],
    output: Output,
}

impl Kept {
    /// RULES 4.2: "A w above 2·c1 is 2·c1." "A b other than 1 is 0."
    fn read(group: Group, record: &[u16]) -> Kept {
        let vote = |i: usize| count::read(record[BIG_M + i], group.half(i).c);
        let cooldown = |i: usize| record[W + i].min(params::restart(group.f));
        Kept {
            votes: [vote(0), vote(1)],
            cooldowns: [cooldown(0), cooldown(1)],
            output: Output {
                a: group.output(record),
                b: record[B] == 1,
            },
        }
    }

    /// RULES 5.5: "di is Mi if wi is 0, else none".
    fn observed(&self) -> [Option<u16>; 2] {
        [0, 1].map(|i| self.votes[i].filter(|_| self.cooldowns[i] == 0))
    }
}

/// RULES 5: "Everything on the right of a rule is from before the beat": all reading is from `heard`.
pub fn step(group: Group, card: usize, heard: &[&[u16]], next: &mut [u16]) {
    let kept = Kept::read(group, heard[card]);
    for i in [0, 1] {
        observe_half(group, i, &kept, heard, next);
    }

    let own_half = group.half_of(card);
    let d = round(group.f, own_half, kept.observed());
    let outputs: Vec<_> = heard.iter().map(|record| group.output(record)).collect();
    let output = king::step(group, d, kept.output, &outputs);
    next[A] = count::write(output.a);
    next[B] = u16::from(output.b);

    // RULES 5.7: "The card's own half also steps, as a group, on the records of that half."
    let card_in_half = card - group.cards_of_half(own_half).start;
    let heard_in_half = records_of_half(group, own_half, heard);
    let half = group.half(own_half);
    half.step(card_in_half, &heard_in_half, &mut next[WORDS..]);
}

/// Writes the new mi, Mi and wi.
fn observe_half(group: Group, i: usize, kept: &Kept, heard: &[&[u16]], next: &mut [u16]) {
    let half = group.half(i);
    let records = records_of_half(group, i, heard);
    let outputs: Vec<_> = records.iter().map(|record| half.output(record)).collect();
    let sent: Vec<_> = heard
        .iter()
        .map(|record| count::read(record[SMALL_M + i], half.c))
        .collect();

    let new_vote = vote(group.quorum(), &sent);
    next[SMALL_M + i] = most_frequent(&outputs);
    next[BIG_M + i] = count::write(new_vote);
    next[W + i] = cooldown(group, i, kept.votes[i], new_vote, kept.cooldowns[i]);
}

/// What is heard of half i: its cards' records from the half's own words on.
fn records_of_half<'a>(group: Group, i: usize, heard: &[&'a [u16]]) -> Vec<&'a [u16]> {
    heard[group.cards_of_half(i)]
        .iter()
        .map(|record| &record[WORDS..])
        .collect()
}

/// RULES 5.2: "the most frequent output among the cards of half i. None is not counted. On a tie
/// it is the smallest; if nothing counts it is 0."
pub fn most_frequent(outputs: &[Option<u16>]) -> u16 {
    let counted = outputs.iter().flatten().copied();
    counted
        .max_by_key(|&output| (count::times(Some(output), outputs), Reverse(output)))
        .unwrap_or(0)
}

/// RULES 5.3: "the value of mi that at least n-f cards of the group sent, else none."
pub fn vote(quorum: usize, sent: &[Option<u16>]) -> Option<u16> {
    let mut counted = sent.iter().flatten().copied();
    counted.find(|&value| count::times(Some(value), sent) >= quorum)
}

/// RULES 5.4: "If the old Mi and the new Mi are both counts, and the new one is the old one plus
/// 1 modulo ci, then wi becomes 1 less, but not below 0. Otherwise wi becomes 2·c1."
pub fn cooldown(group: Group, i: usize, old: Option<u16>, new: Option<u16>, w: u16) -> u16 {
    let awaited = old.map(|count| count::next(count, group.half(i).c));
    if awaited.is_some() && new == awaited {
        w.saturating_sub(1)
    } else {
        params::restart(group.f)
    }
}

/// RULES 5.5: "The pointer pi is di divided by 3^i·t; it is none if di is none."
pub fn pointer(f: usize, i: usize, observed: Option<u16>) -> Option<usize> {
    observed.map(|d| usize::from(d / ([1, 3][i] * params::t(f))))
}

/// The phase of a card of the given half. RULES 5.5: "A card of half i follows pi, or the other
/// half's pointer if pi is none." "If it follows the pointer p, its phase d is dp modulo t. If
/// there is no pointer, or dp is none, d is 0."
pub fn round(f: usize, half: usize, observed: [Option<u16>; 2]) -> u16 {
    let pointer_of = |i: usize| pointer(f, i, observed[i]);
    let followed = pointer_of(half).or_else(|| pointer_of(1 - half));
    let d = followed.and_then(|p| observed[p]);
    d.map_or(0, |d| d % params::t(f))
}
