//! Groups within groups.

use std::ops::Range;

use crate::count;
use crate::params::{self, check_cards, check_modulus};
use crate::refusal::Refusal;
use crate::split;

/// A group of cards, numbered from 0 within it.
#[derive(Clone, Copy, Debug, PartialEq, Eq)]
pub struct Group {
    /// Its cards.
    pub n: usize,
    /// How many of them may be broken.
    pub f: usize,
    /// The modulus it counts by.
    pub c: u16,
}

impl Group {
    /// The group of all cards; tests 1, 2 and 3.
    pub fn outermost(n: u32, f: u32, c: u32) -> Result<Group, Refusal> {
        check_cards(n, f)?;
        check_modulus(c)?;
        Ok(Group {
            n: n as usize,
            f: f as usize,
            c: c as u16,
        })
    }

    /// RULES 3: "A group with f = 0 counts by its first member. Any other group is split".
    pub fn is_split(self) -> bool {
        self.f > 0
    }

    /// The cards of half i: half 0 has "the first n/2", half 1 "the rest" (RULES 3).
    pub fn cards_of_half(self, i: usize) -> Range<usize> {
        let middle = self.n / 2;
        if i == 0 {
            0..middle
        } else {
            middle..self.n
        }
    }

    /// The half a card belongs to.
    pub fn half_of(self, card: usize) -> usize {
        usize::from(card >= self.n / 2)
    }

    /// Half i as a group: f0 = (f-1)/2 rounded down and c0, or f1 = (f-1)/2 rounded up, which
    /// is f/2 rounded down, and c1.
    pub fn half(self, i: usize) -> Group {
        Group {
            n: self.cards_of_half(i).len(),
            f: [(self.f - 1) / 2, self.f / 2][i],
            c: [params::c0(self.f), params::c1(self.f)][i],
        }
    }

    /// The strong majority, n-f cards.
    pub fn quorum(self) -> usize {
        self.n - self.f
    }

    /// RULES 4.1: "the group's output: the count, or none", as shown or counted by the group around it.
    pub fn output(self, record: &[u16]) -> Option<u16> {
        let word = if self.is_split() { split::A } else { 0 };
        count::read(record[word], self.c)
    }

    /// One beat of one card. `heard` has each card's record from this group's words on;
    /// `next` takes the card's words from there on.
    pub fn step(self, card: usize, heard: &[&[u16]], next: &mut [u16]) {
        if self.is_split() {
            split::step(self, card, heard, next);
        } else {
            self.follow_first_member(heard[0], next);
        }
    }

    /// RULES 5.1: "a becomes the first member's a plus 1, modulo c"; out of range it is read as 0.
    fn follow_first_member(self, first: &[u16], next: &mut [u16]) {
        let a = self.output(first).unwrap_or(0);
        next[0] = count::next(a, self.c);
        // RULES 4.1: "Words beyond these are written 0".
        next[1..].fill(0);
    }
}
