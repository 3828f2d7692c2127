//! Groups within groups as places: which cards a group has, and where its words stand.

use std::ops::Range;

use generate::Shape;
use second::count;
use second::group::Group;
use second::split;

/// One group of a run: the outermost, or a half, or a half of a half.
#[derive(Clone, Copy, Debug)]
pub struct Level {
    pub group: Group,
    first_card: usize,
    first_word: usize,
}

impl Level {
    pub fn outermost(shape: Shape) -> Level {
        let Shape { n, f, c } = shape;
        Level {
            group: Group::outermost(n, f, c).expect("a shape is within the limits"),
            first_card: 0,
            first_word: 0,
        }
    }

    pub fn half(self, i: usize) -> Level {
        Level {
            group: self.group.half(i),
            first_card: self.first_card + self.group.cards_of_half(i).start,
            first_word: self.first_word + split::WORDS,
        }
    }

    /// The groups that a card belongs to, outermost first. All but the last are split.
    pub fn path(shape: Shape, card: usize) -> Vec<Level> {
        let mut level = Level::outermost(shape);
        let mut path = vec![level];
        while level.group.is_split() {
            level = level.half(level.half_of(card));
            path.push(level);
        }
        path
    }

    /// Its cards, numbered as in the outermost group.
    pub fn cards(self) -> Range<usize> {
        self.first_card..self.first_card + self.group.n
    }

    pub fn has(self, card: usize) -> bool {
        self.cards().contains(&card)
    }

    /// The half that one of its cards belongs to.
    pub fn half_of(self, card: usize) -> usize {
        self.group.half_of(card - self.first_card)
    }

    /// Whether two cards belong to one half of this group.
    pub fn has_in_one_half(self, one: usize, other: usize) -> bool {
        self.has(one) && self.has(other) && self.half_of(one) == self.half_of(other)
    }

    /// Where one of its words m0 m1 M0 M1 w0 w1 a b is in a record.
    pub fn word(self, place: usize) -> usize {
        self.first_word + place
    }

    /// Where its word a is in a record.
    pub fn output_word(self) -> usize {
        self.word(if self.group.is_split() { split::A } else { 0 })
    }

    pub fn output(self, record: &[u16]) -> Option<u16> {
        self.group.output(&record[self.first_word..])
    }

    /// d0 and d1 as the holder of a record has them: its votes, where the cooldown is over.
    pub fn observed(self, record: &[u16]) -> [Option<u16>; 2] {
        [0, 1].map(|i| {
            let vote = record[self.word(split::BIG_M + i)];
            let cooldown = record[self.word(split::W + i)];
            count::read(vote, self.group.half(i).c).filter(|_| cooldown == 0)
        })
    }

    /// d as a card with this record has it: it names the step and the king.
    pub fn round(self, card: usize, record: &[u16]) -> u16 {
        split::round(self.group.f, self.half_of(card), self.observed(record))
    }

    /// Whether a card with this record takes itself for the king.
    pub fn is_king(self, card: usize, record: &[u16]) -> bool {
        self.first_card + usize::from(self.round(card, record) / 3) == card
    }

    /// Where its counts are in a record, each with its modulus.
    fn counts(self) -> Vec<(usize, u16)> {
        let mut counts = vec![(self.output_word(), self.group.c)];
        if self.group.is_split() {
            for i in [0, 1] {
                let modulus = self.group.half(i).c;
                counts.push((self.word(split::SMALL_M + i), modulus));
                counts.push((self.word(split::BIG_M + i), modulus));
            }
        }
        counts
    }
}

/// A record with every count moved by that many steps; none stays.
pub fn moved(path: &[Level], record: &[u16], steps: i32) -> Vec<u16> {
    let mut moved = record.to_vec();
    for (place, modulus) in path.iter().flat_map(|level| level.counts()) {
        if record[place] < modulus {
            moved[place] = stepped(record[place], modulus, steps);
        }
    }
    moved
}

/// A count moved by that many steps, modulo its modulus.
pub fn stepped(count: u16, modulus: u16, steps: i32) -> u16 {
    (i32::from(count) + steps).rem_euclid(i32::from(modulus)) as u16
}
