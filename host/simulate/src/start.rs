//! The words that the cards hold when a run starts.

use generate::{Random, Shape};
use second::count::NONE;
use second::split;

use crate::level::{moved, stepped, Level};

/// A style of starting words.
#[derive(Clone, Copy, Debug, PartialEq, Eq)]
pub enum Start {
    AnyWords,
    NearTheModuli,
    AllNone,
    SomePutOff,
    TwoCamps,
}

impl Start {
    pub const ALL: [Start; 5] = [
        Start::AnyWords,
        Start::NearTheModuli,
        Start::AllNone,
        Start::SomePutOff,
        Start::TwoCamps,
    ];

    pub fn table(self, shape: Shape, random: &mut Random) -> Vec<u16> {
        let words = 0..shape.table_words();
        match self {
            Start::AnyWords => words.map(|_| random.word()).collect(),
            Start::NearTheModuli => words.map(|_| shape.word(random)).collect(),
            Start::AllNone => words.map(|_| NONE).collect(),
            Start::SomePutOff => some_put_off(shape, random),
            Start::TwoCamps => two_camps(shape, random),
        }
    }
}

/// A settled state, but the counts of about every third card are one ahead.
fn some_put_off(shape: Shape, random: &mut Random) -> Vec<u16> {
    let table = settled(shape, random);
    let records = table.chunks_exact(shape.words()).enumerate();
    records
        .flat_map(|(card, record)| {
            let steps = i32::from(random.one_in(3));
            moved(&Level::path(shape, card), record, steps)
        })
        .collect()
}

/// Two settled states that differ; each card is in one of them.
fn two_camps(shape: Shape, random: &mut Random) -> Vec<u16> {
    let camps = [settled(shape, random), settled(shape, random)];
    let mut table = Vec::new();
    for card in 0..shape.n as usize {
        let record = card * shape.words()..(card + 1) * shape.words();
        table.extend_from_slice(&camps[random.below(2)][record]);
    }
    table
}

/// A state in which all groups have counted together for long.
pub fn settled(shape: Shape, random: &mut Random) -> Vec<u16> {
    let mut table = vec![0; shape.table_words()];
    let count = random.below(shape.c as usize) as u16;
    let mut records: Vec<_> = table.chunks_exact_mut(shape.words()).collect();
    settle(Level::outermost(shape), count, &mut records, random);
    table
}

fn settle(level: Level, count: u16, records: &mut [&mut [u16]], random: &mut Random) {
    for card in level.cards() {
        records[card][level.output_word()] = count;
    }
    if !level.group.is_split() {
        return;
    }
    for i in [0, 1] {
        let half = level.half(i);
        let modulus = half.group.c;
        let output = random.below(usize::from(modulus)) as u16;
        for card in level.cards() {
            // An output is an m one beat later and a vote two beats later.
            records[card][level.word(split::SMALL_M + i)] = stepped(output, modulus, -1);
            records[card][level.word(split::BIG_M + i)] = stepped(output, modulus, -2);
            records[card][level.word(split::B)] = 1;
        }
        settle(half, output, records, random);
    }
}
