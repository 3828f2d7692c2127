//! The proved step against the second implementation, on single tables and on whole runs.

mod common;

use common::rack;
use generate::{Random, Shape};
use second::beat::is_broken;
use second::params;
use tsendurkho::Rack;

/// Tables for each n, f and c.
const TABLES: usize = 40;

/// Every allowed n and f, each with the least moduli, the largest and any other.
fn shapes(random: &mut Random) -> Vec<Shape> {
    let mut shapes = Vec::new();
    for shape in Shape::each(random) {
        let any = random.between(params::LEAST_MODULUS, params::MOST_MODULUS);
        shapes.extend([2, 3, params::MOST_MODULUS, any].map(|c| Shape { c, ..shape }));
    }
    shapes
}

fn rack_of(shape: Shape) -> Rack {
    rack(shape.n, shape.f, shape.c).expect("a generated shape is within the limits")
}

fn proved(shape: Shape, card: u32, table: &[u16]) -> Vec<u16> {
    let rack = rack_of(shape);
    let card = rack
        .card(card)
        .expect("a generated card is one of the rack");
    rack.step(card, table)
        .expect("a generated step is within the rules")
}

fn second(shape: Shape, card: u32, table: &[u16]) -> Vec<u16> {
    let Shape { n, f, c } = shape;
    let mut next = vec![0; shape.words()];
    second::card::step(n, f, c, card, table, &mut next)
        .expect("a generated step is within the rules");
    next
}

#[test]
fn every_card_of_many_tables_steps_alike() {
    let mut random = Random::new(1);
    let mut steps = 0;
    for shape in shapes(&mut random) {
        for _ in 0..TABLES {
            let table = shape.table(&mut random);
            for card in 0..shape.n {
                let (next, wanted) = (proved(shape, card, &table), second(shape, card, &table));
                assert_eq!(next, wanted, "{shape:?}, card {card}, {table:?}");
                steps += 1;
            }
        }
    }
    assert!(steps >= 80_000, "{steps} steps");
}

#[test]
fn cards_that_hear_any_words_step_alike() {
    let mut random = Random::new(2);
    for shape in shapes(&mut random) {
        for _ in 0..TABLES {
            let words = (0..shape.table_words()).map(|_| random.word());
            let table: Vec<u16> = words.collect();
            let card = random.between(0, shape.n - 1);
            assert_eq!(proved(shape, card, &table), second(shape, card, &table));
        }
    }
}

/// What a card hears: each sound card's record as held, each broken card's as sent to it.
fn heard(shape: Shape, broken: u32, table: &[u16], sent: &[u16], card: usize) -> Vec<u16> {
    let words = shape.words();
    let mut heard = table.to_vec();
    let to_card = broken.count_ones() as usize * words;
    let mut sent_to_card = sent[card * to_card..].chunks_exact(words);
    for sender in 0..shape.n as usize {
        if is_broken(broken, sender) {
            let record = sent_to_card.next().expect("a record from each broken card");
            heard[sender * words..(sender + 1) * words].copy_from_slice(record);
        }
    }
    heard
}

/// One beat of all sound cards, by the proved step.
fn beat(shape: Shape, broken: u32, table: &[u16], sent: &[u16]) -> Vec<u16> {
    let records = table.chunks_exact(shape.words()).enumerate();
    let next = records.flat_map(|(card, held)| {
        if is_broken(broken, card) {
            held.to_vec()
        } else {
            let heard = heard(shape, broken, table, sent, card);
            proved(shape, card as u32, &heard)
        }
    });
    next.collect()
}

/// The counts that the sound cards show.
fn counts(shape: Shape, broken: u32, table: &[u16]) -> Vec<Option<u16>> {
    let rack = rack_of(shape);
    let records = table.chunks_exact(rack.record_words()).enumerate();
    let sound = records.filter(|(card, _)| !is_broken(broken, *card));
    let shown = sound.map(|(_, record)| rack.shown_count(record));
    shown
        .map(|count| count.expect("a record has W words"))
        .collect()
}

/// From any start, through all beats to T(f) and some after it, as the second implementation
/// has it; and from T(f) on the sound cards show one count, one more on each beat.
fn runs_and_settles(shape: Shape, random: &mut Random) {
    let settled = rack_of(shape).settle_beats();
    let broken = (1 << shape.f) - 1;
    let mut table: Vec<u16> = (0..shape.table_words()).map(|_| random.word()).collect();
    let mut last = None;
    for beats in 1..=settled + 30 {
        let sent = shape.sent(random, broken, &table);
        let next = beat(shape, broken, &table, &sent);
        let wanted = shape.after_beat(broken, &table, &sent);
        assert_eq!(next, wanted, "{shape:?}, beat {beats}");
        table = next;
        if beats >= settled {
            let counts = counts(shape, broken, &table);
            let first = counts[0].expect("a settled card shows a count");
            let count = last.map_or(first, |last| (last + 1) % shape.c as u16);
            assert_eq!(
                counts,
                vec![Some(count); counts.len()],
                "{shape:?}, beat {beats}"
            );
            last = Some(count);
        }
    }
}

#[test]
fn runs_from_any_start_settle_in_time() {
    let mut random = Random::new(3);
    for f in 0..=params::MOST_BROKEN {
        for n in [3 * f + 1, params::MOST_CARDS] {
            for c in [2, 1_000] {
                runs_and_settles(Shape { n, f, c }, &mut random);
            }
        }
    }
}
