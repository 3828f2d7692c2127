//! The words that runs start from.

use generate::{Random, Shape};
use simulate::cooldown::RIGHT;
use simulate::level::Level;
use simulate::liars::Liars;
use simulate::scene::Scene;
use simulate::start::{settled, Start};
use simulate::strategy::STRATEGIES;

/// The beats, of the first 100, after which sound cards without a liar show the same count.
fn common_counts(shape: Shape, start: Vec<u16>) -> Vec<Option<u16>> {
    let mut scene = Scene::new(shape, 0, start, RIGHT);
    let mut nobody = Liars::new(STRATEGIES.to_vec(), Random::new(0));
    let mut counts = vec![scene.common_count()];
    for _ in 0..100 {
        scene.advance(&mut nobody);
        counts.push(scene.common_count());
    }
    counts
}

#[test]
fn a_settled_state_counts_on() {
    let mut random = Random::new(1);
    for shape in Shape::each(&mut random) {
        let start = settled(shape, &mut random);
        let counts = common_counts(shape, start);
        let first = u32::from(counts[0].unwrap());
        for (beat, count) in (0..).zip(counts) {
            assert_eq!(count.map(u32::from), Some((first + beat) % shape.c));
        }
    }
}

#[test]
fn every_half_of_a_settled_state_is_trusted() {
    let mut random = Random::new(2);
    for shape in Shape::each(&mut random) {
        let table = settled(shape, &mut random);
        assert_eq!(table.len(), shape.table_words());
        for (card, record) in table.chunks_exact(shape.words()).enumerate() {
            for level in Level::path(shape, card)
                .iter()
                .filter(|level| level.group.is_split())
            {
                assert!(level.observed(record).iter().all(Option::is_some));
            }
        }
    }
}

#[test]
fn the_other_starts_are_not_settled() {
    let shape = Shape {
        n: 10,
        f: 3,
        c: 1000,
    };
    for start in Start::ALL {
        let table = start.table(shape, &mut Random::new(3));
        assert_eq!(table.len(), shape.table_words());
        assert_eq!(common_counts(shape, table)[0], None, "{start:?}");
    }
}
