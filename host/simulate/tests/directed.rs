//! The directed adversary: what it does to the cards, and that it is still too weak.

use generate::{Random, Shape};
use simulate::cooldown::{Cooldown, RIGHT, TOO_SOON};
use simulate::directed::Directed;
use simulate::level::Level;
use simulate::plan::{Lies, Plan};
use simulate::scene::Scene;
use simulate::start::Start;

fn shape(f: u32) -> Shape {
    Shape {
        n: 3 * f + 1,
        f,
        c: 1000,
    }
}

/// T(f), and when the cards agree in the runs with these seeds.
fn runs(f: u32, cooldown: Cooldown, seeds: u64) -> (usize, Vec<Option<usize>>) {
    let plan = |seed| Plan::new(shape(f), Lies::Directed, Random::new(seed));
    let bound = plan(0).bound();
    let run = |seed| plan(seed).together_since(cooldown, bound + 20);
    (bound, (0..seeds).map(run).collect())
}

/// How many cards of a group are broken.
fn broken_in(level: Level, broken: u32) -> usize {
    level.cards().filter(|card| broken >> card & 1 == 1).count()
}

/// The half with more broken cards than it bears.
fn bad_half(level: Level, broken: u32) -> usize {
    let bad = |&i: &usize| broken_in(level.half(i), broken) > level.half(i).group.f;
    (0..2).find(bad).expect("one half is bad")
}

#[test]
fn it_breaks_f_cards_and_one_half() {
    for f in 1..=5 {
        for seed in 0..20 {
            let mut random = Random::new(seed);
            let level = Level::outermost(shape(f));
            let broken = Directed::new(level, &mut random).broken(&mut random);
            assert_eq!(broken.count_ones(), f);
            let good = level.half(1 - bad_half(level, broken));
            assert_eq!(broken_in(good, broken), good.group.f);
        }
    }
}

#[test]
fn the_cards_agree_in_time_all_the_same() {
    for (f, seeds) in [(1, 40), (2, 20), (3, 15), (4, 8), (5, 6)] {
        let (bound, beats) = runs(f, RIGHT, seeds);
        for (seed, since) in beats.iter().enumerate() {
            assert!(since.unwrap() <= bound, "f {f}, seed {seed}");
        }
    }
}

#[test]
fn it_delays_them_past_three_quarters_of_the_time() {
    for (f, seeds) in [(1, 40), (2, 20), (3, 15)] {
        let (bound, beats) = runs(f, RIGHT, seeds);
        let latest = beats.into_iter().flatten().max().unwrap();
        assert!(4 * latest > 3 * bound, "f {f}: {latest} of {bound}");
    }
}

#[test]
fn it_keeps_them_apart_where_the_cooldown_restarts_too_soon() {
    for (f, seeds) in [(1, 40), (2, 20)] {
        let (_, beats) = runs(f, TOO_SOON, seeds);
        assert!(beats.contains(&None), "f {f}");
    }
}

#[test]
fn only_the_bad_half_comes_to_trust_its_counter() {
    for f in 1..=4 {
        for seed in 0..4 {
            let mut random = Random::new(seed);
            let level = Level::outermost(shape(f));
            let start = Start::AnyWords.table(shape(f), &mut random);
            let mut directed = Directed::new(level, &mut random);
            let broken = directed.broken(&mut random);
            let mut scene = Scene::new(shape(f), broken, start, RIGHT);
            let bad = bad_half(level, broken);
            let sound_in_bad: Vec<_> = scene
                .sound_cards()
                .filter(|&card| level.half_of(card) == bad)
                .collect();

            let mut trusting = Vec::new();
            // A cooldown of 12t, and time for the start to be forgotten.
            while scene.beat < 14 * 3 * (f as usize + 2) {
                scene.advance(&mut directed);
                let trusts = |&card: &usize| level.observed(scene.record(card))[bad].is_some();
                trusting.push(scene.sound_cards().filter(trusts).collect());
            }
            trusting.retain(|cards: &Vec<_>| !cards.is_empty());
            assert!(!trusting.is_empty(), "f {f}, seed {seed}");
            assert!(trusting.iter().all(|cards| *cards == sound_in_bad));
        }
    }
}
