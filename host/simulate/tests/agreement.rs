//! The sound cards agree by T(f), whatever the broken ones send.

use std::collections::BTreeSet;

use generate::{Random, Shape};
use simulate::cooldown::RIGHT;
use simulate::plan::{Lies, Plan};
use simulate::start::Start;
use simulate::strategy::STRATEGIES;
use simulate::survey::{late, latest, Survey};

#[test]
fn runs_of_every_f_agree_in_time() {
    let survey = Survey::new(RIGHT, 200);
    assert_eq!(late(&survey.outcomes), []);
    for f in 0..=5 {
        let last = latest(&survey.with_f(f)).unwrap();
        assert!(last.together_since.unwrap() <= last.bound);
    }
}

#[test]
fn every_kind_of_lie_ends_in_agreement_for_every_f() {
    let alike = STRATEGIES.map(Lies::Alike);
    for f in 0..=5 {
        for (seed, &lies) in alike.iter().chain(&[Lies::Mixed]).enumerate() {
            let n = 3 * f + 1;
            let plan = Plan::new(Shape { n, f, c: 7 }, lies, Random::new(seed as u64));
            let bound = plan.bound();
            let since = plan.together_since(RIGHT, bound + 20);
            assert!(since.unwrap() <= bound, "{}, f {f}", lies.name());
        }
    }
}

#[test]
fn agreement_is_counted_from_its_first_beat() {
    // From all none the first card's a is read as 0, and all show 1 after one beat.
    let shape = Shape { n: 3, f: 0, c: 5 };
    let mut plans = (0..100).map(|seed| Plan::new(shape, Lies::Mixed, Random::new(seed)));
    let plan = plans.find(|plan| plan.start == Start::AllNone).unwrap();
    assert_eq!(plan.together_since(RIGHT, 20), Some(1));
}

#[test]
fn the_runs_reach_every_shape_every_start_and_every_kind_of_lie() {
    let mut shapes = BTreeSet::new();
    let mut moduli = BTreeSet::new();
    let mut starts = BTreeSet::new();
    let mut lies = BTreeSet::new();
    for plan in (0..2_000).map(Plan::of) {
        shapes.insert((plan.shape.n, plan.shape.f));
        moduli.insert(plan.shape.c);
        starts.insert(format!("{:?}", plan.start));
        lies.insert(plan.lies());
    }
    assert_eq!(shapes.len(), Shape::each(&mut Random::new(0)).len());
    assert!(moduli.is_superset(&BTreeSet::from([2, 3, 65_535])));
    assert_eq!(starts.len(), Start::ALL.len());
    // Each strategy, mixed, directed, and nobody.
    assert_eq!(lies.len(), STRATEGIES.len() + 3);
}

#[test]
fn the_same_seeds_give_the_same_outcomes() {
    let [once, again] = [(); 2].map(|()| Survey::new(RIGHT, 12).outcomes);
    assert_eq!(once.len(), 12);
    assert_eq!(once, again);
}
