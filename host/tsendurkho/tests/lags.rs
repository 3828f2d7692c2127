//! The proved lag against the words of RULES 8 and the second implementation.

mod common;

use common::rack;
use generate::calls::{Call, LagCall};
use generate::Random;

/// "the number congruent to x - y modulo c that is above -c/2 and at most c/2", taken literally.
fn is_the_lag(c: u32, x: u16, y: u16, lag: i32) -> bool {
    let (c, x, y, lag) = (i64::from(c), i64::from(x), i64::from(y), i64::from(lag));
    (lag - (x - y)) % c == 0 && -c < 2 * lag && 2 * lag <= c
}

/// The lag by a rack of one card, which is as its rule says.
fn lag(c: u32, x: u16, y: u16) -> i32 {
    let rack = rack(1, 0, c).expect("the modulus is within the limits");
    let lag = rack.lag(x, y).expect("both counts are below the modulus");
    assert!(
        is_the_lag(c, x, y, lag),
        "{lag} for {x} against {y} modulo {c}"
    );
    lag
}

#[test]
fn all_pairs_of_small_moduli() {
    for c in 2..=48 {
        for x in 0..c {
            for y in 0..c {
                lag(c.into(), x, y);
            }
        }
    }
}

#[test]
fn many_pairs_of_any_modulus() {
    let mut random = Random::new(1);
    for _ in 0..100_000 {
        let mut call = LagCall::sound(&mut random);
        let LagCall { c, x, y } = call;
        assert_eq!(call.make(), Ok(lag(c, x as u16, y as u16)));
    }
}

#[test]
fn every_rack_of_a_modulus_has_its_lags() {
    for (n, f) in [(1, 0), (4, 1), (16, 5)] {
        let rack = rack(n, f, 1_000).expect("the shape is within the limits");
        assert_eq!([rack.lag(999, 1), rack.lag(1, 999)], [Ok(-2), Ok(2)]);
    }
}
