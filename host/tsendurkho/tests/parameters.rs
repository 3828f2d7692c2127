//! W and T(f) against the table of RULES 2.3 and the second implementation.

mod common;

use common::rack;
use second::params;
use tsendurkho::{record_words, settle_beats};

const ALLOWED: [u32; 6] = [0, 1, 2, 3, 4, 5];

#[test]
fn they_are_those_of_the_table() {
    assert_eq!(ALLOWED.map(record_words), [1, 9, 17, 17, 25, 25]);
    assert_eq!(ALLOWED.map(settle_beats), [1, 192, 446, 509, 826, 889]);
}

#[test]
fn they_are_known_where_a_program_is_compiled() {
    const RECORD: [u16; record_words(2)] = [0; record_words(2)];
    const BEATS: u64 = settle_beats(5);
    assert_eq!((RECORD.len(), BEATS), (17, 889));
}

#[test]
fn they_are_the_second_implementations() {
    for f in 0..=20_000 {
        assert_eq!(record_words(f), params::words(f as usize), "W of {f}");
        assert_eq!(
            settle_beats(f),
            params::settled(f as usize) as u64,
            "T of {f}"
        );
    }
}

#[test]
fn the_largest_number_has_them_too() {
    assert_eq!(record_words(u32::MAX), 8 * 32 + 1);
    let half = u64::from(u32::MAX / 2);
    let settled_half = settle_beats(u32::MAX / 2);
    assert!(settled_half > 63 * half);
    assert_eq!(
        settle_beats(u32::MAX),
        settled_half + 2 + 63 * (u64::from(u32::MAX) + 2)
    );
}

#[test]
fn a_rack_has_those_of_its_f() {
    for f in ALLOWED {
        let rack = rack(16, f, 8).expect("sixteen cards may have any allowed f");
        assert_eq!(rack.record_words(), record_words(f));
        assert_eq!(rack.settle_beats(), settle_beats(f));
    }
}
