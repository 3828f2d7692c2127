//! Whole steps worked out by hand, each set so that one easy mistake changes the answer.

use second::card::step;

/// n=4, f=1, c=8: t = 9, c0 = 18, c1 = 54, the cooldown restarts at 108. A record is
/// m0 m1 M0 M1 w0 w1 a b and the half's own a. Half 0 is cards 0 and 1.
type Record = [u16; 9];

fn after(card: usize, records: [Record; 4]) -> Record {
    let mut out = [77; 9];
    step(4, 1, 8, card as u32, &records.concat(), &mut out).unwrap();
    out
}

/// Four records alike but for the halves' own a: 6 in half 0, 21 in half 1.
fn alike(m: [u16; 2], big_m: [u16; 2], w: [u16; 2], a: u16, b: u16) -> [Record; 4] {
    [6, 6, 21, 21].map(|own| [m[0], m[1], big_m[0], big_m[1], w[0], w[1], a, b, own])
}

#[test]
fn a_beat_without_pointers() {
    let records = alike([5, 20], [4, 19], [3, 7], 2, 1);
    // m from the halves' old a, M from the old m, w one less; d = 0 is step 0.
    assert_eq!(after(0, records), [6, 21, 5, 20, 2, 6, 3, 1, 7]);
    assert_eq!(after(3, records), [6, 21, 5, 20, 2, 6, 3, 1, 22]);
}

#[test]
fn the_vote_is_on_the_old_m_of_all_cards() {
    let mut records = alike([5, 20], [4, 19], [3, 7], 2, 1);
    records[0][0] = 9;
    assert_eq!(after(1, records)[2], 5);
    // Two of four are a simple majority for none of them.
    records[1][0] = 9;
    assert_eq!(after(1, records)[2], 65_535);
    assert_eq!(after(1, records)[4], 108);
}

#[test]
fn an_m_out_of_range_is_not_counted() {
    // 18 alike are not a vote for 18, and the vote stays none.
    let records = alike([18, 54], [17, 53], [3, 7], 2, 1);
    assert_eq!(after(0, records)[2..6], [65_535, 65_535, 108, 108]);
}

#[test]
fn the_cooldown_restarts_at_twice_c1() {
    let records = alike([5, 20], [5, 18], [0, 1], 2, 1);
    assert_eq!(after(2, records)[4..6], [108, 108]);
}

#[test]
fn the_cooldown_stays_at_0_and_wraps_with_the_modulus() {
    let records = alike([0, 0], [17, 53], [0, 1], 2, 1);
    assert_eq!(after(2, records)[4..6], [0, 0]);
}

#[test]
fn a_cooldown_out_of_range_is_read_as_its_start() {
    let records = alike([5, 20], [4, 19], [109, 65_535], 2, 1);
    assert_eq!(after(2, records)[4..6], [107, 107]);
}

#[test]
fn a_vote_of_none_does_not_go_on() {
    // From none to a count.
    let mut records = alike([0, 0], [18, 65_535], [4, 4], 2, 1);
    assert_eq!(after(2, records)[4..6], [108, 108]);
    // From none to none.
    records[0][0] = 1;
    records[1][0] = 1;
    assert_eq!(after(2, records)[2], 65_535);
    assert_eq!(after(2, records)[4], 108);
}

#[test]
fn the_most_frequent_of_nothing_is_0() {
    let mut records = alike([5, 20], [4, 19], [3, 7], 2, 1);
    (records[0][8], records[1][8]) = (18, 65_535);
    assert_eq!(after(2, records)[..2], [0, 21]);
}

#[test]
fn the_pointer_and_d_are_from_the_old_votes() {
    // d0 = 5 is step 2 (the new vote 6 would be step 0, which keeps b): b becomes 1.
    let records = alike([6, 20], [5, 19], [0, 7], 2, 0);
    let next = after(0, records);
    assert_eq!(next[6..8], [3, 1]);
    // d1 = 26 points to half 0 (27 would point to half 1), whose d0 = 4 is step 1: five
    // would be step 2, which obeys the king.
    let mut records = alike([5, 27], [4, 26], [0, 0], 2, 0);
    records[1][6] = 5;
    assert_eq!(after(2, records)[6..8], [3, 1]);
}

#[test]
fn the_pointer_is_from_the_old_cooldown() {
    // w0 = 1 becomes 0 in this beat, but d0 is none for it: step 0 keeps b = 0.
    let records = alike([6, 20], [5, 19], [1, 7], 2, 0);
    let next = after(0, records);
    assert_eq!(next[4], 0);
    assert_eq!(next[6..8], [3, 0]);
}

#[test]
fn each_half_follows_its_own_pointer() {
    // d0 = 4 points to half 0: step 1, b becomes 1. d1 = 30 points to half 1: 30 modulo 9 is
    // step 0, b stays 0.
    let records = alike([5, 31], [4, 30], [0, 0], 2, 0);
    assert_eq!(after(1, records)[6..8], [3, 1]);
    assert_eq!(after(2, records)[6..8], [3, 0]);
}

#[test]
fn without_an_own_pointer_the_other_halfs_is_followed() {
    // d0 is none; d1 = 28 points to half 1: 28 modulo 9 is step 1.
    let records = alike([5, 29], [4, 28], [1, 0], 2, 0);
    assert_eq!(after(0, records)[6..8], [3, 1]);
    // d1 is none; d0 = 4 points to half 0: step 1.
    let records = alike([5, 29], [4, 28], [0, 1], 2, 0);
    assert_eq!(after(3, records)[6..8], [3, 1]);
}

#[test]
fn a_pointer_to_a_missing_d_means_0() {
    // d1 = 19 points to half 0, whose d is none: d = 0 (19 modulo 9 would be step 1).
    let records = alike([5, 20], [4, 19], [1, 0], 2, 0);
    assert_eq!(after(0, records)[6..8], [3, 0]);
    assert_eq!(after(3, records)[6..8], [3, 0]);
}

#[test]
fn the_last_king_is_card_f_plus_1() {
    // d0 = 8 is step 2 of king 2.
    let mut records = alike([9, 20], [8, 19], [0, 7], 2, 0);
    records[2][6] = 5;
    assert_eq!(after(0, records)[6..8], [6, 1]);
    // A king whose a is out of range counts as 0.
    records[2][6] = 8;
    assert_eq!(after(0, records)[6..8], [1, 1]);
}

#[test]
fn step_2_reads_b_other_than_1_as_0() {
    let mut records = alike([6, 20], [5, 19], [0, 7], 2, 2);
    records[1][6] = 5;
    // King 1 is obeyed for b = 2, not for b = 1.
    assert_eq!(after(0, records)[6..8], [6, 1]);
    records[0][7] = 1;
    assert_eq!(after(0, records)[6..8], [3, 1]);
}

#[test]
fn step_1_counts_cards_that_send_none_against_a_none() {
    // Three of four a are out of range, in different ways: b becomes 1, a stays none.
    let mut records = alike([5, 20], [4, 19], [0, 7], 8, 0);
    records[1][6] = 9;
    records[2][6] = 65_535;
    records[3][6] = 2;
    assert_eq!(after(0, records)[6..8], [65_535, 1]);
    // The card with the count adopts nothing: 2 was heard only once.
    assert_eq!(after(3, records)[6..8], [65_535, 0]);
}

#[test]
fn step_1_adopts_the_smallest_of_two() {
    let mut records = alike([5, 20], [4, 19], [0, 7], 6, 1);
    records[2][6] = 3;
    records[3][6] = 3;
    assert_eq!(after(0, records)[6..8], [4, 0]);
}

#[test]
fn the_halves_own_a_is_counted_only_in_range() {
    let mut records = alike([5, 20], [4, 19], [3, 7], 2, 1);
    // Out of range of c0 = 18 at the first card: not counted by the group around, yet the half
    // itself steps from 0.
    records[0][8] = 18;
    let next = after(1, records);
    assert_eq!(next[0], 6);
    assert_eq!(next[8], 1);
    // Half 1 has its own modulus: 53 is in range of c1 = 54, and next is 0.
    records[2][8] = 53;
    let next = after(3, records);
    assert_eq!(next[1], 21);
    assert_eq!(next[8], 0);
}

/// n=7, f=2: half 0 is cards 0 to 2 with f = 0 and c0 = 24, half 1 is cards 3 to 6 with f = 1
/// and c1 = 72; within it t = 9, c0 = 18, c1 = 54, and its half 0 is cards 3 and 4.
fn after_of_seven(card: u32, records: &[[u16; 17]; 7]) -> [u16; 17] {
    let mut out = [77; 17];
    step(7, 2, 1000, card, &records.concat(), &mut out).unwrap();
    out
}

fn seven() -> [[u16; 17]; 7] {
    let outer = [10, 40, 9, 39, 4, 5, 500, 1];
    let inner = [2, 3, 1, 2, 6, 7, 50, 1];
    let mut records = [[0; 17]; 7];
    for (card, record) in records.iter_mut().enumerate() {
        record[..8].copy_from_slice(&outer);
        if card < 3 {
            record[8] = 11;
        } else {
            record[8..16].copy_from_slice(&inner);
            record[16] = if card < 5 { 12 } else { 33 };
        }
    }
    records
}

#[test]
fn a_shallow_card_writes_0_beyond_its_own_words() {
    let mut records = seven();
    records[0][9..].fill(1000);
    // m0 from word 8 of half 0, m1 from word 14 of half 1.
    let outer = [11, 50, 10, 40, 3, 4, 501, 1];
    let next = after_of_seven(1, &records);
    assert_eq!(next[..8], outer);
    assert_eq!(next[8..], [12, 0, 0, 0, 0, 0, 0, 0, 0]);
}

#[test]
fn a_deep_card_steps_at_every_depth() {
    let outer = [11, 50, 10, 40, 3, 4, 501, 1];
    let inner = [12, 33, 2, 3, 5, 6, 51, 1];
    for (card, own) in [(3, 13), (4, 13), (5, 34), (6, 34)] {
        let next = after_of_seven(card, &seven());
        assert_eq!(next[..8], outer);
        assert_eq!(next[8..16], inner);
        assert_eq!(next[16], own);
    }
}

#[test]
fn of_seven_cards_five_make_a_vote_and_four_do_not() {
    let mut records = seven();
    (records[1][0], records[6][0]) = (23, 23);
    let next = after_of_seven(0, &records);
    assert_eq!((next[2], next[4]), (10, 3));
    records[2][0] = 23;
    let next = after_of_seven(0, &records);
    assert_eq!((next[2], next[4]), (65_535, 144));
}

#[test]
fn of_seven_cards_five_keep_a_count_and_four_do_not() {
    // The cooldowns are above 0, so this is step 0.
    let mut records = seven();
    (records[1][6], records[6][6]) = (7, 7);
    assert_eq!(after_of_seven(0, &records)[6], 501);
    records[2][6] = 7;
    assert_eq!(after_of_seven(0, &records)[6], 65_535);
}

#[test]
fn a_deep_halfs_output_is_read_by_that_halfs_modulus() {
    // 72 is out of range of the half's c1 = 72, so not counted: 60 and 61 tie with once each.
    let mut records = seven();
    for (card, a) in [(3, 72), (4, 72), (5, 61), (6, 60)] {
        records[card][14] = a;
    }
    assert_eq!(after_of_seven(0, &records)[1], 60);
}
