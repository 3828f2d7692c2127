//! The worked numbers of RULES 12, through the proved step and lag.

mod common;

use common::rack;
use tsendurkho::{Rack, Refusal, NONE};

/// One card's record in a group of four or seven, of which this much matters.
#[derive(Clone, Copy)]
struct Record {
    /// m0.
    sent: u16,
    /// M0, M1.
    votes: [u16; 2],
    /// w0, w1.
    waits: [u16; 2],
    a: u16,
    b: u16,
    /// The output of the card's own half.
    output: u16,
}

/// No votes, no pointers, no counts.
const BLANK: Record = Record {
    sent: NONE,
    votes: [NONE; 2],
    waits: [108; 2],
    a: NONE,
    b: 0,
    output: NONE,
};

impl Record {
    fn words(self) -> [u16; 9] {
        let [big_m0, big_m1] = self.votes;
        let [w0, w1] = self.waits;
        [
            self.sent,
            NONE,
            big_m0,
            big_m1,
            w0,
            w1,
            self.a,
            self.b,
            self.output,
        ]
    }
}

/// n=4, f=1, c=8.
fn four() -> Rack {
    rack(4, 1, 8).unwrap()
}

/// The next record of a card of four.
fn next_of_four(card: u32, records: [Record; 4]) -> Vec<u16> {
    let heard = records.map(Record::words).concat();
    four().step(four().card(card).unwrap(), &heard).unwrap()
}

#[test]
fn two_cards_follow_the_first() {
    let two = rack(2, 0, 3).unwrap();
    for card in two.cards() {
        assert_eq!(two.step(card, &[2, 1]), Ok(vec![0]));
        assert_eq!(two.step(card, &[7, 1]), Ok(vec![1]));
    }
}

#[test]
fn votes_of_four() {
    let vote = |sent: [u16; 4]| next_of_four(0, sent.map(|sent| Record { sent, ..BLANK }))[2];
    assert_eq!(vote([5, 5, 5, 9]), 5);
    assert_eq!(vote([5, 5, 9, 9]), NONE);
}

#[test]
fn votes_of_seven() {
    let seven = rack(7, 2, 8).unwrap();
    let vote = |sent: [u16; 7]| {
        let records = sent.map(|sent| {
            let mut words = [NONE; 17];
            words[0] = sent;
            words
        });
        seven
            .step(seven.card(0).unwrap(), &records.concat())
            .unwrap()[2]
    };
    assert_eq!(vote([6, 1, 6, 6, 2, 6, 3]), NONE);
    assert_eq!(vote([6, 1, 6, 6, 6, 6, 3]), 6);
}

#[test]
fn most_frequent_of_two() {
    let most_frequent = |outputs: [u16; 2]| {
        let mut records = [BLANK; 4];
        records[0].output = outputs[0];
        records[1].output = outputs[1];
        next_of_four(0, records)[0]
    };
    assert_eq!(most_frequent([3, 8]), 3);
    assert_eq!(most_frequent([8, 3]), 3);
    assert_eq!(most_frequent([NONE, 8]), 8);
    assert_eq!(most_frequent([NONE, NONE]), 0);
}

#[test]
fn cooldown_of_half_0() {
    let cooldown = |old: u16, new: u16| {
        let record = Record {
            sent: new,
            votes: [old, NONE],
            waits: [5, 108],
            ..BLANK
        };
        next_of_four(0, [record; 4])[4]
    };
    assert_eq!(cooldown(17, 0), 4);
    assert_eq!(cooldown(17, 17), 108);
    assert_eq!(cooldown(NONE, 4), 108);
}

/// The a and b of a card without a count, nor anyone else: none and 0 after step 0, which d = 0
/// picks; 1 and 1 after step 2, which d = 8 picks.
fn after_pointers(card: u32, votes: [u16; 2], waits: [u16; 2]) -> [u16; 2] {
    let record = Record {
        votes,
        waits,
        ..BLANK
    };
    let next = next_of_four(card, [record; 4]);
    [next[6], next[7]]
}

#[test]
fn pointers() {
    const STEP_0: [u16; 2] = [NONE, 0];
    const STEP_2: [u16; 2] = [1, 1];
    // Card 0 follows p0: to d0 = 8 itself, or to d1, which is none.
    assert_eq!(after_pointers(0, [8, NONE], [0, 108]), STEP_2);
    assert_eq!(after_pointers(0, [9, NONE], [0, 108]), STEP_0);
    // Card 2 follows p1: to d0 = 8, or to d1 = 27 itself, which is 0 modulo t.
    assert_eq!(after_pointers(2, [8, 26], [0, 0]), STEP_2);
    assert_eq!(after_pointers(2, [8, 27], [0, 0]), STEP_0);
}

/// The a and b of card 0, which holds this b and hears these a; M0 picks the step.
fn after_step(d: u16, b: u16, heard: [u16; 4]) -> [u16; 2] {
    let records = heard.map(|a| Record {
        votes: [d, NONE],
        waits: [0, 108],
        a,
        b,
        ..BLANK
    });
    let next = next_of_four(0, records);
    [next[6], next[7]]
}

#[test]
fn step_0() {
    assert_eq!(after_step(0, 0, [3, 3, 3, 6]), [4, 0]);
    assert_eq!(after_step(0, 0, [3, 3, 6, 6]), [NONE, 0]);
}

#[test]
fn step_1() {
    assert_eq!(after_step(1, 1, [3, 3, 6, NONE]), [4, 0]);
}

#[test]
fn step_2() {
    assert_eq!(after_step(2, 0, [NONE; 4]), [1, 1]);
    assert_eq!(after_step(2, 1, [7, 5, 5, 5]), [0, 1]);
}

#[test]
fn lags() {
    assert_eq!(four().lag(1, 7), Ok(2));
    assert_eq!(four().lag(7, 1), Ok(-2));
    assert_eq!(four().lag(4, 0), Ok(4));
}

#[test]
fn refused_or_not() {
    let refusal = |n: u32, f: u32, c: u32| rack(n, f, c).err().map(Refusal::number);
    assert_eq!(refusal(16, 5, 8), None);
    assert_eq!(refusal(15, 5, 8), Some(2));
    assert_eq!(refusal(4, 1, 8), None);
    assert_eq!(refusal(3, 1, 8), Some(2));
    assert_eq!(refusal(4, 1, 1), Some(3));
    assert_eq!(refusal(4, 1, 2), None);
    assert_eq!(refusal(4, 1, 65_535), None);
    assert_eq!(refusal(4, 1, 65_536), Some(3));
}
