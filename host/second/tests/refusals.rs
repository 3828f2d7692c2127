//! Every refusal, alone and against every other, and exactly when the table of RULES 9.1 says.

use generate::calls::{
    BeatCall, Call, LagCall, ParametersCall, ReadCall, ShownCall, StepBytesCall, StepCall,
    WriteCall,
};
use generate::Random;
use second::beat::beat;
use second::card::{shown, step};
use second::lag::lag;
use second::params::parameters;
use second::refusal::Refusal;
use second::text::{read_record, write_record};

/// The words in a record for each f, from the table of RULES 2.3.
const WORDS: [usize; 6] = [1, 9, 17, 17, 25, 25];

/// A call spoilt for all these reasons is refused for the first, and changes nothing.
fn refused_for_the_first<C: Call>(random: &mut Random, reasons: &[Refusal]) {
    let mut call = C::sound(random);
    for &reason in reasons.iter().rev() {
        call.spoil(reason, random);
    }
    let before = call.clone();
    assert_eq!(call.make(), Err(reasons[0]), "{reasons:?}");
    assert_eq!(call, before, "{reasons:?}");
}

fn sound_alone_and_in_pairs<C: Call>(seed: u64) {
    let mut random = Random::new(seed);
    for _ in 0..200 {
        C::sound(&mut random).make().unwrap();
        for (place, &first) in C::REFUSALS.iter().enumerate() {
            refused_for_the_first::<C>(&mut random, &[first]);
            for &second in &C::REFUSALS[place + 1..] {
                refused_for_the_first::<C>(&mut random, &[first, second]);
            }
        }
    }
}

#[test]
fn parameters_alone_and_in_pairs() {
    sound_alone_and_in_pairs::<ParametersCall>(1);
}

#[test]
fn step_alone_and_in_pairs() {
    sound_alone_and_in_pairs::<StepCall>(2);
}

#[test]
fn step_on_bytes_alone_and_in_pairs() {
    sound_alone_and_in_pairs::<StepBytesCall>(8);
}

#[test]
fn beat_alone_and_in_pairs() {
    sound_alone_and_in_pairs::<BeatCall>(3);
}

#[test]
fn shown_alone_and_in_pairs() {
    sound_alone_and_in_pairs::<ShownCall>(4);
}

#[test]
fn lag_alone_and_in_pairs() {
    sound_alone_and_in_pairs::<LagCall>(5);
}

#[test]
fn writing_alone_and_in_pairs() {
    sound_alone_and_in_pairs::<WriteCall>(6);
}

#[test]
fn reading_alone_and_in_pairs() {
    sound_alone_and_in_pairs::<ReadCall>(7);
}

#[test]
fn each_call_tests_in_the_order_of_the_table() {
    fn in_order<C: Call>(numbers: &[u8]) {
        let tested = |refusal: &Refusal| numbers.contains(&refusal.number());
        let of_table: Vec<_> = Refusal::TABLE.into_iter().filter(tested).collect();
        assert_eq!(C::REFUSALS, of_table);
        assert_eq!(of_table.len(), numbers.len());
    }
    in_order::<ParametersCall>(&[1, 2]);
    in_order::<StepCall>(&[1, 2, 3, 4, 5, 6]);
    in_order::<StepBytesCall>(&[1, 2, 3, 4, 5, 6]);
    in_order::<BeatCall>(&[1, 2, 3, 5, 6, 7, 8]);
    in_order::<ShownCall>(&[1, 2, 3, 5]);
    in_order::<LagCall>(&[3, 9]);
    in_order::<WriteCall>(&[1, 2, 5, 6]);
    in_order::<ReadCall>(&[1, 2, 6, 10]);
    let numbers = Refusal::TABLE.map(Refusal::number);
    assert_eq!(numbers, [1, 2, 3, 7, 4, 5, 8, 6, 9, 10, 11]);
}

/// The number of the first condition that holds, or 0.
fn first_of(conditions: &[(u8, bool)]) -> u8 {
    let first = conditions.iter().find(|(_, applies)| *applies);
    first.map_or(0, |&(number, _)| number)
}

fn number_of<T>(answer: Result<T, Refusal>) -> u8 {
    answer.err().map_or(0, Refusal::number)
}

/// What the table says of n and f.
fn cards_conditions(n: u32, f: u32) -> [(u8, bool); 2] {
    [(1, n == 0 || n > 16), (2, f > 5 || 3 * f >= n)]
}

fn modulus_condition(c: u32) -> (u8, bool) {
    (3, !(2..=65_535).contains(&c))
}

/// Every n and f about the limits, with W where f has one.
fn cards_about_the_limits() -> impl Iterator<Item = (u32, u32, usize)> {
    let words = |f: u32| WORDS.get(f as usize).copied().unwrap_or(25);
    (0..=18).flat_map(move |n| (0..=7).map(move |f| (n, f, words(f))))
}

/// The needed length and its neighbours.
fn about(length: usize) -> [usize; 3] {
    [length, length + 1, length.saturating_sub(1)]
}

const MODULI: [u32; 5] = [0, 1, 2, 65_535, 65_536];

#[test]
fn parameters_are_refused_exactly_as_tabled() {
    for (n, f, words) in cards_about_the_limits() {
        let answer = parameters(n, f);
        assert_eq!(number_of(answer), first_of(&cards_conditions(n, f)));
        assert!(answer.map_or(true, |row| row.words == words));
    }
}

#[test]
fn a_step_is_refused_exactly_as_tabled() {
    let zeros = [0; 26 * 18];
    for (n, f, words) in cards_about_the_limits() {
        let needed = n as usize * words;
        for c in MODULI {
            for card in [0, n.saturating_sub(1), n, n + 1, u32::MAX] {
                for records in about(needed) {
                    for out in about(words) {
                        let [one, two] = cards_conditions(n, f);
                        let four = (4, card >= n);
                        let five = (5, records != needed);
                        let six = (6, out != words);
                        let wanted = [one, two, modulus_condition(c), four, five, six];
                        let given = &zeros[..records];
                        let answer = step(n, f, c, card, given, &mut vec![0; out]);
                        assert_eq!(number_of(answer), first_of(&wanted));
                    }
                }
            }
        }
    }
}

#[test]
fn a_beat_is_refused_exactly_as_tabled() {
    let sets: [u32; 10] = [
        0,
        1,
        2,
        3,
        0b1_0101,
        0b1_1111,
        0b11_1111,
        1 << 15,
        1 << 16,
        1 << 31,
    ];
    for (n, f, words) in cards_about_the_limits() {
        let needed = n as usize * words;
        for broken in sets {
            let sent_needed = needed * broken.count_ones() as usize;
            for (records, sent, out) in lengths_about(needed, sent_needed) {
                let [one, two] = cards_conditions(n, f);
                let absent = (n..32).any(|card| broken >> card & 1 == 1);
                let seven = (7, absent || broken.count_ones() > f);
                let five = (5, records != needed);
                let eight = (8, sent != sent_needed);
                let six = (6, out != needed);
                let wanted = [one, two, seven, five, eight, six];
                let (records, sent, mut out) = (vec![0; records], vec![0; sent], vec![0; out]);
                let answer = beat(n, f, 2, broken, &records, &sent, &mut out);
                assert_eq!(number_of(answer), first_of(&wanted));
            }
        }
    }
}

/// Lengths of a beat's records, sent words and output, right and nearly right.
fn lengths_about(table: usize, sent: usize) -> Vec<(usize, usize, usize)> {
    let mut lengths = Vec::new();
    for records in about(table) {
        for sent in about(sent) {
            lengths.extend(about(table).map(|out| (records, sent, out)));
        }
    }
    lengths
}

#[test]
fn the_shown_count_is_refused_exactly_as_tabled() {
    for (n, f, words) in cards_about_the_limits() {
        for c in MODULI {
            for length in about(words) {
                let [one, two] = cards_conditions(n, f);
                let wanted = [one, two, modulus_condition(c), (5, length != words)];
                let answer = shown(n, f, c, &vec![0; length]);
                assert_eq!(number_of(answer), first_of(&wanted));
            }
        }
    }
}

#[test]
fn a_lag_is_refused_exactly_as_tabled() {
    let inputs = [0, 1, 2, 65_534, 65_535, 65_536, u32::MAX];
    for c in MODULI {
        for x in inputs {
            for y in inputs {
                let wanted = [modulus_condition(c), (9, x >= c || y >= c)];
                assert_eq!(number_of(lag(c, x, y)), first_of(&wanted));
            }
        }
    }
}

#[test]
fn text_is_refused_exactly_as_tabled() {
    for (n, f, words) in cards_about_the_limits() {
        for (record, text) in lengths_of_record_and_text(words) {
            let [one, two] = cards_conditions(n, f);
            let wanted = [one, two, (5, record != words), (6, text != 4 * words)];
            let answer = write_record(n, f, &vec![0; record], &mut vec![0; text]);
            assert_eq!(number_of(answer), first_of(&wanted));

            let wanted = [one, two, (6, record != words), (10, text != 4 * words)];
            let answer = read_record(n, f, &vec![b'0'; text], &mut vec![0; record]);
            assert_eq!(number_of(answer), first_of(&wanted));
        }
    }
}

fn lengths_of_record_and_text(words: usize) -> Vec<(usize, usize)> {
    let of_record = |record| about(4 * words).map(|text| (record, text));
    about(words).into_iter().flat_map(of_record).collect()
}
