//! Every refusal, alone and against every other, exactly when the table of RULES 9.1 says; and a
//! refused call changes nothing.

mod common;

use common::rack;
use generate::calls::{Call, LagCall, ShownCall, StepBytesCall, StepCall};
use generate::Random;
use tsendurkho::Refusal;

/// The words in a record for each f, from the table of RULES 2.3.
const WORDS: [usize; 6] = [1, 9, 17, 17, 25, 25];

/// What an answer is worth beside the second implementation's.
type Numbered<T> = Result<T, u32>;

/// A call that both implementations can make.
trait Both: Call {
    fn by_rack(&mut self) -> Result<Self::Value, Refusal>;

    fn alike(&self) -> Numbered<Self::Value> {
        let (mut by_proved, mut by_second) = (self.clone(), self.clone());
        let wanted = by_second.make().map_err(|refusal| refusal.number().into());
        let answer = by_proved.by_rack().map_err(Refusal::number);
        assert_eq!(answer, wanted, "{self:?}");
        assert_eq!(by_proved, by_second, "{self:?}");
        assert!(answer.is_ok() || by_proved == *self, "{self:?}");
        answer
    }
}

impl Both for StepCall {
    fn by_rack(&mut self) -> Result<(), Refusal> {
        let rack = rack(self.n, self.f, self.c)?;
        rack.step_into(rack.card(self.card)?, &self.records, &mut self.out)
    }
}

impl Both for StepBytesCall {
    fn by_rack(&mut self) -> Result<(), Refusal> {
        let rack = rack(self.n, self.f, self.c)?;
        rack.step_bytes(rack.card(self.card)?, &self.records, &mut self.out)
    }
}

impl Both for ShownCall {
    fn by_rack(&mut self) -> Result<Option<u16>, Refusal> {
        rack(self.n, self.f, self.c)?.shown_count(&self.record)
    }
}

impl Both for LagCall {
    /// What is not a word is asked as the largest word, which is at or above every modulus too.
    fn by_rack(&mut self) -> Result<i32, Refusal> {
        let [x, y] = [self.x, self.y].map(|input| u16::try_from(input).unwrap_or(u16::MAX));
        rack(1, 0, self.c)?.lag(x, y)
    }
}

/// A sound call, spoilt for all these reasons, is refused for the first.
fn refused_for_the_first<C: Both>(random: &mut Random, reasons: &[second::refusal::Refusal]) {
    let mut call = C::sound(random);
    for &reason in reasons.iter().rev() {
        call.spoil(reason, random);
    }
    assert_eq!(
        call.alike().err(),
        reasons.first().map(|first| first.number().into())
    );
}

fn sound_alone_and_in_pairs<C: Both>(seed: u64) {
    let mut random = Random::new(seed);
    for _ in 0..200 {
        refused_for_the_first::<C>(&mut random, &[]);
        for (place, &first) in C::REFUSALS.iter().enumerate() {
            refused_for_the_first::<C>(&mut random, &[first]);
            for &second in &C::REFUSALS[place + 1..] {
                refused_for_the_first::<C>(&mut random, &[first, second]);
            }
        }
    }
}

#[test]
fn step_alone_and_in_pairs() {
    sound_alone_and_in_pairs::<StepCall>(1);
}

#[test]
fn step_on_bytes_alone_and_in_pairs() {
    sound_alone_and_in_pairs::<StepBytesCall>(2);
}

#[test]
fn shown_count_alone_and_in_pairs() {
    sound_alone_and_in_pairs::<ShownCall>(3);
}

#[test]
fn lag_alone_and_in_pairs() {
    sound_alone_and_in_pairs::<LagCall>(4);
}

/// The number of the first condition that holds, or 0.
fn first_of(conditions: &[(u32, bool)]) -> u32 {
    let first = conditions.iter().find(|(_, applies)| *applies);
    first.map_or(0, |&(number, _)| number)
}

fn number_of<T>(answer: Result<T, Refusal>) -> u32 {
    answer.err().map_or(0, Refusal::number)
}

/// The needed number of bytes, one more or less, a word more or less, and half as many.
fn about(bytes: usize) -> Vec<usize> {
    let mut lengths = vec![bytes, bytes + 1, bytes + 2, bytes / 2];
    lengths.extend(bytes.checked_sub(1));
    lengths.extend(bytes.checked_sub(2));
    lengths
}

const MODULI: [u32; 5] = [0, 1, 2, 65_535, 65_536];

/// The table's conditions for one step on zeros, and a buffer that a refusal must not touch.
fn step_is_refused_as_tabled(n: u32, f: u32, c: u32, card: u32, records: usize, out: usize) {
    let words = WORDS.get(f as usize).copied().unwrap_or(25);
    let wanted = first_of(&[
        (1, n == 0 || n > 16),
        (2, f > 5 || 3 * f >= n),
        (3, !(2..=65_535).contains(&c)),
        (4, card >= n),
        (5, records != 2 * n as usize * words),
        (6, out != 2 * words),
    ]);
    let mut buffer = vec![0xab; out];
    let answer = rack(n, f, c).and_then(|rack| {
        let card = rack.card(card)?;
        rack.step_bytes(card, &vec![0; records], &mut buffer)
    });
    assert_eq!(number_of(answer), wanted);
    assert!(wanted == 0 || buffer == vec![0xab; out]);
}

#[test]
fn a_step_is_refused_exactly_as_tabled() {
    for n in 0..=18 {
        for f in 0..=7 {
            let words = WORDS.get(f as usize).copied().unwrap_or(25);
            for c in MODULI {
                for card in [0, n / 2, n, n + 1, u32::MAX] {
                    for records in about(2 * n as usize * words) {
                        for out in about(2 * words) {
                            step_is_refused_as_tabled(n, f, c, card, records, out);
                        }
                    }
                }
            }
        }
    }
}

#[test]
fn a_shown_count_is_refused_exactly_for_its_length() {
    for f in 0..=5 {
        let rack = rack(16, f, 65_535).expect("sixteen cards may have any allowed f");
        let words = WORDS[f as usize];
        for length in [0, 1, words - 1, words, words + 1, 16 * words] {
            let wanted = first_of(&[(5, length != words)]);
            assert_eq!(number_of(rack.shown_count(&vec![0; length])), wanted);
        }
    }
}

#[test]
fn a_lag_is_refused_exactly_as_tabled() {
    let inputs = [0, 1, 2, 65_534, 65_535];
    for c in MODULI {
        for x in inputs {
            for y in inputs {
                let above = u32::from(x) >= c || u32::from(y) >= c;
                let wanted = first_of(&[(3, !(2..=65_535).contains(&c)), (9, above)]);
                let answer = rack(1, 0, c).and_then(|rack| rack.lag(x, y));
                assert_eq!(number_of(answer), wanted);
            }
        }
    }
}

#[test]
fn a_step_that_makes_its_own_buffer_refuses_what_it_can_get_wrong() {
    let rack = rack(4, 1, 8).expect("the shape is within the limits");
    let card = rack.card(3).expect("there are four cards");
    for length in [0, 9, 35, 37, 72] {
        assert_eq!(number_of(rack.step(card, &vec![0; length])), 5);
    }
    assert_eq!(number_of(rack.step(card, &[0; 36])), 0);
}

#[test]
fn refusals_say_why() {
    let refusal = rack(1, 0, 8).and_then(|rack| rack.lag(8, 0)).unwrap_err();
    assert_eq!(refusal.to_string(), "an input of a lag is c or above");
    assert_eq!(refusal.number(), 9);
}
