//! Calls with all their inputs, sound or spoilt so that a wanted refusal applies.

use std::fmt::Debug;

use crate::{Random, Shape};
use second::beat::beat;
use second::bytes::{self, bytes_of};
use second::card::{shown, step};
use second::lag::lag;
use second::params::{self, parameters, Parameters};
use second::refusal::Refusal;
use second::text::{read_record, write_record, write_words};

pub trait Call: Clone + Debug + PartialEq {
    /// What it answers when it succeeds, besides the buffer it fills.
    type Value: Debug + PartialEq;

    /// The refusals it tests, in the order of the table of RULES 9.1.
    const REFUSALS: &'static [Refusal];

    /// A call that succeeds, with what it takes of this shape. Its output buffer, if any, holds
    /// any words.
    fn of_shape(shape: Shape, random: &mut Random) -> Self;

    /// The same of any shape.
    fn sound(random: &mut Random) -> Self {
        Self::of_shape(Shape::random(random), random)
    }

    /// Makes this refusal apply. With several, the last of the table comes first, because the
    /// later rows are measured by the earlier inputs.
    fn spoil(&mut self, refusal: Refusal, random: &mut Random);

    fn make(&mut self) -> Result<Self::Value, Refusal>;
}

#[derive(Clone, Debug, PartialEq, Eq)]
pub struct ParametersCall {
    pub n: u32,
    pub f: u32,
}

impl Call for ParametersCall {
    type Value = Parameters;
    const REFUSALS: &'static [Refusal] = &[Refusal::CardCount, Refusal::BrokenAllowance];

    fn of_shape(shape: Shape, _: &mut Random) -> Self {
        let Shape { n, f, .. } = shape;
        ParametersCall { n, f }
    }

    fn spoil(&mut self, refusal: Refusal, random: &mut Random) {
        match refusal {
            Refusal::CardCount => self.n = bad_card_count(random),
            Refusal::BrokenAllowance => self.f = bad_allowance(random, self.n),
            other => never_tested(other),
        }
    }

    fn make(&mut self) -> Result<Parameters, Refusal> {
        parameters(self.n, self.f)
    }
}

#[derive(Clone, Debug, PartialEq, Eq)]
pub struct StepCall {
    pub n: u32,
    pub f: u32,
    pub c: u32,
    pub card: u32,
    pub records: Vec<u16>,
    pub out: Vec<u16>,
}

impl Call for StepCall {
    type Value = ();
    const REFUSALS: &'static [Refusal] = &[
        Refusal::CardCount,
        Refusal::BrokenAllowance,
        Refusal::Modulus,
        Refusal::CardNumber,
        Refusal::Records,
        Refusal::OutputLength,
    ];

    fn of_shape(shape: Shape, random: &mut Random) -> Self {
        StepCall {
            n: shape.n,
            f: shape.f,
            c: shape.c,
            card: random.between(0, shape.n - 1),
            records: shape.table(random),
            out: shape.record(random),
        }
    }

    fn spoil(&mut self, refusal: Refusal, random: &mut Random) {
        match refusal {
            Refusal::CardCount => self.n = bad_card_count(random),
            Refusal::BrokenAllowance => self.f = bad_allowance(random, self.n),
            Refusal::Modulus => self.c = bad_modulus(random),
            Refusal::CardNumber => self.card = at_or_above(random, self.n),
            Refusal::Records => spoil_length(random, &mut self.records),
            Refusal::OutputLength => spoil_length(random, &mut self.out),
            other => never_tested(other),
        }
    }

    fn make(&mut self) -> Result<(), Refusal> {
        let StepCall { n, f, c, card, .. } = *self;
        step(n, f, c, card, &self.records, &mut self.out)
    }
}

/// A step on byte slices.
#[derive(Clone, Debug, PartialEq, Eq)]
pub struct StepBytesCall {
    pub n: u32,
    pub f: u32,
    pub c: u32,
    pub card: u32,
    pub records: Vec<u8>,
    pub out: Vec<u8>,
}

impl From<StepCall> for StepBytesCall {
    fn from(call: StepCall) -> Self {
        StepBytesCall {
            n: call.n,
            f: call.f,
            c: call.c,
            card: call.card,
            records: bytes_of(&call.records),
            out: bytes_of(&call.out),
        }
    }
}

impl Call for StepBytesCall {
    type Value = ();
    const REFUSALS: &'static [Refusal] = StepCall::REFUSALS;

    fn of_shape(shape: Shape, random: &mut Random) -> Self {
        StepCall::of_shape(shape, random).into()
    }

    fn spoil(&mut self, refusal: Refusal, random: &mut Random) {
        match refusal {
            Refusal::CardCount => self.n = bad_card_count(random),
            Refusal::BrokenAllowance => self.f = bad_allowance(random, self.n),
            Refusal::Modulus => self.c = bad_modulus(random),
            Refusal::CardNumber => self.card = at_or_above(random, self.n),
            Refusal::Records => spoil_length(random, &mut self.records),
            Refusal::OutputLength => spoil_length(random, &mut self.out),
            other => never_tested(other),
        }
    }

    fn make(&mut self) -> Result<(), Refusal> {
        let StepBytesCall { n, f, c, card, .. } = *self;
        bytes::step(n, f, c, card, &self.records, &mut self.out)
    }
}

#[derive(Clone, Debug, PartialEq, Eq)]
pub struct BeatCall {
    pub n: u32,
    pub f: u32,
    pub c: u32,
    pub broken: u32,
    pub records: Vec<u16>,
    pub sent: Vec<u16>,
    pub out: Vec<u16>,
}

impl Call for BeatCall {
    type Value = ();
    const REFUSALS: &'static [Refusal] = &[
        Refusal::CardCount,
        Refusal::BrokenAllowance,
        Refusal::Modulus,
        Refusal::BrokenSet,
        Refusal::Records,
        Refusal::BrokenWords,
        Refusal::OutputLength,
    ];

    fn of_shape(shape: Shape, random: &mut Random) -> Self {
        let broken = shape.broken_set(random);
        let records = shape.table(random);
        BeatCall {
            n: shape.n,
            f: shape.f,
            c: shape.c,
            broken,
            sent: shape.sent(random, broken, &records),
            out: shape.table(random),
            records,
        }
    }

    fn spoil(&mut self, refusal: Refusal, random: &mut Random) {
        match refusal {
            Refusal::CardCount => self.n = bad_card_count(random),
            Refusal::BrokenAllowance => self.f = bad_allowance(random, self.n),
            Refusal::Modulus => self.c = bad_modulus(random),
            Refusal::BrokenSet => self.broken = bad_broken_set(random, self.n, self.f),
            Refusal::Records => spoil_length(random, &mut self.records),
            Refusal::BrokenWords => spoil_length(random, &mut self.sent),
            Refusal::OutputLength => spoil_length(random, &mut self.out),
            other => never_tested(other),
        }
    }

    fn make(&mut self) -> Result<(), Refusal> {
        let BeatCall {
            n, f, c, broken, ..
        } = *self;
        beat(n, f, c, broken, &self.records, &self.sent, &mut self.out)
    }
}

#[derive(Clone, Debug, PartialEq, Eq)]
pub struct ShownCall {
    pub n: u32,
    pub f: u32,
    pub c: u32,
    pub record: Vec<u16>,
}

impl Call for ShownCall {
    type Value = Option<u16>;
    const REFUSALS: &'static [Refusal] = &[
        Refusal::CardCount,
        Refusal::BrokenAllowance,
        Refusal::Modulus,
        Refusal::Records,
    ];

    fn of_shape(shape: Shape, random: &mut Random) -> Self {
        ShownCall {
            n: shape.n,
            f: shape.f,
            c: shape.c,
            record: shape.record(random),
        }
    }

    fn spoil(&mut self, refusal: Refusal, random: &mut Random) {
        match refusal {
            Refusal::CardCount => self.n = bad_card_count(random),
            Refusal::BrokenAllowance => self.f = bad_allowance(random, self.n),
            Refusal::Modulus => self.c = bad_modulus(random),
            Refusal::Records => spoil_length(random, &mut self.record),
            other => never_tested(other),
        }
    }

    fn make(&mut self) -> Result<Option<u16>, Refusal> {
        shown(self.n, self.f, self.c, &self.record)
    }
}

#[derive(Clone, Debug, PartialEq, Eq)]
pub struct LagCall {
    pub c: u32,
    pub x: u32,
    pub y: u32,
}

impl Call for LagCall {
    type Value = i32;
    const REFUSALS: &'static [Refusal] = &[Refusal::Modulus, Refusal::LagInput];

    fn of_shape(shape: Shape, random: &mut Random) -> Self {
        let Shape { c, .. } = shape;
        let x = random.between(0, c - 1);
        let any = random.between(0, c - 1);
        let half_a_turn_on = (x + c / 2) % c;
        let y = random.pick(&[any, half_a_turn_on, (half_a_turn_on + 1) % c, x, 0, c - 1]);
        LagCall { c, x, y }
    }

    fn spoil(&mut self, refusal: Refusal, random: &mut Random) {
        let (bad_x, bad_y) = random.pick(&[(true, false), (false, true), (true, true)]);
        match refusal {
            Refusal::Modulus => self.c = bad_modulus(random),
            Refusal::LagInput => {
                if bad_x {
                    self.x = at_or_above(random, self.c);
                }
                if bad_y {
                    self.y = at_or_above(random, self.c);
                }
            }
            other => never_tested(other),
        }
    }

    fn make(&mut self) -> Result<i32, Refusal> {
        lag(self.c, self.x, self.y)
    }
}

/// Writing a record as text.
#[derive(Clone, Debug, PartialEq, Eq)]
pub struct WriteCall {
    pub n: u32,
    pub f: u32,
    pub record: Vec<u16>,
    pub out: Vec<u8>,
}

impl Call for WriteCall {
    type Value = ();
    const REFUSALS: &'static [Refusal] = &[
        Refusal::CardCount,
        Refusal::BrokenAllowance,
        Refusal::Records,
        Refusal::OutputLength,
    ];

    fn of_shape(shape: Shape, random: &mut Random) -> Self {
        WriteCall {
            n: shape.n,
            f: shape.f,
            record: shape.record(random),
            out: any_bytes(random, 4 * shape.words()),
        }
    }

    fn spoil(&mut self, refusal: Refusal, random: &mut Random) {
        match refusal {
            Refusal::CardCount => self.n = bad_card_count(random),
            Refusal::BrokenAllowance => self.f = bad_allowance(random, self.n),
            Refusal::Records => spoil_length(random, &mut self.record),
            Refusal::OutputLength => spoil_length(random, &mut self.out),
            other => never_tested(other),
        }
    }

    fn make(&mut self) -> Result<(), Refusal> {
        write_record(self.n, self.f, &self.record, &mut self.out)
    }
}

/// Reading a record from text.
#[derive(Clone, Debug, PartialEq, Eq)]
pub struct ReadCall {
    pub n: u32,
    pub f: u32,
    pub text: Vec<u8>,
    pub out: Vec<u16>,
}

impl Call for ReadCall {
    type Value = ();
    const REFUSALS: &'static [Refusal] = &[
        Refusal::CardCount,
        Refusal::BrokenAllowance,
        Refusal::OutputLength,
        Refusal::Text,
    ];

    fn of_shape(shape: Shape, random: &mut Random) -> Self {
        ReadCall {
            n: shape.n,
            f: shape.f,
            text: write_words(&shape.record(random)).into_bytes(),
            out: shape.record(random),
        }
    }

    fn spoil(&mut self, refusal: Refusal, random: &mut Random) {
        match refusal {
            Refusal::CardCount => self.n = bad_card_count(random),
            Refusal::BrokenAllowance => self.f = bad_allowance(random, self.n),
            Refusal::OutputLength => spoil_length(random, &mut self.out),
            Refusal::Text if random.one_in(2) => spoil_length(random, &mut self.text),
            Refusal::Text => {
                let place = random.below(self.text.len());
                self.text[place] = no_digit(random);
            }
            other => never_tested(other),
        }
    }

    fn make(&mut self) -> Result<(), Refusal> {
        read_record(self.n, self.f, &self.text, &mut self.out)
    }
}

fn never_tested(refusal: Refusal) {
    panic!("this call never tests {refusal:?}");
}

/// An n to refuse; some would be good if cut to a byte or a word.
pub fn bad_card_count(random: &mut Random) -> u32 {
    let too_many = at_or_above(random, params::MOST_CARDS + 1);
    random.pick(&[0, 256 + 4, 65_536 + 4, too_many])
}

/// An f to refuse for this n.
pub fn bad_allowance(random: &mut Random, n: u32) -> u32 {
    let least_for_n = (n + 2) / 3;
    let above = at_or_above(random, params::MOST_BROKEN + 1);
    random.pick(&[least_for_n, 256, 65_536, above])
}

/// A c to refuse.
pub fn bad_modulus(random: &mut Random) -> u32 {
    let above = at_or_above(random, params::MOST_MODULUS + 1);
    random.pick(&[0, 1, 65_536 + 8, above])
}

/// A broken set to refuse: with a card there is not, or with too many.
pub fn bad_broken_set(random: &mut Random, n: u32, f: u32) -> u32 {
    if random.one_in(2) {
        return 1 << random.between(n, 31);
    }
    let mut broken: u32 = 0;
    while broken.count_ones() <= f {
        broken |= 1 << random.below(n as usize);
    }
    broken
}

/// A number at or above a bound: next to it, as large as can be, or any.
pub fn at_or_above(random: &mut Random, bound: u32) -> u32 {
    let any = random.between(bound, u32::MAX);
    random.pick(&[bound, bound + 1, u32::MAX, any])
}

/// Gives a buffer any other length than it has.
fn spoil_length<T: Default + Clone>(random: &mut Random, buffer: &mut Vec<T>) {
    let right = buffer.len();
    let mut lengths = vec![0, 1, right + 1, right.saturating_sub(1), 2 * right];
    lengths.retain(|&length| length != right);
    buffer.resize(random.pick(&lengths), T::default());
}

/// A byte that is none of 0-9, a-f, nor a line feed; often one close to them.
pub fn no_digit(random: &mut Random) -> u8 {
    let any = random.number() as u8;
    let byte = random.pick(&[b'/', b':', b'`', b'g', b'A', b'F', b' ', b'\r', 0, any]);
    if byte == b'\n' || matches!(byte, b'0'..=b'9' | b'a'..=b'f') {
        b'G'
    } else {
        byte
    }
}

fn any_bytes(random: &mut Random, count: usize) -> Vec<u8> {
    (0..count).map(|_| random.number() as u8).collect()
}
