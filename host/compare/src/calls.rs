//! The calls: their refusals, and the answer or the buffer afterwards, refused or not.

use generate::calls::{
    BeatCall, Call, LagCall, ParametersCall, ReadCall, ShownCall, StepBytesCall, StepCall,
    WriteCall,
};
use generate::Random;
use second::params::{Parameters, MOST_CARDS};
use second::refusal::Refusal;

use crate::case::Case;
use crate::shapes::small_shape;
use crate::value::{apply, Value};

/// A call whose refusal and whose answer are definitions.
pub trait Defined: Call {
    /// The definition of its refusal, applied to its inputs.
    fn refusal(&self) -> String;

    /// The definition of its answer, applied to its inputs.
    fn answer(&self) -> String;

    /// What the second implementation answers, of the call afterwards and its value, if any.
    fn answered(&self, value: Option<Self::Value>) -> Value;
}

/// How many calls of a case are asked only for their refusal, which costs next to nothing.
const REFUSED: usize = 8;

/// A call, in every third case refused, and some more refusals.
pub fn case<C: Defined>(random: &mut Random) -> Case {
    let mut call = C::of_shape(small_shape(random, MOST_CARDS), random);
    if random.one_in(3) {
        spoil(&mut call, random);
    }
    let mut case = answered(call);
    for place in 1..=REFUSED {
        let mut call = C::sound(random);
        spoil(&mut call, random);
        let (term, made) = (call.refusal(), call.make());
        case = case.says(&format!("refusal-{place}"), term, number_of(&made));
    }
    case
}

/// The refusal of a call, and its answer.
pub fn answered<C: Defined>(mut call: C) -> Case {
    let case = Case::new(format!("{call:?}"));
    let (refusal, answer) = (call.refusal(), call.answer());
    let made = call.make();
    let number = number_of(&made);
    case.says("refusal", refusal, number)
        .says("answer", answer, call.answered(made.ok()))
}

/// The refusal's number, or 0.
fn number_of<T>(made: &Result<T, Refusal>) -> Value {
    let number = made.as_ref().err().map_or(0, |refusal| refusal.number());
    Value::Number(number.into())
}

/// Makes some of the call's refusals apply, the last of the table first.
fn spoil<C: Call>(call: &mut C, random: &mut Random) {
    let tested = C::REFUSALS;
    let chosen: Vec<Refusal> = (0..random.between(1, 3))
        .map(|_| random.pick(tested))
        .collect();
    for &refusal in tested.iter().rev().filter(|row| chosen.contains(row)) {
        call.spoil(refusal, random);
    }
}

impl Defined for ParametersCall {
    fn refusal(&self) -> String {
        apply("shape_refusal", &[&self.n, &self.f, &0])
    }

    fn answer(&self) -> String {
        apply("params_answer", &[&self.n, &self.f])
    }

    fn answered(&self, row: Option<Parameters>) -> Value {
        Value::Row(row.unwrap_or(Parameters {
            t: 0,
            c0: 0,
            c1: 0,
            restart: 0,
            words: 0,
            settled: 0,
        }))
    }
}

impl Defined for StepCall {
    fn refusal(&self) -> String {
        let StepCall { n, f, c, card, .. } = self;
        let (records, out) = (self.records.len(), self.out.len());
        apply("step_refusal", &[n, f, c, card, &records, &out])
    }

    fn answer(&self) -> String {
        let StepCall { n, f, c, card, .. } = self;
        let (records, out) = (Value::list(&self.records), Value::list(&self.out));
        apply("step_out", &[n, f, c, card, &records, &out])
    }

    fn answered(&self, _: Option<()>) -> Value {
        Value::list(&self.out)
    }
}

impl Defined for StepBytesCall {
    fn refusal(&self) -> String {
        let StepBytesCall { n, f, c, card, .. } = self;
        let (records, out) = (self.records.len(), self.out.len());
        apply("step_bytes_refusal", &[n, f, c, card, &records, &out])
    }

    fn answer(&self) -> String {
        let StepBytesCall { n, f, c, card, .. } = self;
        let (records, out) = (Value::list(&self.records), Value::list(&self.out));
        apply("step_bytes_out", &[n, f, c, card, &records, &out])
    }

    fn answered(&self, _: Option<()>) -> Value {
        Value::list(&self.out)
    }
}

impl Defined for BeatCall {
    fn refusal(&self) -> String {
        let BeatCall {
            n, f, c, broken, ..
        } = self;
        let (records, sent, out) = (self.records.len(), self.sent.len(), self.out.len());
        apply("beat_refusal", &[n, f, c, broken, &records, &sent, &out])
    }

    fn answer(&self) -> String {
        let BeatCall {
            n, f, c, broken, ..
        } = self;
        let (records, sent) = (Value::list(&self.records), Value::list(&self.sent));
        let out = Value::list(&self.out);
        apply("beat_out", &[n, f, c, broken, &records, &sent, &out])
    }

    fn answered(&self, _: Option<()>) -> Value {
        Value::list(&self.out)
    }
}

impl Defined for ShownCall {
    fn refusal(&self) -> String {
        let ShownCall { n, f, c, record } = self;
        apply("shown_refusal", &[n, f, c, &record.len()])
    }

    fn answer(&self) -> String {
        let ShownCall { n, f, c, record } = self;
        apply("shown_answer", &[n, f, c, &Value::list(record)])
    }

    fn answered(&self, shown: Option<Option<u16>>) -> Value {
        Value::Vote(shown.unwrap_or(Some(0)))
    }
}

impl Defined for LagCall {
    fn refusal(&self) -> String {
        apply("lag_refusal", &[&self.c, &self.x, &self.y])
    }

    fn answer(&self) -> String {
        apply("lag_answer", &[&self.c, &self.x, &self.y])
    }

    fn answered(&self, lag: Option<i32>) -> Value {
        Value::Integer(lag.unwrap_or(0).into())
    }
}

impl Defined for WriteCall {
    fn refusal(&self) -> String {
        let WriteCall { n, f, record, out } = self;
        apply("write_refusal", &[n, f, &record.len(), &out.len()])
    }

    fn answer(&self) -> String {
        let WriteCall { n, f, record, out } = self;
        apply(
            "write_out",
            &[n, f, &Value::list(record), &Value::list(out)],
        )
    }

    fn answered(&self, _: Option<()>) -> Value {
        Value::list(&self.out)
    }
}

impl Defined for ReadCall {
    fn refusal(&self) -> String {
        let ReadCall { n, f, text, out } = self;
        apply("read_refusal", &[n, f, &Value::list(text), &out.len()])
    }

    fn answer(&self) -> String {
        let ReadCall { n, f, text, out } = self;
        apply("read_out", &[n, f, &Value::list(text), &Value::list(out)])
    }

    fn answered(&self, _: Option<()>) -> Value {
        Value::list(&self.out)
    }
}
