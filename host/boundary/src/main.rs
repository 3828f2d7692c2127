//! Calls at their limits for boundary.c, a line each, with the second implementation's answers:
//!
//!     step N F C CARD RECORDS OUT REFUSAL AFTER
//!     lag C X Y REFUSAL VALUE
//!     record F C WORDS BEATS BYTES SHOWN
//!
//! Numbers are decimal. RECORDS are the bytes given, OUT and AFTER those of the output buffer before and after the call,
//! in hexadecimal, a dash for none. WORDS and BEATS are W and T(f), BYTES a record, and SHOWN the count that it shows.

use generate::calls::{Call, LagCall, StepBytesCall};
use generate::{Random, Shape};
use second::bytes::bytes_of;
use second::card::shown;
use second::count::write;
use second::params::{parameters, MOST_MODULUS};
use second::refusal::Refusal;

fn main() {
    let mut random = Random::new(1);
    for shape in Shape::each(&mut random) {
        let sound = sound(&mut random, shape);
        at_every_length(&mut random, &sound);
        at_every_number(&sound);
    }
    for c in limits(65_535) {
        for x in limits(c) {
            for y in limits(c) {
                print_lag(LagCall { c, x, y });
            }
        }
    }
    for shape in Shape::each(&mut random) {
        for c in [shape.c, MOST_MODULUS].repeat(10) {
            let shape = Shape { c, ..shape };
            print_record(shape, &shape.record(&mut random));
        }
    }
}

/// A step that succeeds; its output buffer holds any bytes.
fn sound(random: &mut Random, shape: Shape) -> StepBytesCall {
    let Shape { n, f, c } = shape;
    StepBytesCall {
        n,
        f,
        c,
        card: random.between(0, n - 1),
        records: bytes_of(&shape.table(random)),
        out: bytes_of(&shape.record(random)),
    }
}

/// The same step with each buffer none, one byte, as long as it should be, and a byte or a word more or less.
fn at_every_length(random: &mut Random, sound: &StepBytesCall) {
    for records in about(sound.records.len()) {
        for out in about(sound.out.len()) {
            let mut call = sound.clone();
            call.records.resize_with(records, || random.number() as u8);
            call.out.resize_with(out, || random.number() as u8);
            print_step(call);
        }
    }
}

/// Lengths at which the answer changes, or might.
fn about(length: usize) -> Vec<usize> {
    let mut lengths = vec![0, 1, length - 2, length - 1, length, length + 1, length + 2];
    lengths.sort_unstable();
    lengths.dedup();
    lengths
}

/// The same step with each number at its limits, or good only if cut to a byte or a word, and with all of them as large
/// as can be; with its buffers and without.
fn at_every_number(sound: &StepBytesCall) {
    let StepBytesCall { n, f, c, card, .. } = *sound;
    let mut numbers = vec![(u32::MAX, u32::MAX, u32::MAX, u32::MAX)];
    for n in [0, 1, 16, 17, n + 256, n + 65_536, u32::MAX] {
        numbers.push((n, f, c, card));
    }
    let most = (n - 1) / 3;
    for f in [0, 5, 6, most, most + 1, f + 256, f + 65_536, u32::MAX] {
        numbers.push((n, f, c, card));
    }
    for c in [0, 1, 2, 65_535, 65_536, c + 65_536, u32::MAX] {
        numbers.push((n, f, c, card));
    }
    for card in [0, n - 1, n, card + 256, card + 65_536, u32::MAX] {
        numbers.push((n, f, c, card));
    }
    for (n, f, c, card) in numbers {
        let with_buffers = StepBytesCall {
            n,
            f,
            c,
            card,
            ..sound.clone()
        };
        let without = StepBytesCall {
            records: Vec::new(),
            out: Vec::new(),
            ..with_buffers.clone()
        };
        print_step(with_buffers);
        print_step(without);
    }
}

/// The least numbers, those about this one and about its half, and the largest.
fn limits(number: u32) -> Vec<u32> {
    let half = number / 2;
    let mut limits = vec![0, 1, 2, half, half.saturating_add(1), u32::MAX];
    limits.extend([number.saturating_sub(1), number, number.saturating_add(1)]);
    limits.sort_unstable();
    limits.dedup();
    limits
}

fn print_step(call: StepBytesCall) {
    let StepBytesCall { n, f, c, card, .. } = call;
    let mut made = call.clone();
    let refusal = number(made.make());
    let [records, out, after] =
        [&call.records, &call.out, &made.out].map(|bytes| hexadecimal(bytes));
    println!("step {n} {f} {c} {card} {records} {out} {refusal} {after}");
}

fn print_lag(mut call: LagCall) {
    let LagCall { c, x, y } = call;
    let answer = call.make();
    println!("lag {c} {x} {y} {} {}", number(answer), answer.unwrap_or(0));
}

fn print_record(shape: Shape, record: &[u16]) {
    let Shape { n, f, c } = shape;
    let known = parameters(n, f).expect("a shape is not refused");
    let count = shown(n, f, c, record).expect("nor is its record");
    let bytes = hexadecimal(&bytes_of(record));
    println!(
        "record {f} {c} {} {} {bytes} {}",
        known.words,
        known.settled,
        write(count)
    );
}

fn number<T>(answer: Result<T, Refusal>) -> u8 {
    answer.err().map_or(0, Refusal::number)
}

fn hexadecimal(bytes: &[u8]) -> String {
    if bytes.is_empty() {
        return "-".to_string();
    }
    bytes.iter().map(|byte| format!("{byte:02x}")).collect()
}
