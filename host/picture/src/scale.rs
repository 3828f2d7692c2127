//! From numbers to places, and the numbers that an axis shows.

use crate::svg::{group, label, line, Element};

/// The numbers from `low` to `high` laid out between two places.
#[derive(Clone, Copy)]
pub struct Scale {
    pub low: f64,
    pub high: f64,
    pub start: f64,
    pub end: f64,
}

impl Scale {
    pub fn place(self, number: f64) -> f64 {
        let part = (number - self.low) / (self.high - self.low);
        self.start + part * (self.end - self.start)
    }

    pub fn has(self, number: f64) -> bool {
        self.low <= number && number <= self.high
    }
}

/// The least step of 1, 2 or 5 times a power of ten that goes fewer than that many times into a length.
pub fn round_step(length: usize, most: usize) -> usize {
    let powers = (0..).map(|power| 10_usize.pow(power));
    let mut steps = powers.flat_map(|power| [1, 2, 5].map(|digit| digit * power));
    steps.find(|step| length / step < most).expect("steps grow")
}

/// A horizontal axis at a height, with these numbers below it.
pub fn horizontal(scale: Scale, y: f64, numbers: &[(f64, String)]) -> Element {
    let base = line((scale.start, y), (scale.end, y));
    let numbers = numbers.iter().flat_map(|(number, name)| {
        let x = scale.place(*number);
        let number = label((x, y + 18.0), name).with("text-anchor", "middle");
        [line((x, y), (x, y + 5.0)).with("stroke", "#333333"), number]
    });
    group()
        .child(base.with("stroke", "#333333"))
        .children(numbers)
}
