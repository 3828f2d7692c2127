//! The beats across, without the long stretches in which no sound card shows a count.

use crate::scale::{horizontal, round_step, Scale};
use crate::svg::{group, label, rect, tenths, Element};

/// A stretch without a count that is longer than this part of all beats is cut, but for some beats
/// at each of its ends.
const PART: usize = 15;
const KEPT: usize = 3;

/// The width of the mark of a cut.
const CUT: f64 = 72.0;

/// How near to one another the middles of two numbers may be.
const NUMBERS_APART: f64 = 40.0;

/// Beats that are drawn, in stretches with a cut between any two, all on one scale.
pub struct Timeline {
    stretches: Vec<Scale>,
}

impl Timeline {
    /// The beats from 0 on between two places; `quiet` says of each whether no sound card shows a
    /// count.
    pub fn new(quiet: &[bool], left: f64, right: f64) -> Timeline {
        let ends = stretches(quiet);
        let beats: usize = ends.iter().map(|(first, last)| last - first).sum();
        let width = right - left - CUT * (ends.len() - 1) as f64;
        let mut start = left;
        let stretches = ends.iter().map(|&(first, last)| {
            let end = start + width * (last - first) as f64 / beats as f64;
            let stretch = Scale {
                low: first as f64,
                high: last as f64,
                start,
                end,
            };
            start = end + CUT;
            stretch
        });
        Timeline {
            stretches: stretches.collect(),
        }
    }

    pub fn is_drawn(&self, beat: usize) -> bool {
        self.stretches
            .iter()
            .any(|stretch| stretch.has(beat as f64))
    }

    /// Where a beat stands, which has to be one that is drawn.
    pub fn place(&self, beat: usize) -> f64 {
        let mut stretches = self.stretches.iter();
        let stretch = stretches.find(|stretch| stretch.has(beat as f64));
        stretch.expect("the beat is drawn").place(beat as f64)
    }

    /// The axis at a height: the number of each stretch's first beat, and round ones.
    pub fn axis(&self, y: f64) -> Element {
        let sum = |length: fn(&Scale) -> f64| self.stretches.iter().map(length).sum::<f64>();
        let beats = sum(|stretch| stretch.high - stretch.low);
        let width = sum(|stretch| stretch.end - stretch.start);
        let step = round_step(beats as usize, (width / NUMBERS_APART) as usize);
        let axis = self.stretches.iter().map(|stretch| {
            let first = stretch.low as usize;
            let round = (first..=stretch.high as usize).filter(|beat| beat % step == 0);
            let clear = |beat: &usize| stretch.place(*beat as f64) - stretch.start >= NUMBERS_APART;
            let numbers = [first].into_iter().chain(round.filter(clear));
            let numbers: Vec<_> = numbers
                .map(|beat| (beat as f64, beat.to_string()))
                .collect();
            horizontal(*stretch, y, &numbers)
        });
        group().with("id", "beats").children(axis)
    }

    /// The marks of the cuts from one height to another.
    pub fn cuts(&self, top: f64, bottom: f64) -> Vec<Element> {
        let pairs = self.stretches.windows(2).enumerate();
        let cut = |(number, pair): (usize, &[Scale])| {
            let hidden = pair[1].low - pair[0].high - 1.0;
            let x = pair[0].end + 4.0;
            let ground = rect((x, top), CUT - 8.0, bottom - top).with("fill", "#f1f1f1");
            let words = [
                format!("{hidden} beats"),
                "without".to_string(),
                "a count".to_string(),
            ];
            let middle = (x + CUT / 2.0 - 4.0, (top + bottom) / 2.0 - 10.0);
            let words = words.into_iter().zip(0..).map(|(words, line)| {
                let words = label((middle.0, middle.1 + 15.0 * f64::from(line)), words);
                words.with("text-anchor", "middle").with("font-size", 11)
            });
            group()
                .child(ground.with("id", format!("cut{number}")))
                .children([x, x + CUT - 8.0].map(|x| torn_edge(x, top, bottom)))
                .children(words)
        };
        pairs.map(cut).collect()
    }
}

/// The first and the last beat of each stretch that is drawn.
fn stretches(quiet: &[bool]) -> Vec<(usize, usize)> {
    let longest = (quiet.len() / PART).max(2 * KEPT);
    let mut stretches = Vec::new();
    let (mut first, mut beat) = (0, 0);
    while beat < quiet.len() {
        let length = quiet[beat..].iter().take_while(|&&quiet| quiet).count();
        if length > longest {
            stretches.push((first, beat + KEPT - 1));
            first = beat + length - KEPT;
        }
        beat += length.max(1);
    }
    stretches.push((first, quiet.len() - 1));
    stretches
}

fn torn_edge(x: f64, top: f64, bottom: f64) -> Element {
    let points = (0..).map(|point| (f64::from(point % 2 * 2 - 1), top + 6.0 * f64::from(point)));
    let points = points.take_while(|(_, y)| *y <= bottom);
    let points = points.map(|(side, y)| format!("{} {}", tenths(x + 2.0 * side), tenths(y)));
    let edge = format!("M{}", points.collect::<Vec<_>>().join("L"));
    let edge = Element::new("path").with("d", edge).with("fill", "none");
    edge.with("stroke", "#9a9a9a").with("stroke-width", 1)
}
