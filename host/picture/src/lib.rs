//! The picture of a run and of what its agreement is for, as one SVG file. The proved archive
//! steps the sound cards that are drawn.

#![forbid(unsafe_code)]

mod archive;
pub mod command;
mod counts;
mod lags;
mod scale;
pub mod stamps;
mod strokes;
mod svg;
mod timeline;

pub use archive::ARCHIVE;

use simulate::cooldown::RIGHT;
use simulate::plan::Plan;
use simulate::survey::Outcome;

use crate::counts::Counts;
use crate::svg::{group, rect, Drawing, Element};

const WIDTH: f64 = 900.0;
const MARGIN: f64 = 20.0;

/// How many beats beyond T(f) are drawn.
pub const BEYOND: usize = 16;

/// The run with this seed above the histograms of lags, which are the same for every seed.
pub fn picture(seed: u64) -> String {
    let run = Outcome::counted_by(ARCHIVE, seed, RIGHT, 1);
    let plan = Plan::of(seed).counted_by(ARCHIVE);
    let broken = plan.broken;
    let shown = plan.shown(RIGHT, run.bound + BEYOND);
    let counts = Counts::new(run, broken, shown);
    let file = stacked(&counts.title(), vec![counts.draw(), lags::draw()]);
    format!("<?xml version=\"1.0\" encoding=\"UTF-8\"?>\n{file}")
}

/// The parts one below the other on white ground.
fn stacked(title: &str, parts: Vec<Drawing>) -> Element {
    let mut height = MARGIN;
    let mut bodies = Vec::new();
    for part in parts {
        let place = format!("translate(0 {height})");
        bodies.push(part.body.with("transform", place));
        height += part.height + MARGIN;
    }
    Element::new("svg")
        .with("xmlns", "http://www.w3.org/2000/svg")
        .with("version", "1.1")
        .at("width", WIDTH)
        .at("height", height)
        .with("viewBox", format!("0 0 {WIDTH} {height}"))
        .with("font-family", "sans-serif")
        .with("font-size", 12)
        .child(Element::new("title").text(title))
        .child(Element::new("desc").text(DESCRIPTION))
        .child(rect((0.0, 0.0), WIDTH, height).with("fill", "#ffffff"))
        .child(group().children(bodies).with("fill", "#1b1b1b"))
}

const DESCRIPTION: &str =
    "Above, beats across and a lane for each card with its counts: the sound \
    cards, which run the proved archive, come to one count before T(f). Below, histograms of the \
    lag between two cards: on the left three teeth, put in by hand, as the cards are set a block \
    apart in some runs; on the right the one tooth of cards that run the proved archive.";
