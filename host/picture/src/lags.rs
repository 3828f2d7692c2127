//! The lags of two cards' stamps of the same events: the comb, and no comb.

use generate::Shape;

use crate::archive::ARCHIVE;
use crate::scale::{horizontal, round_step, Scale};
use crate::stamps::{block_apart, lags, runs, BLOCK, RUNS, SHAPE};
use crate::svg::{evenly_wrapped, group, heading, label, line, rect, Drawing, Element};

/// The bins are centred on whole multiples of their width, and reach a block and a half each way.
const BIN: i32 = 25;
const BINS_EACH_WAY: i32 = 60;

const WIDTH: f64 = 368.0;
const TITLES: f64 = 38.0;
const TOP: f64 = TITLES + 16.0;
const BASE: f64 = TOP + 184.0;
const CAPTION: f64 = BASE + 66.0;
const LINE: f64 = 17.0;

/// How many lags fall into each bin.
fn histogram(lags: &[i32]) -> Vec<usize> {
    let mut bins = vec![0; (2 * BINS_EACH_WAY + 1) as usize];
    for lag in lags {
        let bin = (lag + BIN / 2).div_euclid(BIN) + BINS_EACH_WAY;
        bins[bin as usize] += 1;
    }
    bins
}

/// Both histograms on one scale, and below them how they were made.
pub fn draw() -> Drawing {
    let runs = runs(ARCHIVE);
    let apart = histogram(&lags(ARCHIVE, &runs, block_apart));
    let as_they_are = histogram(&lags(ARCHIVE, &runs, |_| 0));
    let highest = apart.iter().chain(&as_they_are).copied().max().unwrap_or(0);
    let step = round_step(highest, 6);
    let top = (highest / step + 1) * step;
    let comb = Panel {
        left: 64.0,
        step,
        top,
        colour: "#c44e1c",
        title: "A comb put in by hand: cards set a block apart",
    };
    let no_comb = Panel {
        left: 512.0,
        step,
        top,
        colour: "#0072b2",
        title: "No comb: counts of the proved archive, linked",
    };
    let caption = evenly_wrapped(&caption(), 118);
    let lines = caption.iter().zip(0..);
    let lines = lines.map(|(text, i)| label((20.0, CAPTION + LINE * f64::from(i)), text));
    let body = group()
        .child(heading(
            "The lag between two cards' stamps of the same event",
        ))
        .child(comb.draw(&apart).with("id", "comb"))
        .child(no_comb.draw(&as_they_are).with("id", "nocomb"))
        .children(lines);
    let height = CAPTION + LINE * caption.len() as f64;
    Drawing { body, height }
}

/// One histogram with its axes.
struct Panel {
    left: f64,
    /// The step of the numbers upward, and the last of them, which is above the highest bar.
    step: usize,
    top: usize,
    colour: &'static str,
    title: &'static str,
}

impl Panel {
    fn draw(&self, bins: &[usize]) -> Element {
        let bars = group().with("fill", self.colour);
        let bars = bars.children(bins.iter().zip(-BINS_EACH_WAY..).map(|(&events, bin)| {
            let x = self.lags().place(f64::from(bin) - 0.5);
            let next = self.lags().place(f64::from(bin) + 0.5);
            let y = self.events().place(events as f64);
            rect((x, y), next - x - 0.5, BASE - y)
        }));
        let title = label((self.left + WIDTH / 2.0, TITLES), self.title);
        group()
            .child(title.with("text-anchor", "middle").with("font-size", 13))
            .child(self.events_axis())
            .child(bars)
            .child(self.lags_axis())
    }

    /// Across: the bins.
    fn lags(&self) -> Scale {
        let end = f64::from(BINS_EACH_WAY) + 0.5;
        Scale {
            low: -end,
            high: end,
            start: self.left,
            end: self.left + WIDTH,
        }
    }

    /// Upward: the events in a bin.
    fn events(&self) -> Scale {
        Scale {
            low: 0.0,
            high: self.top as f64,
            start: BASE,
            end: TOP,
        }
    }

    fn lags_axis(&self) -> Element {
        let bins_in_block = f64::from(BLOCK / BIN);
        let numbers =
            [-1, 0, 1].map(|blocks| (f64::from(blocks) * bins_in_block, blocks.to_string()));
        let name = label((self.left + WIDTH / 2.0, BASE + 36.0), "lag in blocks");
        horizontal(self.lags(), BASE, &numbers).child(name.with("text-anchor", "middle"))
    }

    fn events_axis(&self) -> Element {
        let numbers = (0..=self.top).step_by(self.step);
        let lines = numbers.flat_map(|events| {
            let y = self.events().place(events as f64);
            let grid = line((self.left, y), (self.left + WIDTH, y)).with("stroke", "#e2e2e2");
            let number = label((self.left - 6.0, y + 4.0), events).with("text-anchor", "end");
            [grid, number]
        });
        let name = label((self.left - 6.0, TITLES), "events").with("text-anchor", "end");
        group().children(lines).child(name)
    }
}

fn caption() -> String {
    let Shape { n, f, c } = SHAPE;
    format!(
        "Simulated by a program that links the proved archive: the archive's step makes every next record \
         of a sound card, and the archive's lag is the lag of two counts. In each of {RUNS} runs from any \
         starting words with a lying card (n\u{a0}=\u{a0}{n}, f\u{a0}=\u{a0}{f}, c\u{a0}=\u{a0}{c}) two sound cards stamp the same \
         events from T(f) on: each with its count, with the time within the block, and with jitter of \
         its own. The lag of an event is the lag of the two counts, in blocks, plus the difference of \
         the two times. Right: the counts as they are. Left: the same events and the same jitter, but in \
         every second run the second card's count is set one block ahead or behind by hand."
    )
}
