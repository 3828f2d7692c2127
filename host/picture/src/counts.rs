//! The counts of one run: beats across, a lane for each card.

use std::collections::BTreeSet;

use second::beat::is_broken;
use simulate::plan::Row;
use simulate::survey::Outcome;

use crate::scale::Scale;
use crate::strokes::{gaps, strokes};
use crate::svg::{group, heading, label, line, rect, tenths, Drawing, Element};
use crate::timeline::Timeline;

const LEFT: f64 = 120.0;
const RIGHT: f64 = 880.0;

/// Where the lanes begin, and above them the base lines of the marks' words.
const LANES: f64 = 86.0;
const LOW_WORDS: f64 = LANES - 10.0;
const HIGH_WORDS: f64 = LANES - 28.0;

/// A mark as far left as this has its words to the right.
const WORDS_WIDTH: f64 = 370.0;

/// Strong colours that the colour-blind can tell apart too.
const COLOURS: [&str; 8] = [
    "#0072b2", "#d55e00", "#009e73", "#aa3377", "#c28e00", "#3d4fb8", "#4a9fd8", "#7a4419",
];
const GREY: &str = "#7d7d7d";

/// The program of the sound cards.
const PROGRAM: &str = "the proved archive, linked";

/// A run, and what its cards show after each beat that is drawn.
pub struct Counts {
    run: Outcome,
    broken: u32,
    shown: Vec<Row>,
    beats: Timeline,
}

impl Counts {
    pub fn new(run: Outcome, broken: u32, mut shown: Vec<Row>) -> Counts {
        let is_quiet = |row: &Row| {
            let mut cards = row.iter().enumerate();
            cards.all(|(card, counts)| counts.is_empty() || is_broken(broken, card))
        };
        let quiet: Vec<_> = shown.iter().map(is_quiet).collect();
        let beats = Timeline::new(&quiet, LEFT, RIGHT);
        let hidden = |beat: &usize| !beats.is_drawn(*beat);
        for beat in (0..shown.len()).filter(hidden) {
            shown[beat].fill(BTreeSet::new());
        }
        Counts {
            run,
            broken,
            shown,
            beats,
        }
    }

    pub fn title(&self) -> String {
        let (cards, broken) = (self.run.shape.n, self.broken.count_ones());
        format!("From any starting words to one count (cards: {cards}, broken: {broken})")
    }

    pub fn draw(&self) -> Drawing {
        let lanes = (0..self.run.shape.n as usize).map(|card| self.lane(card));
        let body = group()
            .child(heading(self.title()))
            .child(self.shape())
            .child(self.ground(self.run.together_since, "#eaf6ee"))
            .child(self.ground(Some(self.run.bound), "#cfead8"))
            .children(lanes)
            .children(self.beats.cuts(LANES, self.lanes_end()))
            .child(self.axis())
            .children(self.marks())
            .child(self.legend());
        let height = self.lanes_end() + 46.0;
        Drawing { body, height }
    }

    fn shape(&self) -> Element {
        let (shape, lies, seed) = (self.run.shape, self.run.lies, self.run.seed);
        let shape = format!("n = {}, f = {}, c = {}", shape.n, shape.f, shape.c);
        let words = format!("{shape}, lies: {lies}, seed {seed}; the sound cards run {PROGRAM}");
        label((20.0, 34.0), words)
    }

    fn lanes_end(&self) -> f64 {
        LANES + f64::from(self.run.shape.n) * self.lane_height()
    }

    /// Few cards have high lanes.
    fn lane_height(&self) -> f64 {
        (336.0 / f64::from(self.run.shape.n))
            .clamp(28.0, 48.0)
            .floor()
    }

    /// The ground of all beats from this one on.
    fn ground(&self, beat: Option<usize>, colour: &str) -> Element {
        let x = beat.map_or(RIGHT, |beat| self.beats.place(beat));
        rect((x, LANES), RIGHT - x, self.lanes_end() - LANES).with("fill", colour)
    }

    fn lane(&self, card: usize) -> Element {
        let top = LANES + card as f64 * self.lane_height();
        let base = top + self.lane_height();
        let last = f64::from(self.run.shape.c - 1);
        let counts = Scale {
            low: 0.0,
            high: last,
            start: base - 7.0,
            end: top + 7.0,
        };
        let number = |count: f64| {
            let number = label((LEFT - 6.0, counts.place(count) + 3.5), count);
            number.with("text-anchor", "end").with("font-size", 10)
        };
        group()
            .child(line((LEFT, base), (RIGHT, base)).with("stroke", "#d8d8d8"))
            .children(self.name(card, (top + base) / 2.0))
            .child(number(0.0))
            .child(number(last))
            .child(self.gaps(card, base - 2.5))
            .child(self.path(card, counts))
    }

    fn name(&self, card: usize, middle: f64) -> Vec<Element> {
        let name = |y, text: String| label((20.0, y), text).with("fill", self.colour(card));
        let card_name = |y| name(y, format!("card {card}")).with("font-weight", "bold");
        if is_broken(self.broken, card) {
            let broken = name(middle + 11.0, "broken".to_string());
            vec![card_name(middle - 1.0), broken.with("font-size", 11)]
        } else {
            vec![card_name(middle + 4.0)]
        }
    }

    fn colour(&self, card: usize) -> &'static str {
        match is_broken(self.broken, card) {
            true => GREY,
            false => COLOURS[card % COLOURS.len()],
        }
    }

    fn path(&self, card: usize, counts: Scale) -> Element {
        let strokes = strokes(&self.shown, card).into_iter().map(|stroke| {
            let [x, end_x] =
                [0, stroke.steps].map(|steps| self.x(stroke.beat + usize::from(steps)));
            let [y, end_y] = [0, stroke.steps].map(|steps| {
                let count = f64::from(stroke.count) + f64::from(steps);
                tenths(counts.place(count))
            });
            format!("M{x} {y}L{end_x} {end_y}")
        });
        let path = Element::new("path").with("id", format!("card{card}"));
        let path = path.with("d", strokes.collect::<String>());
        drawn(path, self.colour(card), is_broken(self.broken, card))
    }

    /// A thin line below, where there is no count.
    fn gaps(&self, card: usize, y: f64) -> Element {
        let gaps = gaps(&self.shown, card, |beat| self.beats.is_drawn(beat));
        let gaps = gaps.into_iter().map(|(first, last)| {
            let [x, end] = [first, last].map(|beat| self.x(beat));
            format!("M{x} {y}L{end} {y}")
        });
        thin(gaps.collect()).with("id", format!("none{card}"))
    }

    fn x(&self, beat: usize) -> f64 {
        tenths(self.beats.place(beat))
    }

    fn axis(&self) -> Element {
        let name = label((RIGHT, self.lanes_end() + 40.0), "beat").with("text-anchor", "end");
        group().child(self.beats.axis(self.lanes_end())).child(name)
    }

    /// The marks of agreement and of T(f). T(f) is the later one: its words are above if they
    /// reach back over the other mark, or else below, where the other's words reach over it.
    fn marks(&self) -> Vec<Element> {
        let bound = self.run.bound;
        let (agreement_y, bound_y) = match self.has_words_left(bound) {
            true => (LOW_WORDS, HIGH_WORDS),
            false => (HIGH_WORDS, LOW_WORDS),
        };
        let agreement = self.run.together_since.map(|beat| {
            let words = format!("beat {beat}: from here on all sound cards count together");
            self.mark("agreement", beat, agreement_y, words)
        });
        let words = format!("T(f) = {bound}: from here on it is proved that they do");
        let bound = self.mark("bound", bound, bound_y, words);
        agreement.into_iter().chain([bound]).collect()
    }

    fn has_words_left(&self, beat: usize) -> bool {
        self.beats.place(beat) > WORDS_WIDTH
    }

    fn mark(&self, id: &str, beat: usize, y: f64, words: String) -> Element {
        let x = self.beats.place(beat);
        let mark = line((x, y - 10.0), (x, self.lanes_end())).with("id", id);
        let words = match self.has_words_left(beat) {
            true => label((x - 6.0, y), words).with("text-anchor", "end"),
            false => label((x + 6.0, y), words),
        };
        group()
            .child(mark.with("stroke", "#1b1b1b").with("stroke-width", 1.5))
            .child(words)
    }

    fn legend(&self) -> Element {
        let y = self.lanes_end() + 40.0;
        let sample = |x: f64, colour, is_broken| {
            let stroke = format!("M{x} {y}L{} {}", x + 24.0, y - 8.0);
            drawn(Element::new("path").with("d", stroke), colour, is_broken)
        };
        group()
            .child(sample(LEFT, COLOURS[0], false))
            .child(label((LEFT + 32.0, y), "sound: the count shown"))
            .child(sample(LEFT + 200.0, GREY, true))
            .child(label(
                (LEFT + 232.0, y),
                "broken: all counts sent to sound cards",
            ))
            .child(thin(format!("M{} {y}L{} {y}", LEFT + 530.0, LEFT + 554.0)))
            .child(label((LEFT + 562.0, y), "no count"))
    }
}

/// A card's path: strong where the card is sound, grey and dotted where it is broken.
fn drawn(path: Element, colour: &str, is_broken: bool) -> Element {
    let path = path.with("fill", "none").with("stroke", colour);
    let path = path.with("stroke-width", 3).with("stroke-linecap", "round");
    match is_broken {
        true => path.with("stroke-dasharray", "0.1 5"),
        false => path,
    }
}

fn thin(strokes: String) -> Element {
    let path = Element::new("path").with("d", strokes).with("fill", "none");
    let path = path.with("stroke", "#b0b0b0").with("stroke-width", 1.6);
    path.with("stroke-linecap", "round")
}
