//! The picture: well formed, all on the page, and true to the run that it draws.

mod xml;

use std::collections::{BTreeMap, BTreeSet};
use std::env;
use std::fs;
use std::path::Path;
use std::sync::Mutex;

use picture::command::DRAWN;
use picture::stamps::{block_apart, lags, runs, BLOCK};
use picture::{picture, ARCHIVE, BEYOND};
use second::beat::is_broken;
use second::params;
use simulate::cooldown::RIGHT;
use simulate::counter::SECOND;
use simulate::plan::Plan;
use simulate::survey::Outcome;
use xml::{parse, Node};

/// Runs of few and of many cards, with small and large moduli, with and without broken cards.
const SEEDS: [u64; 7] = [DRAWN, 0, 2, 20, 1_123, 1_732, 1_840];

/// The picture of a seed, which is drawn once for all tests.
fn drawn(seed: u64) -> String {
    static PICTURES: Mutex<Vec<(u64, String)>> = Mutex::new(Vec::new());
    let mut pictures = PICTURES.lock().expect("no test has failed meanwhile");
    if let Some((_, picture)) = pictures.iter().find(|(of, _)| *of == seed) {
        return picture.clone();
    }
    pictures.push((seed, picture(seed)));
    pictures[pictures.len() - 1].1.clone()
}

fn read(seed: u64) -> Node {
    parse(&drawn(seed)).expect("the picture is well formed")
}

#[test]
fn the_reader_refuses_what_is_not_well_formed() {
    let read = |body: &str| {
        parse(&format!(
            "<?xml version=\"1.0\" encoding=\"UTF-8\"?>\n{body}"
        ))
    };
    assert!(read("<svg a=\"1\" b=\"&lt;\"><g>x &amp; y</g>\n<g/></svg>\n").is_ok());
    for wrong in [
        "",
        "<svg>",
        "<svg></g>\n",
        "<svg><g></svg></g>\n",
        "<svg/><svg/>\n",
        "<svg a=1/>\n",
        "<svg a='1'/>\n",
        "<svg a=\"1\" a=\"2\"/>\n",
        "<svg a=\"1\"b=\"2\"/>\n",
        "<svg a=\"<\"/>\n",
        "<svg a=\"&\"/>\n",
        "<svg>a & b</svg>\n",
        "<svg>&nbsp;</svg>\n",
        "<svg><!-- --></svg>\n",
        "<svg>\u{1}</svg>\n",
        "<1/>\n",
    ] {
        assert!(read(wrong).is_err(), "{wrong:?}");
    }
    assert!(parse("<svg/>\n").is_err());
}

/// What each element may have, apart from an id. Nothing here runs, loads or styles.
fn allowed(name: &str) -> &'static [&'static str] {
    match name {
        "svg" => &[
            "xmlns",
            "version",
            "width",
            "height",
            "viewBox",
            "font-family",
            "font-size",
        ],
        "title" | "desc" => &[],
        "g" => &["transform", "fill"],
        "rect" => &["x", "y", "width", "height", "fill"],
        "line" => &["x1", "y1", "x2", "y2", "stroke", "stroke-width"],
        "text" => &["x", "y", "text-anchor", "font-size", "font-weight", "fill"],
        "path" => &[
            "d",
            "fill",
            "stroke",
            "stroke-width",
            "stroke-linecap",
            "stroke-dasharray",
        ],
        _ => panic!("{name} is not an element of a plain picture"),
    }
}

#[test]
fn only_plain_elements_with_plain_attributes() {
    for seed in SEEDS {
        let svg = read(seed);
        assert_eq!(svg.attribute("xmlns"), Some("http://www.w3.org/2000/svg"));
        assert_eq!(
            [&svg.children[0].name, &svg.children[1].name],
            ["title", "desc"]
        );
        let mut ids = BTreeSet::new();
        for node in svg.all() {
            for (name, value) in &node.attributes {
                match name.as_str() {
                    "id" => assert!(ids.insert(value), "{value} is given twice"),
                    name => assert!(allowed(&node.name).contains(&name), "{name}"),
                }
            }
            let with_text = ["title", "desc", "text"].contains(&node.name.as_str());
            assert_ne!(node.text.is_empty(), with_text, "{}", node.name);
        }
    }
}

/// The parts of the picture, each with how far down it is moved.
fn parts(svg: &Node) -> Vec<(f64, &Node)> {
    let moved = |node: &Node| {
        let place = node.attribute("transform")?.strip_prefix("translate(0 ")?;
        place.strip_suffix(')')?.parse().ok()
    };
    let nodes = svg.all().into_iter();
    nodes
        .filter_map(|node| moved(node).map(|down| (down, node)))
        .collect()
}

/// Left, right, top and bottom of a text, by a width of letters that few fonts exceed.
fn text_box(down: f64, text: &Node) -> [f64; 4] {
    let size = text
        .attribute("font-size")
        .map_or(12.0, |_| text.number("font-size"));
    let width = 0.6 * size * text.text.chars().count() as f64;
    let (x, y) = (text.number("x"), text.number("y") + down);
    let left = match text.attribute("text-anchor") {
        Some("end") => x - width,
        Some("middle") => x - width / 2.0,
        _ => x,
    };
    [left, left + width, y - 0.7 * size, y]
}

#[test]
fn texts_lie_on_the_page_and_apart() {
    for seed in SEEDS {
        let svg = read(seed);
        let mut texts = Vec::new();
        for (down, part) in parts(&svg) {
            let found = part.named("text").into_iter();
            texts.extend(found.map(|text| (&text.text, text_box(down, text))));
        }
        assert_eq!(texts.len(), svg.named("text").len());
        assert!(!texts.is_empty());
        for (i, (text, [left, right, top, bottom])) in texts.iter().enumerate() {
            assert!(*left >= 0.0 && *right <= svg.number("width"), "{text:?}");
            assert!(*top >= 0.0 && *bottom <= svg.number("height"), "{text:?}");
            for (other, [from, to, above, below]) in &texts[..i] {
                let apart = to <= left || right <= from || below <= top || bottom <= above;
                assert!(apart, "seed {seed}: {text:?} and {other:?} meet");
            }
        }
    }
}

/// From places on an axis back to numbers, by two numbers of the axis and their places.
struct Axis {
    numbers: [f64; 2],
    places: [f64; 2],
}

impl Axis {
    fn new(labels: &[(f64, f64)]) -> Axis {
        let ends = [labels[0], labels[labels.len() - 1]];
        Axis {
            numbers: ends.map(|(number, _)| number),
            places: ends.map(|(_, place)| place),
        }
    }

    fn number(&self, place: f64) -> f64 {
        let part = (place - self.places[0]) / (self.places[1] - self.places[0]);
        self.numbers[0] + part * (self.numbers[1] - self.numbers[0])
    }

    /// The whole number at a place, which has to be near it.
    fn whole(&self, place: f64) -> usize {
        let number = self.number(place);
        assert!(
            (number - number.round()).abs() < 0.2,
            "{number} is between two"
        );
        number.round() as usize
    }
}

/// The texts that are numbers, with their places.
fn labels(node: &Node, place: impl Fn(&Node) -> f64) -> Vec<(f64, f64)> {
    let texts = node.named("text").into_iter();
    let number = |text: &Node| Some((text.text.parse().ok()?, place(text)));
    texts.filter_map(number).collect()
}

/// The beats across: an axis for each stretch between two cuts, with the places where it begins and ends.
struct Beats {
    stretches: Vec<([f64; 2], Axis)>,
}

impl Beats {
    fn new(svg: &Node) -> Beats {
        let (edges, labels) = (
            edges(svg),
            labels(svg.with_id("beats"), |text| text.number("x")),
        );
        let within = |[left, right]: [f64; 2]| {
            let labels = labels.iter().copied();
            let labels: Vec<_> = labels.filter(|(_, x)| (left..=right).contains(x)).collect();
            labels
        };
        let longest = edges.iter().map(|&ends| within(ends)).max_by_key(Vec::len);
        let whole = Axis::new(&longest.expect("there is an axis"));
        let stretches = edges.iter().map(|&ends| {
            let (number, place) = within(ends)[0];
            // All stretches have one scale.
            let next =
                place + (whole.places[1] - whole.places[0]) / (whole.numbers[1] - whole.numbers[0]);
            (ends, Axis::new(&[(number, place), (number + 1.0, next)]))
        });
        Beats {
            stretches: stretches.collect(),
        }
    }

    fn whole(&self, place: f64) -> usize {
        let mut stretches = self.stretches.iter();
        let found =
            stretches.find(|([left, right], _)| (left - 0.1..=right + 0.1).contains(&place));
        let (_, axis) = found.unwrap_or_else(|| panic!("{place} lies in a cut"));
        axis.whole(place)
    }

    /// The first and the last beat of each stretch.
    fn ends(&self) -> Vec<[usize; 2]> {
        let stretches = self.stretches.iter();
        stretches
            .map(|(ends, axis)| ends.map(|end| axis.whole(end)))
            .collect()
    }

    fn is_drawn(&self, beat: usize) -> bool {
        self.ends()
            .iter()
            .any(|[first, last]| (*first..=*last).contains(&beat))
    }
}

/// Where each stretch of beats begins and ends: where the lines of the axis do.
fn edges(svg: &Node) -> Vec<[f64; 2]> {
    let lines = svg.with_id("beats").named("line").into_iter();
    let level = lines.filter(|line| line.number("y1") == line.number("y2"));
    level
        .map(|line| ["x1", "x2"].map(|end| line.number(end)))
        .collect()
}

/// The ends of each stroke of a path.
fn strokes(svg: &Node, id: &str) -> Vec<[(f64, f64); 2]> {
    let strokes = svg
        .with_id(id)
        .attribute("d")
        .expect("a path")
        .split('M')
        .skip(1);
    let end = |end: &str| {
        let (x, y) = end.split_once(' ').expect("two numbers");
        let [x, y] = [x, y].map(|place| place.parse().expect("a number"));
        (x, y)
    };
    let ends = |stroke: &str| {
        let (from, to) = stroke.split_once('L').expect("two ends");
        [from, to].map(end)
    };
    strokes.map(ends).collect()
}

/// The beat and the counts of each point that a card's line goes through.
fn drawn_counts(svg: &Node, card: usize) -> BTreeMap<usize, BTreeSet<usize>> {
    let id = format!("card{card}");
    let lane = svg.named("g").into_iter().find(|group| {
        let mut within = group.children.iter();
        within.any(|node| node.attribute("id") == Some(&id))
    });
    // A number is beside its place, its base line somewhat below.
    let counts = Axis::new(&labels(lane.expect("a lane"), |text| {
        text.number("y") - 3.5
    }));
    let beats = Beats::new(svg);
    let mut drawn: BTreeMap<_, BTreeSet<_>> = BTreeMap::new();
    for ends in strokes(svg, &id) {
        let [from, to] = ends.map(|(x, y)| (beats.whole(x), counts.whole(y)));
        assert_eq!(to.0 - from.0, to.1 - from.1, "a stroke goes on by one");
        for step in 0..=to.0 - from.0 {
            let counts = drawn.entry(from.0 + step).or_default();
            counts.insert(from.1 + step);
        }
    }
    drawn
}

/// The beats on which a card is drawn to have no count.
fn drawn_without(svg: &Node, card: usize) -> BTreeSet<usize> {
    let beats = Beats::new(svg);
    let strokes = strokes(svg, &format!("none{card}")).into_iter();
    strokes
        .flat_map(|[(from, _), (to, _)]| beats.whole(from)..=beats.whole(to))
        .collect()
}

/// The second implementation goes through the same run: what it shows is what is drawn.
#[test]
fn the_lines_are_the_counts_of_the_run() {
    for seed in [DRAWN, 212, 1_123, 1_634, 5_932] {
        let (svg, plan) = (read(seed), Plan::of(seed));
        let (cards, bound, beats) = (plan.shape.n as usize, plan.bound(), Beats::new(&svg));
        let shown = plan.shown(RIGHT, bound + BEYOND);
        for card in 0..cards {
            let counts = shown.iter().map(|row| &row[card]).enumerate();
            let counts = counts.filter(|(beat, _)| beats.is_drawn(*beat));
            let (without, counts): (Vec<_>, Vec<_>) =
                counts.partition(|(_, counts)| counts.is_empty());
            let wide = |counts: &BTreeSet<u16>| counts.iter().map(|&count| count.into()).collect();
            let counts = counts
                .into_iter()
                .map(|(beat, counts)| (beat, wide(counts)));
            assert_eq!(drawn_counts(&svg, card), counts.collect(), "card {card}");
            let without = without.into_iter().map(|(beat, _)| beat);
            assert_eq!(drawn_without(&svg, card), without.collect(), "card {card}");
        }
    }
}

#[test]
fn what_is_cut_has_no_count_of_a_sound_card() {
    let mut cuts = 0;
    for seed in [DRAWN, 212, 1_123, 1_634, 5_932] {
        let (svg, plan) = (read(seed), Plan::of(seed));
        let (broken, bound) = (plan.broken, plan.bound());
        let shown = plan.shown(RIGHT, bound + BEYOND);
        let ends = Beats::new(&svg).ends();
        assert_eq!((ends[0][0], ends[ends.len() - 1][1]), (0, bound + BEYOND));
        for (number, pair) in ends.windows(2).enumerate() {
            let hidden = pair[0][1] + 1..pair[1][0];
            let said = format!("{} beats", hidden.len());
            assert!(
                svg.named("text").iter().any(|text| text.text == said),
                "{said}"
            );
            assert!(svg.with_id(&format!("cut{number}")).number("width") > 0.0);
            for row in &shown[hidden] {
                let sound = row
                    .iter()
                    .enumerate()
                    .filter(|(card, _)| !is_broken(broken, *card));
                assert!(sound.into_iter().all(|(_, counts)| counts.is_empty()));
            }
            cuts += 1;
        }
    }
    assert!(cuts > 0);
}

/// Nowhere for more than a quarter of the width is there no count of a sound card.
#[test]
fn no_wide_stretch_of_the_run_is_blank() {
    for seed in SEEDS.into_iter().chain([212, 406, 5_932]) {
        let (svg, plan) = (read(seed), Plan::of(seed));
        let edges = edges(&svg);
        let (left, right) = (edges[0][0], edges[edges.len() - 1][1]);
        let sound = (0..plan.shape.n as usize).filter(|&card| !is_broken(plan.broken, card));
        let lines = sound.flat_map(|card| strokes(&svg, &format!("card{card}")));
        let mut lines: Vec<_> = lines.map(|[(from, _), (to, _)]| [from, to]).collect();
        lines.push([right, right]);
        lines.sort_by(|one, other| one[0].total_cmp(&other[0]));
        let mut reached = left;
        for [from, to] in lines {
            assert!(
                from - reached <= (right - left) / 4.0,
                "seed {seed}: {reached} to {from}"
            );
            reached = to.max(reached);
        }
    }
}

/// The beat since when the drawn lines of all sound cards go on together to the last beat.
fn together_since(svg: &Node, plan: &Plan) -> usize {
    let (cards, modulus) = (plan.shape.n as usize, plan.shape.c as usize);
    let sound = (0..cards).filter(|&card| !is_broken(plan.broken, card));
    let lines: Vec<_> = sound.map(|card| drawn_counts(svg, card)).collect();
    let common = |beat: usize| {
        let first = lines[0].get(&beat)?;
        let alike = lines.iter().all(|line| line.get(&beat) == Some(first));
        first.iter().next().copied().filter(|_| alike)
    };
    let mut since = plan.bound() + BEYOND;
    while since > 0 && common(since - 1).map(|now| (now + 1) % modulus) == common(since) {
        since -= 1;
    }
    assert!(common(since).is_some());
    since
}

#[test]
fn the_marks_are_at_the_beats_of_the_run() {
    for seed in [DRAWN, 212, 1_123] {
        let (svg, plan, run) = (read(seed), Plan::of(seed), Outcome::of(seed, RIGHT, 1));
        let mark = |id| {
            let mark = svg.with_id(id);
            assert_eq!(mark.number("x1"), mark.number("x2"));
            Beats::new(&svg).whole(mark.number("x1"))
        };
        assert_eq!(Some(mark("agreement")), run.together_since);
        assert_eq!(mark("agreement"), together_since(&svg, &plan));
        assert_eq!(mark("bound"), params::settled(plan.shape.f as usize));
        assert_ne!(mark("agreement"), mark("bound"));
    }
}

/// What the legend says of a broken card is there to see, before the cards agree and from then on.
#[test]
fn the_broken_card_of_the_drawn_run_sends_different_counts() {
    let (svg, plan, run) = (read(DRAWN), Plan::of(DRAWN), Outcome::of(DRAWN, RIGHT, 1));
    let agreement = run.together_since.expect("the cards agree");
    assert!(2 * agreement > run.bound, "they agree late");
    let mut broken = (0..plan.shape.n as usize).filter(|&card| is_broken(plan.broken, card));
    let lane = drawn_counts(&svg, broken.next().expect("a card is broken"));
    for beats in [0..agreement, agreement..run.bound + BEYOND] {
        let sent: Vec<_> = lane.range(beats.clone()).collect();
        assert!(2 * sent.len() > beats.len(), "on most beats a count");
        assert!(sent.iter().any(|(_, counts)| counts.len() > 1));
    }
}

#[test]
fn the_first_eight_cards_have_colours_of_their_own() {
    let mut most = 0;
    for seed in SEEDS {
        let (svg, plan) = (read(seed), Plan::of(seed));
        let cards = (0..8.min(plan.shape.n as usize)).filter(|&card| !is_broken(plan.broken, card));
        let strokes = cards.map(|card| {
            let path = svg.with_id(&format!("card{card}"));
            path.attribute("stroke").expect("a colour").to_string()
        });
        let strokes: Vec<_> = strokes.collect();
        assert_eq!(strokes.iter().collect::<BTreeSet<_>>().len(), strokes.len());
        most = most.max(strokes.len());
    }
    assert_eq!(most, 8);
}

/// The texts of a part in one.
fn words(node: &Node) -> String {
    let texts = node.named("text").into_iter();
    texts
        .map(|text| text.text.as_str())
        .collect::<Vec<_>>()
        .join(" ")
}

#[test]
fn it_says_what_is_put_in_by_hand_and_what_comes_from_the_archive() {
    let svg = read(DRAWN);
    let [comb, no_comb] = ["comb", "nocomb"].map(|id| words(svg.with_id(id)));
    assert!(comb.contains("A comb put in by hand: cards set a block apart"));
    assert!(!comb.contains("archive"));
    assert!(no_comb.contains("No comb: counts of the proved archive, linked"));
    assert!(words(&svg).contains("the sound cards run the proved archive, linked"));
}

/// The drawn bins of a histogram: the middle of each in blocks, and its events.
fn drawn_bins(svg: &Node, id: &str) -> Vec<(f64, f64)> {
    let panel = svg.with_id(id);
    let with_numbers = |axis: usize| {
        let groups = panel.named("g").into_iter();
        let groups = groups.filter(|group| !group.named("text").is_empty());
        // The panel itself comes first, then its two axes.
        groups.collect::<Vec<_>>()[1 + axis]
    };
    let events = labels(with_numbers(0), |text| text.number("y") - 4.0);
    let highest = events[events.len() - 1].1;
    let (events, base) = (Axis::new(&events), events[0].1);
    let blocks = Axis::new(&labels(with_numbers(1), |text| text.number("x")));
    let bars = panel.named("rect").into_iter();
    bars.map(|bar| {
        let middle = bar.number("x") + bar.number("width") / 2.0;
        let top = bar.number("y");
        assert!(top > highest, "{id}: a bar goes beyond the numbers");
        assert!((top + bar.number("height") - base).abs() < 0.11);
        (blocks.number(middle), events.number(top))
    })
    .collect()
}

/// How many groups of neighbouring bins rise above a twentieth of the highest.
fn teeth(bins: &[(f64, f64)]) -> usize {
    let highest = bins.iter().map(|(_, events)| *events).fold(0.0, f64::max);
    let high: Vec<_> = bins
        .iter()
        .map(|(_, events)| *events > highest / 20.0)
        .collect();
    usize::from(high[0]) + high.windows(2).filter(|pair| !pair[0] && pair[1]).count()
}

#[test]
fn a_block_apart_makes_a_comb_and_agreement_makes_none() {
    let svg = read(DRAWN);
    assert_eq!(teeth(&drawn_bins(&svg, "comb")), 3);
    assert_eq!(teeth(&drawn_bins(&svg, "nocomb")), 1);

    let in_main_tooth = |lags: &[i32]| lags.iter().filter(|lag| lag.abs() < BLOCK / 2).count();
    let runs = runs(ARCHIVE);
    let [comb, no_comb] = [block_apart, |_| 0].map(|moved_in| lags(ARCHIVE, &runs, moved_in));
    assert_eq!(in_main_tooth(&no_comb), no_comb.len());
    assert_eq!(2 * in_main_tooth(&comb), comb.len());
}

/// By the second implementation the same events have the same lags.
#[test]
fn the_bars_are_the_lags() {
    const WIDTH: i32 = 25;
    let svg = read(DRAWN);
    let runs = runs(SECOND);
    for (id, moved_in) in [("comb", block_apart as fn(u64) -> i32), ("nocomb", |_| 0)] {
        let lags = lags(SECOND, &runs, moved_in);
        let mut seen = 0;
        for (blocks, events) in drawn_bins(&svg, id) {
            let bin = blocks * f64::from(BLOCK / WIDTH);
            assert!(
                (bin - bin.round()).abs() < 0.2,
                "{id}: {bin} is between two"
            );
            let middle = WIDTH * bin.round() as i32;
            let within = |lag: &&i32| (**lag - middle).abs() <= WIDTH / 2;
            let counted = lags.iter().filter(within).count();
            assert!(
                (events - counted as f64).abs() < 1.0,
                "{id} at {middle}: {events}"
            );
            seen += counted;
        }
        assert_eq!(seen, lags.len());
    }
}

#[test]
fn a_seed_gives_one_picture() {
    assert!(picture(406) == picture(406));
    assert!(drawn(406) != drawn(DRAWN));
}

#[test]
fn the_picture_in_the_documents_is_the_one_drawn() {
    let package = env::var_os("CARGO_MANIFEST_DIR").expect("cargo names the package's folder");
    let path = Path::new(&package).join("../../docs/counts.svg");
    let kept = fs::read_to_string(path).expect("docs/counts.svg can be read");
    assert!(
        kept == drawn(DRAWN),
        "./tsendurkho simulate --svg docs/counts.svg"
    );
}
