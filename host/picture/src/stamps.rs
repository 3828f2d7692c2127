//! Two cards that stamp the same events, and the lags between their stamps.
//!
//! A stamp is a card's count and the time within the block. Each card has its own jitter.

use generate::{Random, Shape};
use second::beat::is_broken;
use simulate::cooldown::RIGHT;
use simulate::counter::Counter;
use simulate::level::stepped;
use simulate::plan::{Lies, Plan};

/// The ticks of time in a block, which is from one beat to the next.
pub const BLOCK: i32 = 1_000;

/// The racks, all from any starting words and with a lying card. Their events come from T(f) on.
pub const SHAPE: Shape = Shape { n: 4, f: 1, c: 8 };
pub const RUNS: u64 = 64;
const BLOCKS: usize = 40;
const EVENTS_IN_BLOCK: usize = 4;

/// The counts of the first two sound cards of each run, stepped by this program.
pub fn runs(counter: Counter) -> Vec<[Vec<u16>; 2]> {
    (0..RUNS).map(|run| counts_of_two(counter, run)).collect()
}

/// The lag of each event in ticks, where in each run the second card's count is moved by that many
/// blocks.
pub fn lags(counter: Counter, runs: &[[Vec<u16>; 2]], moved_in: fn(u64) -> i32) -> Vec<i32> {
    let lags_of = |(run, [one, other]): (u64, &[Vec<u16>; 2])| {
        let moved = |&count| stepped(count, SHAPE.c as u16, moved_in(run));
        let other: Vec<_> = other.iter().map(moved).collect();
        lags_in_run(counter, run, [one, &other])
    };
    (0..).zip(runs).flat_map(lags_of).collect()
}

/// The comb, put in by hand: in every second run the cards are a block apart.
pub fn block_apart(run: u64) -> i32 {
    [0, 1, 0, -1][(run % 4) as usize]
}

/// The counts of the first two sound cards from T(f) on.
fn counts_of_two(counter: Counter, run: u64) -> [Vec<u16>; 2] {
    let plan = Plan::new(SHAPE, Lies::Directed, Random::new(run)).counted_by(counter);
    let (settled, broken) = (plan.bound(), plan.broken);
    let shown = plan.shown(RIGHT, settled + BLOCKS + 1);
    let mut sound = (0..SHAPE.n as usize).filter(|&card| !is_broken(broken, card));
    [(); 2].map(|()| {
        let card = sound.next().expect("most cards are sound");
        let counts = shown[settled..].iter().map(|row| row[card].iter().next());
        counts
            .map(|count| *count.expect("a settled card shows a count"))
            .collect()
    })
}

fn lags_in_run(counter: Counter, run: u64, counts: [&[u16]; 2]) -> Vec<i32> {
    let mut random = Random::new(run);
    let mut lags = Vec::new();
    for event in 0..BLOCKS * EVENTS_IN_BLOCK {
        let block = 1 + event / EVENTS_IN_BLOCK;
        let time = BLOCK * block as i32 + random.below(BLOCK as usize) as i32;
        let [one, other] = counts.map(|counts| {
            let time = time + jitter(&mut random);
            (counts[(time / BLOCK) as usize], time % BLOCK)
        });
        let blocks = (counter.lag)(SHAPE, one.0, other.0);
        lags.push(BLOCK * blocks + one.1 - other.1);
    }
    lags
}

/// A bell of ticks around 0, far narrower than a block.
fn jitter(random: &mut Random) -> i32 {
    let parts = [(); 4].map(|()| random.below(101) as i32 - 50);
    parts.iter().sum()
}
