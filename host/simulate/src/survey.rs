//! Many runs, one for each seed from 0 on.

use generate::Shape;

use crate::cooldown::Cooldown;
use crate::counter::{Counter, SECOND};
use crate::plan::Plan;

/// Beats watched in any case beyond T(f), to see agreement last.
const BEYOND: usize = 48;

/// How a run came out.
#[derive(Clone, Copy, Debug, PartialEq, Eq)]
pub struct Outcome {
    pub seed: u64,
    pub shape: Shape,
    /// The name of how the broken cards lie.
    pub lies: &'static str,
    /// T(f).
    pub bound: usize,
    /// The beats watched.
    pub watched: usize,
    /// The beat since when the sound cards count together.
    pub together_since: Option<usize>,
}

impl Outcome {
    /// The run with this seed, watched for that many times T(f) and somewhat longer.
    pub fn of(seed: u64, cooldown: Cooldown, times: usize) -> Outcome {
        Outcome::counted_by(SECOND, seed, cooldown, times)
    }

    /// The same, of cards that run another program.
    pub fn counted_by(counter: Counter, seed: u64, cooldown: Cooldown, times: usize) -> Outcome {
        let plan = Plan::of(seed).counted_by(counter);
        let bound = plan.bound();
        let watched = times * bound + BEYOND;
        Outcome {
            seed,
            shape: plan.shape,
            lies: plan.lies(),
            bound,
            watched,
            together_since: plan.together_since(cooldown, watched),
        }
    }

    pub fn is_late(&self) -> bool {
        self.beat() > self.bound
    }

    /// The beat of agreement, or one that never comes.
    fn beat(&self) -> usize {
        self.together_since.unwrap_or(usize::MAX)
    }
}

/// The runs with seeds 0, 1, 2 and so on under one rule for the cooldown.
pub struct Survey {
    pub cooldown: Cooldown,
    pub outcomes: Vec<Outcome>,
}

impl Survey {
    pub fn new(cooldown: Cooldown, runs: u64) -> Survey {
        let run = |seed| Outcome::of(seed, cooldown, 1);
        Survey {
            cooldown,
            outcomes: (0..runs).map(run).collect(),
        }
    }

    pub fn with_f(&self, f: u32) -> Vec<Outcome> {
        let outcomes = self.outcomes.iter().copied();
        outcomes.filter(|run| run.shape.f == f).collect()
    }
}

/// The latest of some outcomes, the first of them on a tie.
pub fn latest(outcomes: &[Outcome]) -> Option<Outcome> {
    let backwards = outcomes.iter().rev().copied();
    backwards.max_by_key(Outcome::beat)
}

/// Those that are later than T(f).
pub fn late(outcomes: &[Outcome]) -> Vec<Outcome> {
    let outcomes = outcomes.iter().copied();
    outcomes.filter(Outcome::is_late).collect()
}
