//! One run from its seed: the shape, the start, the broken cards and how they lie.

use std::collections::BTreeSet;

use generate::{Random, Shape};
use second::count;
use second::params;

use crate::cooldown::Cooldown;
use crate::counter::{Counter, SECOND};
use crate::directed::Directed;
use crate::level::Level;
use crate::liars::Liars;
use crate::scene::{Adversary, Scene};
use crate::start::Start;
use crate::strategy::{Strategy, STRATEGIES};

/// The counts of each card: none or one of a sound card, any number of a broken one.
pub type Row = Vec<BTreeSet<u16>>;

/// How the broken cards of a run lie.
#[derive(Clone, Copy)]
pub enum Lies {
    Alike(Strategy),
    Mixed,
    Directed,
}

impl Lies {
    /// The directed adversary has most to try out: when to jump, and at which phase.
    pub fn random(random: &mut Random) -> Lies {
        match random.below(6) {
            0 | 1 => Lies::Directed,
            2 => Lies::Mixed,
            _ => Lies::Alike(random.pick(&STRATEGIES)),
        }
    }

    pub fn name(self) -> &'static str {
        match self {
            Lies::Alike(strategy) => strategy.name,
            Lies::Mixed => "mixed",
            Lies::Directed => "directed",
        }
    }
}

pub struct Plan {
    pub shape: Shape,
    pub start: Start,
    pub broken: u32,
    lies: Lies,
    table: Vec<u16>,
    counter: Counter,
    adversary: Box<dyn Adversary>,
}

impl Plan {
    pub fn of(seed: u64) -> Plan {
        let mut random = Random::new(seed);
        let shape = Shape::random(&mut random);
        let lies = Lies::random(&mut random);
        Plan::new(shape, lies, random)
    }

    pub fn new(shape: Shape, lies: Lies, mut random: Random) -> Plan {
        let start = random.pick(&Start::ALL);
        let table = start.table(shape, &mut random);
        let (broken, adversary): (u32, Box<dyn Adversary>) = match lies {
            Lies::Directed if shape.f > 0 => {
                let directed = Directed::new(Level::outermost(shape), &mut random);
                (directed.broken(&mut random), Box::new(directed))
            }
            _ => {
                let broken = shape.broken_set(&mut random);
                let strategies = match lies {
                    Lies::Alike(strategy) => vec![strategy],
                    _ => (0..shape.n).map(|_| random.pick(&STRATEGIES)).collect(),
                };
                (broken, Box::new(Liars::new(strategies, random)))
            }
        };
        Plan {
            shape,
            start,
            broken,
            lies,
            table,
            counter: SECOND,
            adversary,
        }
    }

    /// The same run, of cards with another program.
    pub fn counted_by(self, counter: Counter) -> Plan {
        Plan { counter, ..self }
    }

    /// T(f).
    pub fn bound(&self) -> usize {
        params::settled(self.shape.f as usize)
    }

    /// The name of how the broken cards lie, if there are any.
    pub fn lies(&self) -> &'static str {
        if self.broken == 0 {
            "nobody"
        } else {
            self.lies.name()
        }
    }

    fn begin(self, cooldown: Cooldown) -> (Scene, Box<dyn Adversary>) {
        let scene = Scene::new(self.shape, self.broken, self.table, cooldown);
        (scene.counted_by(self.counter), self.adversary)
    }

    /// The beat since when all sound cards show the same count and go on by one, if they do
    /// after that many beats.
    pub fn together_since(self, cooldown: Cooldown, beats: usize) -> Option<usize> {
        let modulus = self.shape.c as u16;
        let (mut scene, mut adversary) = self.begin(cooldown);
        let mut since = scene.common_count().map(|_| 0);
        while scene.beat < beats {
            let awaited = scene.common_count().map(|now| count::next(now, modulus));
            scene.advance(adversary.as_mut());
            let now = scene.common_count();
            if now != awaited || now.is_none() {
                since = now.map(|_| scene.beat);
            }
        }
        since
    }

    /// The counts after 0 to that many beats: of a sound card the one that it shows, of a broken
    /// card all that it then sends to sound cards.
    pub fn shown(self, cooldown: Cooldown, beats: usize) -> Vec<Row> {
        let (mut scene, mut adversary) = self.begin(cooldown);
        let mut rows = Vec::new();
        while scene.beat <= beats {
            let held = scene.cards().map(|card| scene.shown(scene.record(card)));
            let mut row: Row = held.map(|count| count.into_iter().collect()).collect();
            scene.advance(adversary.as_mut());
            for liar in scene.broken_cards() {
                let told = |listener| scene.shown(scene.told(liar, listener));
                row[liar] = scene.sound_cards().filter_map(told).collect();
            }
            rows.push(row);
        }
        rows
    }
}
