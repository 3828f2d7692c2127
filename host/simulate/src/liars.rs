//! Broken cards that each keep to a strategy.

use generate::Random;

use crate::scene::{Adversary, Scene};
use crate::strategy::{Strategy, Telling};

pub struct Liars {
    strategies: Vec<Strategy>,
    random: Random,
}

impl Liars {
    /// Card v keeps to the strategy at place v, or round again where there are fewer.
    pub fn new(strategies: Vec<Strategy>, random: Random) -> Liars {
        Liars { strategies, random }
    }
}

impl Adversary for Liars {
    fn tell(&mut self, scene: &Scene, liar: usize, listener: usize) -> Vec<u16> {
        let strategy = self.strategies[liar % self.strategies.len()];
        let telling = Telling {
            scene,
            liar,
            listener,
        };
        (strategy.tell)(&telling, &mut self.random)
    }
}
