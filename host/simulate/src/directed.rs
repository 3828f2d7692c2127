//! An adversary aimed at the pointers.
//!
//! In one half of a group it breaks one card more than the half bears, so that this bad half's
//! counter is its own to run. Only the cards of the bad half come to trust that counter, and it
//! keeps out of step with the good half's. So while the good half points to itself and the bad
//! half to itself too, the sound cards take different steps and obey different kings.

use generate::Random;
use second::count::{self, NONE};
use second::params;
use second::split;

use crate::divide::divide;
use crate::level::{stepped, Level};
use crate::scene::{Adversary, Scene};

/// The attack on one group, and on its good half if that one is split again.
pub struct Directed {
    level: Level,
    good: Level,
    bad: Level,
    /// Which half is the bad one.
    i: usize,
    /// What the broken cards send as the bad half's output, on this beat and on the one before.
    counter: u16,
    counter_before: u16,
    /// How far the counter is out of step after a jump, if it ever jumps.
    jumps: Option<u16>,
    /// What the broken cards send each card of the group as their a.
    outputs: Vec<u16>,
    inner: Option<Box<Directed>>,
}

impl Directed {
    /// An attack on a split group.
    pub fn new(level: Level, random: &mut Random) -> Directed {
        let i = random.below(2);
        let (good, bad) = (level.half(1 - i), level.half(i));
        let counter = random.below(bad.group.c.into()) as u16;
        // Half 0 points to itself for t beats, too short for half 1's turn of 3t.
        let jumps = random.pick(&[None, Some(1), Some(2)]).filter(|_| i == 1);
        let inner = good.group.is_split();
        Directed {
            level,
            good,
            bad,
            i,
            counter,
            counter_before: counter,
            jumps,
            outputs: Vec::new(),
            inner: inner.then(|| Box::new(Directed::new(good, random))),
        }
    }

    /// The broken set: in the bad half one card more than it bears, its first card among them,
    /// and in the good half as many as it bears.
    pub fn broken(&self, random: &mut Random) -> u32 {
        let first = self.bad.cards().start;
        let mut broken: u32 = 1 << first;
        while broken.count_ones() as usize <= self.bad.group.f {
            broken |= 1 << (first + random.below(self.bad.group.n));
        }
        broken | self.inner.as_ref().map_or(0, |inner| inner.broken(random))
    }

    fn t(&self) -> u16 {
        params::t(self.level.group.f)
    }

    /// d0 and d1 as the first sound card of a half has them.
    fn observed_in(&self, half: Level, scene: &Scene) -> [Option<u16>; 2] {
        self.level.observed(scene.record(first_sound(scene, half)))
    }

    /// The count that half 1's counter jumps to, where it would not point to itself throughout
    /// the next turn of half 0. It jumps as the last king's turn begins: when the jump is noticed,
    /// that king has no whole turn left.
    fn jump(&self, scene: &Scene) -> Option<u16> {
        let out_of_step = self.jumps?;
        let [good, _] = self.observed_in(self.good, scene);
        let [_, bad] = self.observed_in(self.bad, scene);
        let (t, last_king) = (self.t(), self.t() - 3);
        let until_turn = i32::from(2 * t - last_king);
        let then = stepped(bad?, 6 * t, until_turn);
        let points_to_itself = then >= 3 * t && then + last_king < 6 * t;
        // What is sent on this beat is a vote two beats later.
        let told = stepped(3 * t + out_of_step, 6 * t, 2 - until_turn);
        Some(told).filter(|_| good == Some(last_king) && !points_to_itself)
    }

    /// What a card of the bad half sends as that half's output.
    ///
    /// A vote that only the bad half's cards are to see must hang on the broken cards, so one
    /// card of the good half, the decoy, is sent another output before. An unsplit bad half
    /// follows its broken first card; it is sent apart still one beat before, or its sound cards
    /// would outvote that lie.
    fn bad_output(&self, scene: &Scene, listener: usize) -> u16 {
        let ahead = match self.counter % self.t() {
            0 if !self.bad.group.is_split() && self.bad.has(listener) => {
                listener - self.bad.cards().start
            }
            1 if listener == first_sound(scene, self.good) => 1,
            _ => 0,
        };
        self.counter + ahead as u16
    }

    /// What all broken cards send as their m of the bad half. Once in t beats the good half's
    /// cards miss the vote, so that their cooldowns never end.
    fn bad_vote(&self, listener: usize) -> u16 {
        if self.counter_before % self.t() == 1 && self.good.has(listener) {
            NONE
        } else {
            self.counter_before
        }
    }

    fn fill(&self, scene: &Scene, liar: usize, listener: usize, record: &mut [u16]) {
        if !self.level.has(listener) {
            return;
        }
        record[self.level.word(split::SMALL_M + self.i)] = self.bad_vote(listener);
        record[self.level.output_word()] = self.outputs[listener - self.level.cards().start];
        if self.bad.has(liar) {
            record[self.bad.output_word()] = self.bad_output(scene, listener);
        } else if let Some(inner) = &self.inner {
            inner.fill(scene, liar, listener, record);
        }
    }
}

impl Adversary for Directed {
    fn prepare(&mut self, scene: &Scene) {
        let next = count::next(self.counter, self.bad.group.c);
        self.counter_before = self.counter;
        self.counter = self.jump(scene).unwrap_or(next);
        self.outputs = divide(scene, self.level);
        if let Some(inner) = &mut self.inner {
            inner.prepare(scene);
        }
    }

    /// None in every word that the attack does not need: the sound cards of a split bad half
    /// then find no votes within it, and have no output to set against the broken cards'.
    fn tell(&mut self, scene: &Scene, liar: usize, listener: usize) -> Vec<u16> {
        let mut record = vec![NONE; scene.shape.words()];
        self.fill(scene, liar, listener, &mut record);
        record
    }
}

fn first_sound(scene: &Scene, level: Level) -> usize {
    let mut sound = level.cards().filter(|&card| scene.is_sound(card));
    sound.next().expect("every half has a sound card")
}
