//! The cards of one run, beat by beat, as the broken ones see them: they know everything.

use std::collections::VecDeque;
use std::ops::Range;

use generate::Shape;
use second::beat::is_broken;

use crate::cooldown::Cooldown;
use crate::counter::{Counter, SECOND};
use crate::level::Level;

/// How many beats back the broken cards remember.
pub const REMEMBERED: usize = 8;

/// What decides the words of the broken cards.
pub trait Adversary {
    /// The record that a broken card sends a listener on the next beat.
    fn tell(&mut self, scene: &Scene, liar: usize, listener: usize) -> Vec<u16>;

    /// Called once before each beat.
    fn prepare(&mut self, _: &Scene) {}
}

/// What the cards of a run hold, and have held.
pub struct Scene {
    pub shape: Shape,
    pub broken: u32,
    /// The beats done.
    pub beat: usize,
    cooldown: Cooldown,
    counter: Counter,
    paths: Vec<Vec<Level>>,
    /// The newest table first. A broken card's record is what it would hold if it were sound.
    tables: VecDeque<Vec<u16>>,
    /// What the broken cards sent on the last beat, in the order of a run file (RULES 6).
    told: Vec<u16>,
}

impl Scene {
    pub fn new(shape: Shape, broken: u32, start: Vec<u16>, cooldown: Cooldown) -> Scene {
        let cards = 0..shape.n as usize;
        let mut scene = Scene {
            shape,
            broken,
            beat: 0,
            cooldown,
            counter: SECOND,
            paths: cards.map(|card| Level::path(shape, card)).collect(),
            tables: VecDeque::new(),
            told: Vec::new(),
        };
        scene.hold(start);
        scene
    }

    /// The same cards, going by another program from now on.
    pub fn counted_by(self, counter: Counter) -> Scene {
        Scene { counter, ..self }
    }

    /// The groups that a card belongs to, outermost first.
    pub fn path(&self, card: usize) -> &[Level] {
        &self.paths[card]
    }

    pub fn cards(&self) -> Range<usize> {
        0..self.shape.n as usize
    }

    pub fn is_sound(&self, card: usize) -> bool {
        !is_broken(self.broken, card)
    }

    pub fn sound_cards(&self) -> impl DoubleEndedIterator<Item = usize> + '_ {
        self.cards().filter(move |&card| self.is_sound(card))
    }

    pub fn broken_cards(&self) -> impl Iterator<Item = usize> + '_ {
        self.cards().filter(move |&card| !self.is_sound(card))
    }

    pub fn record(&self, card: usize) -> &[u16] {
        self.record_before(card, 0)
    }

    /// A card's record some beats ago, or at the start.
    pub fn record_before(&self, card: usize, beats: usize) -> &[u16] {
        let table = &self.tables[beats.min(self.tables.len() - 1)];
        &table[card * self.shape.words()..][..self.shape.words()]
    }

    /// The record that a broken card sent a listener on the last beat.
    pub fn told(&self, liar: usize, listener: usize) -> &[u16] {
        let liars_before = self.broken_cards().filter(|&other| other < liar).count();
        let place = listener * self.broken_cards().count() + liars_before;
        &self.told[place * self.shape.words()..][..self.shape.words()]
    }

    /// The count that a record shows.
    pub fn shown(&self, record: &[u16]) -> Option<u16> {
        Level::outermost(self.shape).output(record)
    }

    /// The count that all sound cards show, if they show the same one.
    pub fn common_count(&self) -> Option<u16> {
        let mut shown = self.sound_cards().map(|card| self.shown(self.record(card)));
        let first = shown.next().flatten();
        first.filter(|_| shown.all(|count| count == first))
    }

    /// One beat.
    pub fn advance(&mut self, adversary: &mut dyn Adversary) {
        adversary.prepare(self);
        let mut told = Vec::new();
        for listener in self.cards() {
            for liar in self.broken_cards() {
                told.extend(adversary.tell(self, liar, listener));
            }
        }
        self.told = told;
        let step = |card| (self.counter.step)(self.shape, card, &self.heard(card));
        let next = self.cards().flat_map(step).collect();
        self.beat += 1;
        self.hold(next);
    }

    /// The records that a card hears on the beat that is under way. A broken card steps as if all
    /// were sound.
    fn heard(&self, listener: usize) -> Vec<u16> {
        let mut heard = self.tables[0].clone();
        if self.is_sound(listener) {
            for liar in self.broken_cards() {
                let place = liar * self.shape.words();
                heard[place..][..self.shape.words()].copy_from_slice(self.told(liar, listener));
            }
        }
        heard
    }

    fn hold(&mut self, mut table: Vec<u16>) {
        let records = table.chunks_exact_mut(self.shape.words());
        for (path, record) in self.paths.iter().zip(records) {
            self.cooldown.cap(path, record);
        }
        self.tables.push_front(table);
        self.tables.truncate(REMEMBERED + 1);
    }
}
