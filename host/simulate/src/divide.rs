//! What keeps the sound cards of a group apart, once each has its step and its king.

use second::count;
use second::king::{self, Output};
use second::split;

use crate::level::Level;
use crate::scene::Scene;

/// For each card of the group in order the a that all broken cards send it: the one that leaves
/// it with none, or else with the count that the fewest cards come to have.
pub fn divide(scene: &Scene, level: Level) -> Vec<u16> {
    let sound = level.cards().filter(|&card| scene.is_sound(card));
    let mut lies: Vec<_> = sound.map(|card| level.output(scene.record(card))).collect();
    // A king without a count hands out 0, so that with 1 there are two counts to hand out.
    lies.extend([None, Some(1)]);
    lies.sort_unstable();
    lies.dedup();

    let mut reached = Vec::new();
    let mut best_for = |listener: usize| {
        let rarity = |&lie: &Option<u16>| {
            let next = next_output(scene, level, listener, lie);
            (next.is_some(), count::times(next, &reached))
        };
        let best = lies.iter().copied().min_by_key(rarity).flatten();
        if scene.is_sound(listener) {
            reached.push(next_output(scene, level, listener, best));
        }
        count::write(best)
    };
    level.cards().map(&mut best_for).collect()
}

/// The a that a listener comes to have if all broken cards send it this one.
fn next_output(scene: &Scene, level: Level, listener: usize, lie: Option<u16>) -> Option<u16> {
    let record = scene.record(listener);
    let own = Output {
        a: level.output(record),
        b: record[level.word(split::B)] == 1,
    };
    let heard: Vec<_> = level
        .cards()
        .map(|card| match scene.is_sound(card) {
            true => level.output(scene.record(card)),
            false => lie,
        })
        .collect();
    king::step(level.group, level.round(listener, record), own, &heard).a
}
