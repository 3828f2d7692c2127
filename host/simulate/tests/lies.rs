//! Every kind of lying card lies, each in its own way.

use generate::{Random, Shape};
use second::count::NONE;
use second::split;
use simulate::cooldown::RIGHT;
use simulate::level::{moved, Level};
use simulate::liars::Liars;
use simulate::scene::Scene;
use simulate::start::Start;
use simulate::strategy::{Strategy, Telling, STRATEGIES};

const SHAPE: Shape = Shape {
    n: 10,
    f: 3,
    c: 1000,
};

/// The first card of each half, and one more.
const BROKEN: u32 = 1 << 0 | 1 << 2 | 1 << 5;

fn strategy(name: &str) -> Strategy {
    let mut named = STRATEGIES.iter().filter(|strategy| strategy.name == name);
    *named.next().expect("a strategy has this name")
}

/// The beats of a run past T(f).
const BEATS: usize = 520;

/// Shows `watch` all that these liars send to sound cards in a run past T(f).
fn watch_run(strategy: Strategy, mut watch: impl FnMut(&Telling, Vec<u16>)) {
    let mut watched = 0;
    let mut random = Random::new(3);
    let start = Start::NearTheModuli.table(SHAPE, &mut random);
    let mut scene = Scene::new(SHAPE, BROKEN, start, RIGHT);
    let mut liars = Liars::new(vec![strategy], Random::new(4));
    while scene.beat < BEATS {
        for liar in scene.broken_cards() {
            for listener in scene.sound_cards() {
                let telling = Telling {
                    scene: &scene,
                    liar,
                    listener,
                };
                watch(&telling, (strategy.tell)(&telling, &mut random));
                watched += 1;
            }
        }
        scene.advance(&mut liars);
    }
    // Three broken cards, and seven sound ones.
    assert_eq!(watched, BEATS * 3 * 7);
}

/// Whether a listener is sent what no sound card would send it.
fn is_lie(telling: &Telling, told: &[u16]) -> bool {
    told != telling.truth()
}

#[test]
fn every_strategy_lies_from_every_broken_card() {
    for strategy in STRATEGIES {
        let mut liars = 0;
        watch_run(strategy, |telling, told| {
            liars |= u32::from(is_lie(telling, &told)) << telling.liar;
        });
        assert_eq!(liars, BROKEN, "{}", strategy.name);
    }
}

#[test]
fn all_but_the_silent_and_the_drifting_differ_between_listeners() {
    for strategy in STRATEGIES {
        let mut last: Option<(usize, usize, Vec<u16>)> = None;
        let mut differed = false;
        watch_run(strategy, |telling, told| {
            let now = (telling.scene.beat, telling.liar, told);
            if let Some((beat, liar, told)) = &last {
                differed |= (*beat, *liar) == (now.0, now.1) && *told != now.2;
            }
            last = Some(now);
        });
        let alike_to_all = ["silent", "drift"].contains(&strategy.name);
        assert_ne!(differed, alike_to_all, "{}", strategy.name);
    }
}

#[test]
fn the_silent_card_tells_none() {
    watch_run(strategy("silent"), |_, told| {
        assert!(told.iter().all(|&word| word == NONE));
    });
}

#[test]
fn the_echo_tells_the_listeners_own_record() {
    watch_run(strategy("echo"), |telling, told| {
        assert_eq!(told, telling.scene.record(telling.listener));
    });
}

#[test]
fn the_split_is_between_the_lowest_and_the_highest_sound_card() {
    watch_run(strategy("split"), |telling, told| {
        let model = [1, 9][telling.listener % 2];
        assert_eq!(told, telling.scene.record(model));
    });
}

#[test]
fn off_by_one_is_undone_by_one_step() {
    watch_run(strategy("off by one"), |telling, told| {
        let back = [-1, 1][telling.listener % 2];
        let undone = moved(telling.scene.path(telling.liar), &told, back);
        assert_eq!(undone, telling.truth());
    });
}

#[test]
fn the_king_liar_tells_the_truth_but_for_its_output_as_king() {
    watch_run(strategy("king liar"), |telling, mut told| {
        let path = telling.scene.path(telling.liar);
        let is_king =
            |level: &&Level| level.group.is_split() && level.is_king(telling.liar, telling.truth());
        for level in path.iter().filter(is_king) {
            assert_ne!(level.output(&told), level.output(telling.truth()));
            told[level.output_word()] = telling.truth()[level.output_word()];
        }
        assert_eq!(told, telling.truth());
    });
}

#[test]
fn the_replay_was_true_some_beats_ago() {
    let mut truths = vec![Vec::new(); SHAPE.n as usize];
    watch_run(strategy("replay"), |telling, told| {
        let truths = &mut truths[telling.liar];
        if truths.len() == telling.scene.beat {
            truths.push(telling.truth().to_vec());
        }
        let then = telling.scene.beat.saturating_sub(1 + telling.listener % 8);
        assert_eq!(told, truths[then]);
    });
}

#[test]
fn each_camp_hears_a_sound_card_of_its_own() {
    watch_run(strategy("camps"), |telling, told| {
        // The lowest sound cards of the halves.
        let model = telling.scene.record([1, 6][telling.listener / 5]);
        for place in [split::SMALL_M, split::SMALL_M + 1, split::A] {
            assert_eq!(told[place], model[place]);
        }
    });
}

#[test]
fn the_jumping_counts_jump_together_after_a_cooldown() {
    watch_run(strategy("jump"), |telling, told| {
        // For f = 3: t is 15, and the cooldown restarts at 180.
        let jumps = (telling.scene.beat + telling.listener % 2) / 195;
        let undone = moved(telling.scene.path(telling.liar), &told, -15 * jumps as i32);
        assert_eq!(undone, telling.truth());
    });
}

#[test]
fn the_drifting_counts_are_one_behind() {
    watch_run(strategy("drift"), |telling, told| {
        let undone = moved(telling.scene.path(telling.liar), &told, 1);
        assert_eq!(undone, telling.truth());
    });
}

#[test]
fn what_each_listener_was_told_is_kept() {
    let told_by = |name, wanted: fn(&Telling) -> Vec<u16>| {
        let start = Start::AnyWords.table(SHAPE, &mut Random::new(5));
        let mut scene = Scene::new(SHAPE, BROKEN, start.clone(), RIGHT);
        let before = Scene::new(SHAPE, BROKEN, start, RIGHT);
        scene.advance(&mut Liars::new(vec![strategy(name)], Random::new(6)));
        for liar in scene.broken_cards() {
            for listener in scene.cards() {
                let telling = Telling {
                    scene: &before,
                    liar,
                    listener,
                };
                assert_eq!(scene.told(liar, listener), wanted(&telling));
            }
        }
    };
    // Differs between the listeners, and differs between the liars.
    told_by("echo", |telling| {
        telling.scene.record(telling.listener).to_vec()
    });
    told_by("drift", |telling| {
        moved(telling.scene.path(telling.liar), telling.truth(), -1)
    });
}
