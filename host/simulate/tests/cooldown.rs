//! A cooldown cut to its restart after each beat is a cooldown that restarts there.

use generate::Shape;
use second::params;
use second::split;
use simulate::cooldown::{HALF, RIGHT, TOO_SOON};
use simulate::level::Level;

const FOUR: Shape = Shape { n: 4, f: 1, c: 8 };

#[test]
fn the_restarts_of_one_broken_card() {
    let restarts = [RIGHT, HALF, TOO_SOON].map(|cooldown| (cooldown.restart)(1));
    assert_eq!(restarts, [108, 54, 9]);
}

#[test]
fn cut_is_restarted() {
    let path = Level::path(FOUR, 0);
    let group = path[0].group;
    for cooldown in [RIGHT, HALF, TOO_SOON] {
        let restart = (cooldown.restart)(group.f);
        for w in 0..=restart {
            for (new, wanted) in [(Some(4), w.saturating_sub(1)), (Some(5), restart)] {
                let mut record = [7; 9];
                record[split::W] = split::cooldown(group, 0, Some(3), new, w);
                cooldown.cap(&path, &mut record);
                assert_eq!(record[split::W], wanted);
            }
        }
    }
}

#[test]
fn every_cooldown_of_a_record_is_cut_and_nothing_else() {
    // A card of half 1 of seven is in two split groups, for f = 2 and for f = 1.
    let path = Level::path(Shape { n: 7, f: 2, c: 8 }, 5);
    let mut record = [60_000; 17];
    HALF.cap(&path, &mut record);
    let mut wanted = [60_000; 17];
    wanted[4..6].fill(params::c1(2));
    wanted[12..14].fill(params::c1(1));
    assert_eq!(record, wanted);
}
