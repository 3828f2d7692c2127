//! The kinds of lying card.

use generate::Random;
use second::count::NONE;
use second::params;
use second::split;

use crate::level::{moved, stepped, Level};
use crate::scene::{Scene, REMEMBERED};

/// A kind of lying card.
#[derive(Clone, Copy)]
pub struct Strategy {
    pub name: &'static str,
    pub description: &'static str,
    /// The record that the listener hears.
    pub tell: fn(&Telling, &mut Random) -> Vec<u16>,
}

pub const STRATEGIES: [Strategy; 10] = [
    Strategy {
        name: "silent",
        description: "none in every word",
        tell: |telling, _| vec![NONE; telling.truth().len()],
    },
    Strategy {
        name: "random",
        description: "any words, mostly in range or near the moduli",
        tell: |telling, random| telling.scene.shape.record(random),
    },
    Strategy {
        name: "echo",
        description: "each listener's own record",
        tell: |telling, _| telling.scene.record(telling.listener).to_vec(),
    },
    Strategy {
        name: "split",
        description: "the lowest sound card's record to even listeners, the highest's to odd ones",
        tell: split_listeners,
    },
    Strategy {
        name: "off by one",
        description: "its counts one ahead to even listeners, one behind to odd ones",
        tell: |telling, _| telling.moved(telling.side()),
    },
    Strategy {
        name: "king liar",
        description: "the truth, but as king one output to even listeners, another to odd ones",
        tell: lie_as_king,
    },
    Strategy {
        name: "replay",
        description: "its record of 1 to 8 beats ago, depending on the listener",
        tell: replay,
    },
    Strategy {
        name: "camps",
        description: "to the cards of each half the m0, m1 and a of a sound card of that half",
        tell: support_each_half,
    },
    Strategy {
        name: "jump",
        description: "its counts, jumping when they are trusted, a beat sooner to odd listeners",
        tell: jump_when_trusted,
    },
    Strategy {
        name: "drift",
        description: "its counts one behind",
        tell: |telling, _| telling.moved(-1),
    },
];

/// One broken card that sends its record to one listener.
pub struct Telling<'a> {
    pub scene: &'a Scene,
    pub liar: usize,
    pub listener: usize,
}

impl Telling<'_> {
    /// What the card would send if it were sound.
    pub fn truth(&self) -> &[u16] {
        self.scene.record(self.liar)
    }

    fn moved(&self, steps: i32) -> Vec<u16> {
        moved(self.scene.path(self.liar), self.truth(), steps)
    }

    /// 1 for even listeners, -1 for odd ones.
    fn side(&self) -> i32 {
        1 - 2 * (self.listener % 2) as i32
    }

    fn split_levels(&self) -> impl Iterator<Item = Level> + '_ {
        let path = self.scene.path(self.liar).iter().copied();
        path.filter(|level| level.group.is_split())
    }
}

fn split_listeners(telling: &Telling, _: &mut Random) -> Vec<u16> {
    let mut sound = telling.scene.sound_cards();
    let model = match telling.side() {
        1 => sound.next(),
        _ => sound.next_back(),
    };
    let model = model.expect("most cards are sound");
    telling.scene.record(model).to_vec()
}

fn lie_as_king(telling: &Telling, _: &mut Random) -> Vec<u16> {
    let mut told = telling.truth().to_vec();
    for level in telling.split_levels() {
        if level.is_king(telling.liar, telling.truth()) {
            let a = level.output(telling.truth()).unwrap_or(0);
            told[level.output_word()] = stepped(a, level.group.c, telling.side());
        }
    }
    told
}

fn replay(telling: &Telling, _: &mut Random) -> Vec<u16> {
    let beats = 1 + telling.listener % REMEMBERED;
    telling.scene.record_before(telling.liar, beats).to_vec()
}

fn support_each_half(telling: &Telling, _: &mut Random) -> Vec<u16> {
    let mut told = telling.truth().to_vec();
    for level in telling.split_levels() {
        let mut sound = telling.scene.sound_cards();
        let model = sound.find(|&card| level.has_in_one_half(card, telling.listener));
        if let Some(model) = model {
            for place in [split::SMALL_M, split::SMALL_M + 1, split::A].map(|at| level.word(at)) {
                told[place] = telling.scene.record(model)[place];
            }
        }
    }
    told
}

fn jump_when_trusted(telling: &Telling, _: &mut Random) -> Vec<u16> {
    let f = telling.scene.shape.f as usize;
    let jump = usize::from(params::t(f));
    let trusted_after = usize::from(params::restart(f)) + jump;
    let jumps = (telling.scene.beat + telling.listener % 2) / trusted_after;
    telling.moved((jumps * jump) as i32)
}
