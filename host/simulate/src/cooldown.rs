//! Where the cooldown restarts: by the rules at 2·c1, or at c1, or far too soon.

use second::params;
use second::split;

use crate::level::Level;

/// A rule for the restart of the cooldown.
#[derive(Clone, Copy, Debug)]
pub struct Cooldown {
    pub name: &'static str,
    /// The restart in a group split for f broken cards.
    pub restart: fn(usize) -> u16,
}

/// By the rules (RULES 5.4).
pub const RIGHT: Cooldown = Cooldown {
    name: "2·c1",
    restart: params::restart,
};

/// A cooldown that restarts at c1, half as long. No run was found that it makes late, and
/// docs/SETTLES.md says why there may be none.
pub const HALF: Cooldown = Cooldown {
    name: "c1",
    restart: params::c1,
};

/// So soon that a half can jump between two turns of the other half. A search that finds no
/// late run here would show nothing elsewhere.
pub const TOO_SOON: Cooldown = Cooldown {
    name: "t",
    restart: params::t,
};

impl Cooldown {
    /// Takes every cooldown of a record down to the restart. Done before each beat this is the
    /// same as restarting there, because only that card reads its w.
    pub fn cap(self, path: &[Level], record: &mut [u16]) {
        for level in path.iter().filter(|level| level.group.is_split()) {
            for w in &mut record[level.word(split::W)..level.word(split::A)] {
                *w = (*w).min((self.restart)(level.group.f));
            }
        }
    }
}
