//! Steps whose votes go on and whose pointers point, which random words seldom bring about.

use generate::calls::{Call, StepCall};
use generate::Random;
use second::count::NONE;
use second::params;
use second::split::{BIG_M, SMALL_M, W};

use crate::calls::answered;
use crate::case::Case;
use crate::shapes::split_shape;

/// All cards send one m of each half, the card's own M is mostly the count before it, and its w
/// is at one of the values where it is read or changed in another way.
pub fn votes_go_on(random: &mut Random) -> Case {
    let shape = split_shape(random);
    let (f, words) = (shape.f as usize, shape.words());
    let restart = params::restart(f);
    let mut call = StepCall::of_shape(shape, random);
    for (i, m) in [params::c0(f), params::c1(f)].into_iter().enumerate() {
        let sent = random.below(m.into()) as u16;
        for record in call.records.chunks_exact_mut(words) {
            record[SMALL_M + i] = sent;
        }
        let before = (sent + m - 1) % m;
        let own = &mut call.records[call.card as usize * words..];
        own[BIG_M + i] = random.pick(&[before, before, before, sent, NONE]);
        own[W + i] = random.pick(&[0, 0, 0, 1, restart - 1, restart, restart + 1, NONE]);
    }
    answered(call)
}
