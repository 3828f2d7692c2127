//! The kinds of cases, which take turns.

use generate::calls::{
    BeatCall, LagCall, ParametersCall, ReadCall, ShownCall, StepBytesCall, StepCall, WriteCall,
};
use generate::Random;

use crate::case::Case;
use crate::{calls, directed, files, level};

/// Draws a case.
pub type Draw = fn(&mut Random) -> Case;

/// Its name, and how it is drawn.
pub type Kind = (&'static str, Draw);

pub static KINDS: [Kind; 22] = [
    ("the formulas of f", level::formulas),
    ("the halves of a group", level::halves),
    ("reading a word", level::reading),
    ("the most frequent output", level::most_frequent),
    ("the vote", level::vote),
    ("the cooldown", level::cooldown),
    ("the pointers and d", level::phase),
    ("the three steps", level::three_steps),
    ("the parameters", calls::case::<ParametersCall>),
    ("one card's step", calls::case::<StepCall>),
    ("one card's step, votes going on", directed::votes_go_on),
    ("one card's step on bytes", calls::case::<StepBytesCall>),
    ("the whole beat", calls::case::<BeatCall>),
    ("the shown count", calls::case::<ShownCall>),
    ("the lag", calls::case::<LagCall>),
    ("writing a record", calls::case::<WriteCall>),
    ("reading a record", calls::case::<ReadCall>),
    ("the digits of a word", files::digits),
    ("a line of a text", files::one_line),
    ("first lines of run files", files::first_lines),
    ("a good run file", files::good_file),
    ("damaged run files", files::damaged_files),
];

/// The kind of the case of this number.
pub fn kind_of(number: usize) -> Kind {
    KINDS[number % KINDS.len()]
}

/// The cases of a seed. Each is drawn by itself, so that it stays the same whatever the others are.
pub fn draw(count: usize, seed: u64) -> Vec<Case> {
    let start = Random::new(seed).number();
    let case = |number| {
        let (_, draw) = kind_of(number);
        draw(&mut Random::new(start.wrapping_add(number as u64)))
    };
    (0..count).map(case).collect()
}
