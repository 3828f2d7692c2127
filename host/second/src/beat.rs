//! The whole beat over all cards.

use crate::group::Group;
use crate::params;
use crate::refusal::Refusal;

/// One beat of every sound card, from the n records held, the broken set (bit v for card v)
/// and the words the broken cards send: "for each receiver in order, for each broken card in
/// order, W words" (RULES 6). Tests 1, 2, 3, 7, 5, 8 and 6.
pub fn beat(
    n: u32,
    f: u32,
    c: u32,
    broken: u32,
    records: &[u16],
    sent: &[u16],
    out: &mut [u16],
) -> Result<(), Refusal> {
    let group = Group::outermost(n, f, c)?;
    check_broken(n, f, broken)?;
    let words = params::words(group.f);
    let (broken_cards, sound_cards): (Vec<_>, Vec<_>) =
        (0..group.n).partition(|&card| is_broken(broken, card));
    Refusal::Records.when(records.len() != group.n * words)?;
    Refusal::BrokenWords.when(sent.len() != group.n * broken_cards.len() * words)?;
    Refusal::OutputLength.when(out.len() != records.len())?;

    // RULES 6: "Broken cards' held records stay unchanged."
    out.copy_from_slice(records);
    for card in sound_cards {
        // RULES 6: "A sound card is heard as held".
        let mut heard: Vec<&[u16]> = records.chunks_exact(words).collect();
        for (place, &broken_card) in broken_cards.iter().enumerate() {
            let start = (card * broken_cards.len() + place) * words;
            heard[broken_card] = &sent[start..start + words];
        }
        group.step(card, &heard, &mut out[card * words..(card + 1) * words]);
    }
    Ok(())
}

/// Tests 7, for n and f already found good.
pub fn check_broken(n: u32, f: u32, broken: u32) -> Result<(), Refusal> {
    Refusal::BrokenSet.when(broken >> n != 0 || broken.count_ones() > f)
}

/// Whether the broken set names this card.
pub fn is_broken(broken: u32, card: usize) -> bool {
    broken >> card & 1 == 1
}
