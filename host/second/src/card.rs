//! One card: its step, and the count it shows.

use crate::group::Group;
use crate::params;
use crate::refusal::Refusal;

/// One beat of card `card`, which hears the n records; its next record goes to `out`.
/// Tests 1, 2, 3, 4, 5 and 6.
pub fn step(
    n: u32,
    f: u32,
    c: u32,
    card: u32,
    records: &[u16],
    out: &mut [u16],
) -> Result<(), Refusal> {
    let group = Group::outermost(n, f, c)?;
    let words = params::words(group.f);
    Refusal::CardNumber.when(card >= n)?;
    Refusal::Records.when(records.len() != group.n * words)?;
    Refusal::OutputLength.when(out.len() != words)?;

    let heard: Vec<&[u16]> = records.chunks_exact(words).collect();
    group.step(card as usize, &heard, out);
    Ok(())
}

/// RULES 7: "The count that a card shows is the outermost a, or none." Tests 1, 2, 3 and 5.
pub fn shown(n: u32, f: u32, c: u32, record: &[u16]) -> Result<Option<u16>, Refusal> {
    let group = Group::outermost(n, f, c)?;
    Refusal::Records.when(record.len() != params::words(group.f))?;
    Ok(group.output(record))
}
