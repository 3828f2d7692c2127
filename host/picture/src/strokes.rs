//! A card's counts as strokes.

use simulate::plan::Row;

/// A stretch in which a count goes on by one: from where, and for how many beats more.
pub struct Stroke {
    pub beat: usize,
    pub count: u16,
    pub steps: u16,
}

/// The strokes of a card, from what all cards show after each beat.
pub fn strokes(shown: &[Row], card: usize) -> Vec<Stroke> {
    let has = |beat: usize, count: u16| {
        let row = shown.get(beat);
        row.map_or(false, |row| row[card].contains(&count))
    };
    let mut strokes = Vec::new();
    for (beat, row) in shown.iter().enumerate() {
        for &count in &row[card] {
            let goes_on = beat > 0 && count > 0 && has(beat - 1, count - 1);
            if !goes_on {
                let later = |&steps: &u16| has(beat + usize::from(steps), count + steps);
                let steps = (1..).take_while(later).count() as u16;
                strokes.push(Stroke { beat, count, steps });
            }
        }
    }
    strokes
}

/// The first and the last beat of each stretch in which a card shows no count, among the beats that
/// are drawn.
pub fn gaps(shown: &[Row], card: usize, is_drawn: impl Fn(usize) -> bool) -> Vec<(usize, usize)> {
    let mut gaps: Vec<(usize, usize)> = Vec::new();
    let empty = |beat: &usize| is_drawn(*beat) && shown[*beat][card].is_empty();
    for beat in (0..shown.len()).filter(empty) {
        match gaps.last_mut() {
            Some((_, last)) if *last + 1 == beat => *last = beat,
            _ => gaps.push((beat, beat)),
        }
    }
    gaps
}
