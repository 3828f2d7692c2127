//! Run files, valid and damaged.

use crate::calls::no_digit;
use crate::{Random, Shape};
use second::refusal::Refusal;
use second::text::write_words;

/// A valid run file, line by line, without the line feeds.
#[derive(Clone, Debug)]
pub struct RunFile {
    pub shape: Shape,
    pub broken: u32,
    pub lines: Vec<Vec<u8>>,
}

impl RunFile {
    /// A file of a random number of beats.
    pub fn random(random: &mut Random) -> RunFile {
        let shape = Shape::random(random);
        let broken = shape.broken_set(random);
        let beats = random.below(9);
        RunFile::of_length(random, shape, broken, beats)
    }

    pub fn of_length(random: &mut Random, shape: Shape, broken: u32, beats: usize) -> RunFile {
        let mut table = shape.table(random);
        let mut lines = vec![header(shape, broken), frame(0, &table)];
        for beat in 1..=beats {
            let sent = shape.sent(random, broken, &table);
            lines.push(frame(beat as u16, &sent));
            table = shape.after_beat(broken, &table, &sent);
        }
        RunFile {
            shape,
            broken,
            lines,
        }
    }

    /// The file itself, its last line ended by a line feed.
    pub fn text(&self) -> Vec<u8> {
        joined(&self.lines)
    }

    /// How many digits the line of this number must have.
    fn line_length(&self, number: usize) -> usize {
        let broken = self.broken.count_ones() as usize;
        4 * match number {
            1 => 3,
            2 => 1 + self.shape.table_words(),
            _ => 1 + broken * self.shape.table_words(),
        }
    }

    /// The number of any line.
    fn any_line(&self, random: &mut Random) -> usize {
        1 + random.below(self.lines.len())
    }
}

/// Line 1, whose numbers need not be good.
pub fn header(shape: Shape, broken: u32) -> Vec<u8> {
    let Shape { n, f, c } = shape;
    format!("{n:02x}{f:02x}{c:04x}{broken:04x}").into_bytes()
}

/// A later line.
pub fn frame(beat: u16, words: &[u16]) -> Vec<u8> {
    (write_words(&[beat]) + &write_words(words)).into_bytes()
}

/// Every line ended by a line feed.
pub fn joined(lines: &[Vec<u8>]) -> Vec<u8> {
    let ended = lines.iter().map(|line| [line, &b"\n"[..]].concat());
    ended.collect::<Vec<_>>().concat()
}

/// The ways a run file is damaged.
#[derive(Clone, Copy, Debug)]
pub enum Damage {
    DigitTooMany,
    DigitTooFew,
    UpperCase,
    OtherCharacter,
    CarriageReturn,
    Nul,
    LineFeed,
    LineDoubled,
    LineDropped,
    LinesSwapped,
    WrongBeat,
    WrongHeader,
    Empty,
    NoLastLineFeed,
    CutAnywhere,
}

impl Damage {
    pub const ALL: [Damage; 15] = [
        Damage::DigitTooMany,
        Damage::DigitTooFew,
        Damage::UpperCase,
        Damage::OtherCharacter,
        Damage::CarriageReturn,
        Damage::Nul,
        Damage::LineFeed,
        Damage::LineDoubled,
        Damage::LineDropped,
        Damage::LinesSwapped,
        Damage::WrongBeat,
        Damage::WrongHeader,
        Damage::Empty,
        Damage::NoLastLineFeed,
        Damage::CutAnywhere,
    ];
}

/// The first bad line, counted from 1, and why; none if the file is still good.
pub type Verdict = Option<(usize, Refusal)>;

/// A damaged copy of a valid file, and what RULES 11 says of it.
pub fn damaged(random: &mut Random, file: &RunFile, damage: Damage) -> (Vec<u8>, Verdict) {
    match damage {
        Damage::DigitTooMany => with_byte_inserted(random, file, b'0'),
        Damage::DigitTooFew => with_digit_removed(random, file),
        Damage::UpperCase => {
            let upper = random.pick(b"ABCDEF");
            with_byte_replaced(random, file, upper)
        }
        Damage::OtherCharacter => {
            let byte = no_digit(random);
            with_byte_replaced(random, file, byte)
        }
        Damage::CarriageReturn => with_carriage_return(random, file),
        Damage::Nul => with_byte_replaced(random, file, 0),
        Damage::LineFeed => with_line_feed_inserted(random, file),
        Damage::LineDoubled => with_line_doubled(random, file),
        Damage::LineDropped => with_line_dropped(random, file),
        Damage::LinesSwapped => with_lines_swapped(random, file),
        Damage::WrongBeat => with_wrong_beat(random, file),
        Damage::WrongHeader => with_wrong_header(random, file),
        Damage::Empty => (Vec::new(), Some((1, Refusal::Text))),
        Damage::NoLastLineFeed => (without_last_line_feed(file), None),
        Damage::CutAnywhere => cut_anywhere(random, file),
    }
}

/// A copy with one line changed, which makes it bad for that reason.
fn with_line_changed(
    file: &RunFile,
    number: usize,
    refusal: Refusal,
    change: impl FnOnce(&mut Vec<u8>),
) -> (Vec<u8>, Verdict) {
    let mut lines = file.lines.clone();
    change(&mut lines[number - 1]);
    (joined(&lines), Some((number, refusal)))
}

fn with_byte_inserted(random: &mut Random, file: &RunFile, byte: u8) -> (Vec<u8>, Verdict) {
    let number = file.any_line(random);
    with_line_changed(file, number, Refusal::Text, |line| {
        line.insert(random.below(line.len() + 1), byte)
    })
}

fn with_digit_removed(random: &mut Random, file: &RunFile) -> (Vec<u8>, Verdict) {
    let number = file.any_line(random);
    with_line_changed(file, number, Refusal::Text, |line| {
        line.remove(random.below(line.len()));
    })
}

fn with_byte_replaced(random: &mut Random, file: &RunFile, byte: u8) -> (Vec<u8>, Verdict) {
    let number = file.any_line(random);
    with_line_changed(file, number, Refusal::Text, |line| {
        let place = random.below(line.len());
        line[place] = byte;
    })
}

/// A line ended the way some editors do, by a carriage return and a line feed.
fn with_carriage_return(random: &mut Random, file: &RunFile) -> (Vec<u8>, Verdict) {
    let number = file.any_line(random);
    with_line_changed(file, number, Refusal::Text, |line| line.push(b'\r'))
}

/// One line feed more: within a line it leaves a part too short, at its end an empty line.
fn with_line_feed_inserted(random: &mut Random, file: &RunFile) -> (Vec<u8>, Verdict) {
    let number = file.any_line(random);
    let length = file.line_length(number);
    let within = random.below(length);
    let place = random.pick(&[within, length]);
    let bad = if place < length { number } else { number + 1 };
    let insert = |line: &mut Vec<u8>| line.insert(place, b'\n');
    let (text, _) = with_line_changed(file, number, Refusal::Text, insert);
    (text, Some((bad, Refusal::Text)))
}

/// Why a line is bad where the line of another number is wanted: mostly its length, else its
/// first word, which is n and f on line 1 and the beat after that. A line 2 read as line 1
/// has n = 0; no later line is as long as line 1.
fn misplaced(file: &RunFile, wanted: usize, line: &[u8]) -> Verdict {
    let refusal = if line.len() != file.line_length(wanted) {
        Refusal::Text
    } else if wanted == 1 {
        Refusal::CardCount
    } else {
        Refusal::BeatNumber
    };
    Some((wanted, refusal))
}

fn with_line_doubled(random: &mut Random, file: &RunFile) -> (Vec<u8>, Verdict) {
    let number = file.any_line(random);
    let line = file.lines[number - 1].clone();
    let verdict = misplaced(file, number + 1, &line);
    let mut lines = file.lines.clone();
    lines.insert(number, line);
    (joined(&lines), verdict)
}

fn with_line_dropped(random: &mut Random, file: &RunFile) -> (Vec<u8>, Verdict) {
    let number = file.any_line(random);
    let mut lines = file.lines.clone();
    lines.remove(number - 1);
    let verdict = match lines.get(number - 1) {
        Some(line) => misplaced(file, number, line),
        None => verdict_of_whole_lines(lines.len()),
    };
    (joined(&lines), verdict)
}

fn with_lines_swapped(random: &mut Random, file: &RunFile) -> (Vec<u8>, Verdict) {
    let later = 2 + random.below(file.lines.len() - 1);
    let earlier = 1 + random.below(later - 1);
    let mut lines = file.lines.clone();
    lines.swap(earlier - 1, later - 1);
    let verdict = misplaced(file, earlier, &lines[earlier - 1]);
    (joined(&lines), verdict)
}

fn with_wrong_beat(random: &mut Random, file: &RunFile) -> (Vec<u8>, Verdict) {
    let number = 2 + random.below(file.lines.len() - 1);
    let right = (number - 2) as u16;
    let off = random.pick(&[1, 2, 0x100, 0xfffe, 0xffff]);
    with_line_changed(file, number, Refusal::BeatNumber, |line| {
        let wrong = write_words(&[right.wrapping_add(off)]);
        line[..4].copy_from_slice(wrong.as_bytes());
    })
}

/// One or more of n, f, c and the broken set out of range; the first of them counts.
fn with_wrong_header(random: &mut Random, file: &RunFile) -> (Vec<u8>, Verdict) {
    let fields = [
        Refusal::CardCount,
        Refusal::BrokenAllowance,
        Refusal::Modulus,
        Refusal::BrokenSet,
    ];
    let first = random.below(fields.len());
    let (mut shape, mut broken) = (file.shape, file.broken);
    for (place, &field) in fields.iter().enumerate().skip(first) {
        if place == first || random.one_in(3) {
            match field {
                Refusal::CardCount => shape.n = random.pick(&[0, 17, 255]),
                Refusal::BrokenAllowance => shape.f = bad_allowance_digits(random, file.shape.n),
                Refusal::Modulus => shape.c = random.pick(&[0, 1]),
                _ => broken = bad_broken_digits(random, file.shape),
            }
        }
    }
    with_line_changed(file, 1, fields[first], |line| *line = header(shape, broken))
}

/// An f of two digits to refuse for this n.
fn bad_allowance_digits(random: &mut Random, n: u32) -> u32 {
    random.pick(&[(n + 2) / 3, 6, 255])
}

/// A broken set of four digits to refuse: one card more than allowed, or a card there is not
/// (of sixteen cards, all).
fn bad_broken_digits(random: &mut Random, shape: Shape) -> u32 {
    let too_many = (1 << (shape.f + 1)) - 1;
    let absent = (1 << shape.n) & 0xffff;
    random.pick(&[too_many, if absent == 0 { 0xffff } else { absent }])
}

fn without_last_line_feed(file: &RunFile) -> Vec<u8> {
    let mut text = file.text();
    text.pop();
    text
}

/// RULES 11.3: "The file may end after line 2 or after any later line."
fn verdict_of_whole_lines(count: usize) -> Verdict {
    if count < 2 {
        Some((count + 1, Refusal::Text))
    } else {
        None
    }
}

fn cut_anywhere(random: &mut Random, file: &RunFile) -> (Vec<u8>, Verdict) {
    let mut text = file.text();
    text.truncate(random.below(text.len() + 1));
    let whole = text.iter().filter(|&&byte| byte == b'\n').count();
    let rest = text.iter().rev().take_while(|&&byte| byte != b'\n').count();
    let verdict = if rest == 0 {
        verdict_of_whole_lines(whole)
    } else if rest == file.line_length(whole + 1) {
        verdict_of_whole_lines(whole + 1)
    } else {
        Some((whole + 1, Refusal::Text))
    };
    (text, verdict)
}
