//! The run program: a file of beats in, the shown counts out.

use std::io::{self, BufRead, Read, Write};

use crate::beat::{beat, check_broken, is_broken};
use crate::card::shown;
use crate::count;
use crate::params::{self, check_cards, check_modulus};
use crate::refusal::Refusal;
use crate::text::{read_words, without_line_feed, write_words};

/// RULES 11.3: "Beats run from 0001 to fffe."
const LAST_BEAT: u16 = 0xfffe;

/// Runs the file read from `input`, holding one line of it at a time. RULES 11.5: "At the first
/// bad line the run program writes ffff, the number of the line (8 digits) and the refusal
/// (2 digits), and stops."
pub fn run(input: impl BufRead, mut output: impl Write) -> io::Result<()> {
    let mut lines = Lines::new(input);
    match run_lines(&mut lines, &mut output) {
        Ok(()) => {}
        Err(Stop::Refused(refusal)) => {
            let number = refusal.number();
            writeln!(output, "ffff{:08x}{number:02x}", lines.number)?;
        }
        Err(Stop::OutputFailed(error)) => return Err(error),
    }
    output.flush()
}

/// What ends a run before the end of its input.
enum Stop {
    Refused(Refusal),
    OutputFailed(io::Error),
}

impl From<Refusal> for Stop {
    fn from(refusal: Refusal) -> Stop {
        Stop::Refused(refusal)
    }
}

impl From<io::Error> for Stop {
    fn from(error: io::Error) -> Stop {
        Stop::OutputFailed(error)
    }
}

fn run_lines(lines: &mut Lines<impl BufRead>, output: &mut impl Write) -> Result<(), Stop> {
    let header = Header::read(&lines.wanted(Header::WORDS)?)?;
    let start = lines.wanted(1 + header.table_words())?;
    Refusal::BeatNumber.when(start[0] != 0)?;
    let mut records = start[1..].to_vec();
    header.show(0, &records, output)?;

    let mut last = 0;
    while let Some(frame) = lines.next(1 + header.sent_words())? {
        // RULES 11.5: 11 "is any well-formed line after beat fffe" too.
        Refusal::BeatNumber.when(last == LAST_BEAT || frame[0] != last + 1)?;
        last = frame[0];
        records = header.after_beat(&records, &frame[1..])?;
        header.show(last, &records, output)?;
    }
    Ok(())
}

/// RULES 11.1: "n (2 digits), f (2 digits), c (4 digits), the broken set (4 digits)."
struct Header {
    n: u32,
    f: u32,
    c: u32,
    broken: u32,
}

impl Header {
    const WORDS: usize = 3;

    /// Tests 1, 2, 3 and 7.
    fn read(words: &[u16]) -> Result<Header, Refusal> {
        let [n, f] = words[0].to_be_bytes().map(u32::from);
        let [c, broken] = [words[1], words[2]].map(u32::from);
        check_cards(n, f)?;
        check_modulus(c)?;
        check_broken(n, f, broken)?;
        Ok(Header { n, f, c, broken })
    }

    fn record_words(&self) -> usize {
        params::words(self.f as usize)
    }

    /// The words of the n records.
    fn table_words(&self) -> usize {
        self.n as usize * self.record_words()
    }

    /// The words the broken cards send in one beat.
    fn sent_words(&self) -> usize {
        self.broken.count_ones() as usize * self.table_words()
    }

    fn after_beat(&self, records: &[u16], sent: &[u16]) -> Result<Vec<u16>, Refusal> {
        let &Header { n, f, c, broken } = self;
        let mut next = vec![0; records.len()];
        beat(n, f, c, broken, records, sent, &mut next)?;
        Ok(next)
    }

    /// RULES 11.4: "the beat (4 digits) and, for each card in order, its shown count (4 digits),
    /// ffff for none and for a broken card."
    fn show(&self, beat: u16, records: &[u16], output: &mut impl Write) -> Result<(), Stop> {
        let mut line = vec![beat];
        for (card, record) in records.chunks_exact(self.record_words()).enumerate() {
            let count = shown(self.n, self.f, self.c, record)?;
            line.push(count::write(
                count.filter(|_| !is_broken(self.broken, card)),
            ));
        }
        Ok(writeln!(output, "{}", write_words(&line))?)
    }
}

/// The lines of an input, each read as words. A failed read counts as the end.
struct Lines<Input> {
    input: Input,
    ended: bool,
    /// The line last asked for, counted from 1.
    number: u32,
}

impl<Input: BufRead> Lines<Input> {
    fn new(input: Input) -> Self {
        Lines {
            input,
            ended: false,
            number: 0,
        }
    }

    /// The words of the next line, of which there must be exactly `count`, or 10.
    fn wanted(&mut self, count: usize) -> Result<Vec<u16>, Refusal> {
        self.next(count)?.ok_or(Refusal::Text)
    }

    /// The same, but none at the end of the input.
    fn next(&mut self, count: usize) -> Result<Option<Vec<u16>>, Refusal> {
        self.number += 1;
        // A good line and its line feed, and no more: that shows already what is too long.
        let most = 4 * count as u64 + 1;
        let mut line = Vec::new();
        if !self.ended {
            let taken = (&mut self.input).take(most).read_until(b'\n', &mut line);
            self.ended = taken.is_err() || !line.ends_with(b"\n");
        }
        if line.is_empty() {
            return Ok(None);
        }
        read_words(without_line_feed(&line), count).map(Some)
    }
}
