//! The run program on valid and damaged files, and the lines of a text.

use std::io::{self, BufReader, Read, Write};

use generate::runfiles::{damaged, frame, header, joined, Damage, RunFile, Verdict};
use generate::{Random, Shape};
use second::card::shown;
use second::refusal::Refusal;
use second::runfile::run;
use second::text::{line, read_words};

fn output_of(file: impl Read) -> String {
    let mut output = Vec::new();
    run(BufReader::new(file), &mut output).unwrap();
    String::from_utf8(output).unwrap()
}

fn refusal_line(number: usize, refusal: Refusal) -> String {
    format!("ffff{number:08x}{:02x}\n", refusal.number())
}

/// What a valid file's output is to be, beat by beat.
fn played(file: &RunFile) -> Vec<String> {
    let mut table = Vec::new();
    let mut output = Vec::new();
    for (beat, line) in file.lines[1..].iter().enumerate() {
        let words = &read_words(line, line.len() / 4).unwrap()[1..];
        table = if beat == 0 {
            words.to_vec()
        } else {
            file.shape.after_beat(file.broken, &table, words)
        };
        output.push(format!("{beat:04x}{}\n", counts_shown(file, &table)));
    }
    output
}

fn counts_shown(file: &RunFile, table: &[u16]) -> String {
    let Shape { n, f, c } = file.shape;
    let records = table.chunks_exact(file.shape.words()).enumerate();
    let counts = records.map(|(card, record)| match file.broken >> card & 1 {
        0 => shown(n, f, c, record).unwrap().unwrap_or(65_535),
        _ => 65_535,
    });
    counts.map(|count| format!("{count:04x}")).collect()
}

#[test]
fn a_valid_file_is_played_to_its_end() {
    let mut random = Random::new(1);
    for _ in 0..500 {
        let file = RunFile::random(&mut random);
        assert_eq!(output_of(&file.text()[..]), played(&file).concat());
    }
}

/// The output of a damaged file: what its good lines show, then the refusal if there is one.
fn wanted_output(file: &RunFile, text: &[u8], verdict: Verdict) -> String {
    let lines_in_text = (1..)
        .take_while(|&number| line(text, number).is_ok())
        .count();
    let good_lines = verdict.map_or(lines_in_text, |(number, _)| number - 1);
    let good = played(file)[..good_lines.saturating_sub(1)].concat();
    good + &verdict.map_or(String::new(), |(number, refusal)| {
        refusal_line(number, refusal)
    })
}

#[test]
fn a_damaged_file_is_refused_where_it_goes_wrong() {
    let mut random = Random::new(2);
    for damage in Damage::ALL {
        for _ in 0..150 {
            let file = RunFile::random(&mut random);
            let (text, verdict) = damaged(&mut random, &file, damage);
            let wanted = wanted_output(&file, &text, verdict);
            assert_eq!(output_of(&text[..]), wanted, "{damage:?}");
        }
    }
}

#[test]
fn every_refusal_of_a_run_occurs() {
    let mut random = Random::new(3);
    let mut numbers = Vec::new();
    for damage in Damage::ALL.repeat(40) {
        let file = RunFile::random(&mut random);
        let (text, _) = damaged(&mut random, &file, damage);
        let output = output_of(&text[..]);
        let last = output.lines().last().unwrap_or("").to_string();
        if last.starts_with("ffff") {
            numbers.push(last[12..].to_string());
        }
    }
    numbers.sort();
    numbers.dedup();
    assert_eq!(numbers, ["01", "02", "03", "07", "0a", "0b"]);
}

/// Small files, whose lines of different numbers may be equally long.
#[test]
fn small_files_with_lines_misplaced() {
    let mut random = Random::new(4);
    for (n, f, broken) in [(1, 0, 0), (2, 0, 0), (3, 0, 0), (4, 1, 1), (4, 1, 0)] {
        let shape = Shape { n, f, c: 3 };
        for damage in [
            Damage::LineDoubled,
            Damage::LineDropped,
            Damage::LinesSwapped,
        ] {
            for time in 0..12 {
                let file = RunFile::of_length(&mut random, shape, broken, time % 3);
                let (text, verdict) = damaged(&mut random, &file, damage);
                let wanted = wanted_output(&file, &text, verdict);
                assert_eq!(output_of(&text[..]), wanted, "{damage:?} {file:?}");
            }
        }
    }
}

#[test]
fn on_a_line_10_comes_first() {
    let start = "020000030000\n000000020001\n";
    let good = "000000020001\n";
    for (file, number, shows) in [
        ("11FF00000000\n".to_string(), 1, ""),
        ("00ff000100000\n".to_string(), 1, ""),
        ("020000030000\n00010002000\n".to_string(), 2, ""),
        (format!("{start}00020\n"), 3, good),
        (format!("{start}000g\n"), 3, good),
        (format!("{start}002\n"), 3, good),
    ] {
        let wanted = shows.to_string() + &refusal_line(number, Refusal::Text);
        assert_eq!(output_of(file.as_bytes()), wanted, "{file:?}");
    }
}

/// A file that arrives in pieces of one to seven bytes.
struct InPieces<'a> {
    rest: &'a [u8],
    random: Random,
}

impl Read for InPieces<'_> {
    fn read(&mut self, buffer: &mut [u8]) -> io::Result<usize> {
        let piece = (1 + self.random.below(7)).min(buffer.len());
        self.rest.read(&mut buffer[..piece])
    }
}

#[test]
fn a_file_in_pieces_runs_as_in_one_piece() {
    let mut random = Random::new(5);
    for damage in Damage::ALL.repeat(20) {
        let file = RunFile::random(&mut random);
        for text in [file.text(), damaged(&mut random, &file, damage).0] {
            let pieces = InPieces {
                rest: &text,
                random: Random::new(random.number()),
            };
            let mut output = Vec::new();
            let small_buffer = BufReader::with_capacity(1 + random.below(40), pieces);
            run(small_buffer, &mut output).unwrap();
            assert_eq!(String::from_utf8(output).unwrap(), output_of(&text[..]));
        }
    }
}

/// A file whose reading fails once, and would go on after that.
struct Failing<'a> {
    before: &'a [u8],
    after: &'a [u8],
    failed: bool,
}

impl Read for Failing<'_> {
    fn read(&mut self, buffer: &mut [u8]) -> io::Result<usize> {
        if !self.before.is_empty() {
            return self.before.read(buffer);
        }
        if !self.failed {
            self.failed = true;
            return Err(io::ErrorKind::Other.into());
        }
        self.after.read(buffer)
    }
}

#[test]
fn a_failed_read_is_the_end_of_the_input() {
    let mut random = Random::new(6);
    for _ in 0..300 {
        let text = RunFile::random(&mut random).text();
        // Anywhere, or where only the last line feed is missing.
        let places = [random.below(text.len()), text.len() - 1];
        let (before, after) = text.split_at(random.pick(&places));
        let failed = false;
        let failing = Failing {
            before,
            after,
            failed,
        };
        assert_eq!(output_of(failing), output_of(before));
    }
}

/// Digits without end, counted.
struct Endless<'a> {
    before: &'a [u8],
    given: &'a mut usize,
}

impl Read for Endless<'_> {
    fn read(&mut self, buffer: &mut [u8]) -> io::Result<usize> {
        if !self.before.is_empty() {
            return self.before.read(buffer);
        }
        buffer.fill(b'0');
        *self.given += buffer.len();
        Ok(buffer.len())
    }
}

#[test]
fn a_line_without_end_is_refused_without_reading_on() {
    let lines = ["020000030000\n", "000000020001\n", "0001\n"];
    for good in 0..=lines.len() {
        let before = lines[..good].concat();
        let mut given = 0;
        let endless = Endless {
            before: before.as_bytes(),
            given: &mut given,
        };
        let mut output = Vec::new();
        run(BufReader::with_capacity(64, endless), &mut output).unwrap();
        let output = String::from_utf8(output).unwrap();
        assert!(output.ends_with(&refusal_line(good + 1, Refusal::Text)));
        assert!(given <= 128, "{given} bytes were taken");
    }
}

#[test]
fn after_beat_fffe_every_well_formed_line_is_11() {
    let shape = Shape { n: 1, f: 0, c: 7 };
    let mut lines = vec![header(shape, 0), frame(0, &[3])];
    lines.extend((1..=0xfffe).map(|beat| frame(beat, &[])));
    let whole = output_of(&joined(&lines)[..]);
    assert_eq!(whole.lines().count(), 0xffff);
    let last = format!("fffe{:04x}", (3 + 0xfffe) % 7);
    assert_eq!(whole.lines().last(), Some(&last[..]));

    for (line, refusal) in [
        ("ffff", Refusal::BeatNumber),
        ("fffe", Refusal::BeatNumber),
        ("0000", Refusal::BeatNumber),
        ("0001", Refusal::BeatNumber),
        ("fff", Refusal::Text),
        ("FFFF", Refusal::Text),
        ("", Refusal::Text),
    ] {
        let mut longer = lines.clone();
        longer.push(line.into());
        let wanted = whole.clone() + &refusal_line(0x1_0001, refusal);
        assert!(output_of(&joined(&longer)[..]) == wanted, "{line:?}");
    }
}

/// A place to write to with room for that many bytes.
struct Room(usize);

impl Write for Room {
    fn write(&mut self, bytes: &[u8]) -> io::Result<usize> {
        if self.0 < bytes.len() {
            return Err(io::ErrorKind::WriteZero.into());
        }
        self.0 -= bytes.len();
        Ok(bytes.len())
    }

    fn flush(&mut self) -> io::Result<()> {
        Ok(())
    }
}

#[test]
fn a_failed_write_is_handed_back() {
    let file = b"020000030000\n000000020001\n0001\n0003\n";
    let needed = output_of(&file[..]).len();
    for room in 0..needed {
        let failed = run(&file[..], Room(room)).unwrap_err();
        assert_eq!(failed.kind(), io::ErrorKind::WriteZero);
    }
    run(&file[..], Room(needed)).unwrap();
}

#[test]
fn lines_of_a_text() {
    let lines_of = |text: &'static [u8]| -> Vec<&[u8]> {
        (1..).map_while(|number| line(text, number).ok()).collect()
    };
    assert_eq!(lines_of(b""), [b""; 0]);
    assert_eq!(lines_of(b"\n"), [b""]);
    assert_eq!(lines_of(b"a"), [b"a"]);
    assert_eq!(lines_of(b"a\n"), [b"a"]);
    assert_eq!(lines_of(b"a\n\n"), [&b"a"[..], b""]);
    assert_eq!(lines_of(b"\na"), [&b""[..], b"a"]);
    assert_eq!(lines_of(b"a\r\nb\0"), [&b"a\r"[..], b"b\0"]);
    assert_eq!(line(b"a\nb", 0), Err(Refusal::Text));
    assert_eq!(line(b"a\nb", 3), Err(Refusal::Text));
    assert_eq!(line(b"a\nb", usize::MAX), Err(Refusal::Text));
}
