//! Texts: digits, lines, and whole run files with the whole output.

use generate::calls::no_digit;
use generate::runfiles::{damaged, Damage, RunFile};
use generate::Random;
use second::params;
use second::runfile::run;
use second::text::{line, read_words, write_words};

use crate::case::Case;
use crate::shapes::small_shape;
use crate::value::{apply, Value};

/// How many words, first lines and damaged files are asked for in one case.
const WORDS: usize = 8;
const FIRST_LINES: usize = 8;
const DAMAGED: usize = 4;

/// Words of four digits, every second one with a character that is not a digit.
pub fn digits(random: &mut Random) -> Case {
    let mut case = Case::new("words of four characters".to_string());
    for place in 1..=WORDS {
        let mut text = write_words(&[random.word()]).into_bytes();
        if random.one_in(2) {
            text[random.below(4)] = no_digit(random);
        }
        let characters = Value::list(&text);
        let formed = apply("bit_of", &[&apply("well_formed", &[&4, &characters])]);
        let read = read_words(&text, 1);
        case = case.says(
            &format!("formed-{place}"),
            formed,
            Value::Number(read.is_ok().into()),
        );
        if let Ok(words) = read {
            let number = apply("number_at", &[&characters, &0, &4]);
            case = case.says(
                &format!("word-{place}"),
                number,
                Value::Number(words[0].into()),
            );
        }
    }
    case
}

/// A line of a short text, there or not.
pub fn one_line(random: &mut Random) -> Case {
    let text: Vec<u8> = (0..random.below(12))
        .map(|_| random.pick(b"\n\n0af\r"))
        .collect();
    let k = random.below(7);
    let found = line(&text, k);
    let refusal = found.map_or_else(|refusal| refusal.number(), |_| 0);
    let characters = Value::list(&text);
    Case::new(format!("line {k} of {}", shown(&text)))
        .says(
            "refusal",
            apply("line_refusal", &[&k, &characters]),
            Value::Number(refusal.into()),
        )
        .says(
            "line",
            apply("line_at", &[&k, &characters]),
            Value::list(found.unwrap_or(&[])),
        )
}

/// Files of only a first line, whose numbers are not all good.
pub fn first_lines(random: &mut Random) -> Case {
    let mut texts = Vec::new();
    for _ in 0..FIRST_LINES {
        let file = short_file(random, params::MOST_CARDS);
        let (mut text, _) = damaged(random, &file, Damage::WrongHeader);
        text.truncate(file.lines[0].len());
        texts.push(text);
    }
    outputs_of(&texts)
}

/// A good file, and its first line alone.
pub fn good_file(random: &mut Random) -> Case {
    let file = short_file(random, 8);
    let text = file.text();
    let case = Case::new(shown(&text));
    let alone = &file.lines[0];
    output_of(output_of(case, "output", &text), "of-line-1", alone)
}

/// Files that are damaged each in its own way.
pub fn damaged_files(random: &mut Random) -> Case {
    let mut texts = Vec::new();
    for _ in 0..DAMAGED {
        let file = short_file(random, 4);
        let damage = random.pick(&Damage::ALL);
        texts.push(damaged(random, &file, damage).0);
    }
    outputs_of(&texts)
}

/// A file of at most three beats with at most that many cards: with more of them the texts grow
/// long, and a definition finds a character by counting up to it.
fn short_file(random: &mut Random, cards: u32) -> RunFile {
    let shape = small_shape(random, cards);
    let broken = shape.broken_set(random);
    let beats = random.below(4);
    RunFile::of_length(random, shape, broken, beats)
}

/// The whole outputs for some texts.
fn outputs_of(texts: &[Vec<u8>]) -> Case {
    let inputs: Vec<String> = texts.iter().map(|text| shown(text)).collect();
    let mut case = Case::new(inputs.join(", "));
    for (place, text) in texts.iter().enumerate() {
        case = output_of(case, &format!("output-{place}"), text);
    }
    case
}

/// The case with the whole output for a text.
fn output_of(case: Case, about: &str, text: &[u8]) -> Case {
    let mut output = Vec::new();
    run(text, &mut output).expect("a vector takes all");
    let term = apply("run_text", &[&Value::list(text)]);
    case.says(about, term, Value::list(&output))
}

fn shown(text: &[u8]) -> String {
    format!("{:?}", String::from_utf8_lossy(text))
}
