//! The proved program against the second implementation, to the byte.

use std::fs::{self, File};
use std::path::Path;
use std::process::{Command, Stdio};

use generate::runfiles::{damaged, Damage, RunFile};
use generate::{Random, Shape};
use program::{launcher, output_of, send, wanted};

/// A text cut in pieces of one byte up to this many.
fn pieces<'a>(random: &mut Random, text: &'a [u8], longest: usize) -> Vec<&'a [u8]> {
    let mut rest = text;
    let mut cut = Vec::new();
    while !rest.is_empty() {
        let (piece, others) = rest.split_at((1 + random.below(longest)).min(rest.len()));
        cut.push(piece);
        rest = others;
    }
    cut
}

fn compare(random: &mut Random, text: &[u8], what: &str) {
    let longest = random.pick(&[7, 500, 5_000, 1_000_000]);
    let output = output_of(&pieces(random, text, longest));
    assert_eq!(
        String::from_utf8_lossy(&output),
        String::from_utf8_lossy(&wanted(text)),
        "{what}: {:?}",
        String::from_utf8_lossy(text)
    );
}

#[test]
fn a_thousand_good_files() {
    let mut random = Random::new(101);
    for _ in 0..1_000 {
        let file = RunFile::random(&mut random);
        compare(&mut random, &file.text(), "a good file");
    }
}

#[test]
fn more_than_a_thousand_damaged_files() {
    let mut random = Random::new(102);
    for damage in Damage::ALL {
        for _ in 0..70 {
            let file = RunFile::random(&mut random);
            let (text, _) = damaged(&mut random, &file, damage);
            compare(&mut random, &text, &format!("{damage:?}"));
        }
    }
}

#[test]
fn files_of_any_bytes() {
    let mut random = Random::new(103);
    let file = RunFile::random(&mut random).text();
    for _ in 0..100 {
        let mut text = file.clone();
        for _ in 0..=random.below(3) {
            let at = random.below(text.len());
            text[at] = random.number() as u8;
        }
        compare(&mut random, &text, "any bytes");
    }
}

#[test]
fn lines_far_longer_than_any_line() {
    let mut random = Random::new(104);
    let start = b"020000030000\n000000020001\n".to_vec();
    for length in [8_003, 8_004, 8_005, 8_006, 100_000] {
        let long = vec![b'0'; length];
        let text = [&start[..], &long[..], b"\n0001\n"].concat();
        compare(&mut random, &text, "a long line");
        compare(&mut random, &long, "a long first line");
    }
}

#[test]
fn beats_to_the_last_and_one_more() {
    let mut text = b"010000020000\n00000000\n".to_vec();
    for beat in 1..=0xfffe_u32 {
        text.extend(format!("{beat:04x}\n").bytes());
    }
    let mut random = Random::new(105);
    for more in [&b""[..], b"ffff\n", b"0000\n", b"ffff", b"fff\n"] {
        let whole = [&text[..], more].concat();
        let output = output_of(&pieces(&mut random, &whole, 70_000));
        assert_eq!(output, wanted(&whole));
    }
}

/// The program writes what it knows before it reads on. So when all but what a pipe and the program hold of a long input is
/// taken, most of its output is there: it is looked for in a file, where nothing waits for what does not come.
#[test]
fn output_comes_before_the_input_ends() {
    let mut random = Random::new(106);
    let shape = Shape {
        n: 16,
        f: 5,
        c: 65_535,
    };
    let text = RunFile::of_length(&mut random, shape, 0b11111, 300).text();
    let printed = Path::new(env!("CARGO_TARGET_TMPDIR")).join("before-the-end.txt");
    let mut child = Command::new(launcher())
        .arg("run")
        .stdin(Stdio::piped())
        .stdout(File::create(&printed).expect("a file for the output"))
        .spawn()
        .expect("the launcher starts");
    let mut input = child.stdin.take().expect("its input is a pipe");
    assert!(send(&mut input, &text), "the input is not taken to its end");
    let early = fs::read(&printed).expect("what is printed by now");
    drop(input);
    assert!(child.wait().expect("the program ends").success());

    let whole = wanted(&text);
    assert!(whole.starts_with(&early));
    let lines = early.iter().filter(|&&byte| byte == b'\n').count();
    assert!(
        lines >= 100,
        "{lines} lines of 301 came before the input ended"
    );
    assert!(fs::read(&printed).expect("what is printed") == whole);
}
