//! The worked numbers of RULES 12, and the table of RULES 2.3.

use second::beat::beat;
use second::card::shown;
use second::count;
use second::group::Group;
use second::king::{self, Output};
use second::lag::lag;
use second::params::{parameters, Parameters};
use second::refusal::Refusal;
use second::runfile::run;
use second::split::{cooldown, most_frequent, pointer, vote};

/// n=4, f=1, c=8.
const FOUR: Group = Group { n: 4, f: 1, c: 8 };

fn after_beat_of_two(words: [u16; 2]) -> [u16; 2] {
    let mut out = [9, 9];
    beat(2, 0, 3, 0, &words, &[], &mut out).unwrap();
    out
}

#[test]
fn two_cards_follow_the_first() {
    assert_eq!(after_beat_of_two([2, 1]), [0, 0]);
}

#[test]
fn the_first_card_out_of_range_steps_from_0() {
    assert_eq!(after_beat_of_two([7, 1]), [1, 1]);
}

#[test]
fn out_of_range_shows_none() {
    assert_eq!(shown(2, 0, 3, &[7]), Ok(None));
    assert_eq!(shown(2, 0, 3, &[2]), Ok(Some(2)));
}

#[test]
fn votes_of_four() {
    assert_eq!(vote(FOUR.quorum(), &[5, 5, 5, 9].map(Some)), Some(5));
    assert_eq!(vote(FOUR.quorum(), &[5, 5, 9, 9].map(Some)), None);
}

#[test]
fn votes_of_seven() {
    let seven = Group { n: 7, f: 2, c: 8 };
    let four_alike = [6, 1, 6, 6, 2, 6, 3].map(Some);
    let five_alike = [6, 1, 6, 6, 6, 6, 3].map(Some);
    assert_eq!(vote(seven.quorum(), &four_alike), None);
    assert_eq!(vote(seven.quorum(), &five_alike), Some(6));
}

#[test]
fn most_frequent_of_two() {
    let of = |words: [u16; 2]| most_frequent(&words.map(|word| count::read(word, 18)));
    assert_eq!(of([3, 8]), 3);
    assert_eq!(of([8, 3]), 3);
    assert_eq!(of([65_535, 8]), 8);
    assert_eq!(of([18, 8]), 8);
    assert_eq!(of([65_535, 65_535]), 0);
}

#[test]
fn cooldown_of_half_0() {
    let after = |old, new| cooldown(FOUR, 0, old, new, 5);
    assert_eq!(FOUR.half(0).c, 18);
    assert_eq!(after(Some(17), Some(0)), 4);
    assert_eq!(after(Some(17), Some(17)), 108);
    assert_eq!(after(None, Some(4)), 108);
}

#[test]
fn pointers() {
    assert_eq!(pointer(1, 0, Some(8)), Some(0));
    assert_eq!(pointer(1, 0, Some(9)), Some(1));
    assert_eq!(pointer(1, 1, Some(26)), Some(0));
    assert_eq!(pointer(1, 1, Some(27)), Some(1));
    assert_eq!(pointer(1, 0, None), None);
}

#[test]
fn step_0() {
    let own = Output {
        a: Some(3),
        b: false,
    };
    let after = |heard: [u16; 4]| king::step(FOUR, 0, own, &heard.map(Some));
    assert_eq!(after([3, 3, 3, 6]).a, Some(4));
    assert_eq!(after([3, 3, 6, 6]).a, None);
}

#[test]
fn step_1() {
    let own = Output {
        a: Some(3),
        b: true,
    };
    let heard = [Some(3), Some(3), Some(6), None];
    let after = Output {
        a: Some(4),
        b: false,
    };
    assert_eq!(king::step(FOUR, 1, own, &heard), after);
}

#[test]
fn step_2() {
    let none = Output { a: None, b: false };
    let after = Output {
        a: Some(1),
        b: true,
    };
    assert_eq!(king::step(FOUR, 2, none, &[None; 4]), after);

    let seven = Output {
        a: Some(7),
        b: true,
    };
    assert_eq!(king::step(FOUR, 2, seven, &[Some(5); 4]).a, Some(0));
}

#[test]
fn lags() {
    assert_eq!(lag(8, 1, 7), Ok(2));
    assert_eq!(lag(8, 7, 1), Ok(-2));
    assert_eq!(lag(8, 4, 0), Ok(4));
}

#[test]
fn refused_or_not() {
    let refusal = |n, f| parameters(n, f).err().map(Refusal::number);
    assert_eq!(refusal(16, 5), None);
    assert_eq!(refusal(15, 5), Some(2));
    assert_eq!(refusal(4, 1), None);
    assert_eq!(refusal(3, 1), Some(2));

    let refusal = |c| lag(c, 0, 0).err().map(Refusal::number);
    assert_eq!(refusal(1), Some(3));
    assert_eq!(refusal(2), None);
    assert_eq!(refusal(65_535), None);
    assert_eq!(refusal(65_536), Some(3));
}

#[test]
fn parameters_are_the_table_of_the_rules() {
    let table = [
        [0, 0, 0, 0, 0, 1, 1],
        [1, 9, 18, 54, 108, 9, 192],
        [2, 12, 24, 72, 144, 17, 446],
        [3, 15, 30, 90, 180, 17, 509],
        [4, 18, 36, 108, 216, 25, 826],
        [5, 21, 42, 126, 252, 25, 889],
    ];
    for [f, t, c0, c1, restart, words, settled] in table {
        let row = Parameters {
            t,
            c0,
            c1,
            restart,
            words: words.into(),
            settled: settled.into(),
        };
        assert_eq!(parameters(16, f.into()), Ok(row), "f = {f}");
    }
}

fn output_of(file: &str) -> String {
    let mut output = Vec::new();
    run(file.as_bytes(), &mut output).unwrap();
    String::from_utf8(output).unwrap()
}

#[test]
fn whole_run_file() {
    let file = "020000030000\n000000020001\n0001\n0002\n";
    let shown = "000000020001\n000100000000\n000200010001\n";
    assert_eq!(output_of(file), shown);
}

#[test]
fn run_file_with_a_beat_left_out() {
    let file = "020000030000\n000000020001\n0002\n0002\n";
    let shown = "000000020001\nffff000000030b\n";
    assert_eq!(output_of(file), shown);
}
