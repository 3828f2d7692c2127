//! What must hold for every input, tried on many generated ones.

use generate::calls::{BeatCall, Call, StepBytesCall, StepCall};
use generate::{Random, Shape};
use second::card::{shown, step};
use second::lag::lag;
use second::params::parameters;
use second::text::{read_record, write_record};

/// How one word of a card's record is read (RULES 4.2), and what may be written there.
#[derive(Clone, Copy, Debug)]
enum Kind {
    /// m0, m1, or the a of a group with f = 0: always written below its modulus.
    Count(u16),
    /// M0, M1, or the a of a split group.
    CountOrNone(u16),
    Cooldown(u16),
    Flag,
    /// RULES 4.1: "Words beyond these are written 0 and never read."
    Beyond,
}

impl Kind {
    fn may_be_written(self, word: u16) -> bool {
        match self {
            Kind::Count(modulus) => word < modulus,
            Kind::CountOrNone(modulus) => word < modulus || word == 65_535,
            Kind::Cooldown(start) => word <= start,
            Kind::Flag => word <= 1,
            Kind::Beyond => word == 0,
        }
    }

    /// A word that reads as this one does.
    fn alike(self, word: u16, random: &mut Random) -> u16 {
        let mut from = |low: u16| random.between(low.into(), 65_535) as u16;
        match self {
            Kind::Count(bound) | Kind::CountOrNone(bound) | Kind::Cooldown(bound) => {
                if word < bound {
                    word
                } else {
                    from(bound)
                }
            }
            Kind::Flag if word == 1 => word,
            // 0 stands for all that are not 1, and they for it.
            Kind::Flag => [from(2), 0][usize::from(word != 0)],
            Kind::Beyond => from(0),
        }
    }
}

/// The kinds of the words that are a card's own, outermost group first.
fn own_kinds(n: usize, f: usize, c: u16, card: usize) -> Vec<Kind> {
    if f == 0 {
        return vec![Kind::Count(c)];
    }
    let t = 3 * (f as u16 + 2);
    let (c0, c1) = (2 * t, 6 * t);
    let mut kinds = vec![
        Kind::Count(c0),
        Kind::Count(c1),
        Kind::CountOrNone(c0),
        Kind::CountOrNone(c1),
        Kind::Cooldown(2 * c1),
        Kind::Cooldown(2 * c1),
        Kind::CountOrNone(c),
        Kind::Flag,
    ];
    kinds.extend(if card < n / 2 {
        own_kinds(n / 2, (f - 1) / 2, c0, card)
    } else {
        own_kinds(n - n / 2, f / 2, c1, card - n / 2)
    });
    kinds
}

/// The kinds of all words of a card's record.
fn kinds(call: &StepCall, card: usize) -> Vec<Kind> {
    let mut kinds = own_kinds(call.n as usize, call.f as usize, call.c as u16, card);
    assert!(kinds.len() <= call.out.len());
    kinds.resize(call.out.len(), Kind::Beyond);
    kinds
}

/// Which words of the n records a card's step reads: `reads[card][word]`.
fn words_read(shape: Shape, card: u32) -> Vec<Vec<bool>> {
    let mut reads = vec![vec![false; shape.words()]; shape.n as usize];
    let (mut first, mut n) = (0, shape.n as usize);
    let (mut f, mut start) = (shape.f as usize, 0);
    let own = card as usize;
    while f > 0 {
        let (middle, f0, f1) = (first + n / 2, (f - 1) / 2, f / 2);
        for (card, record) in reads.iter_mut().enumerate().skip(first).take(n) {
            let f_of_half = if card < middle { f0 } else { f1 };
            let output_of_half = start + 8 + if f_of_half == 0 { 0 } else { 6 };
            for word in [start, start + 1, start + 6, output_of_half] {
                record[word] = true;
            }
        }
        reads[own][start..start + 8].fill(true);
        (first, n, f) = if own < middle {
            (first, n / 2, f0)
        } else {
            (middle, n - n / 2, f1)
        };
        start += 8;
    }
    reads[first][start] = true;
    reads
}

#[test]
fn the_shapes_are_all_that_the_rules_allow() {
    let shapes = Shape::each(&mut Random::new(9));
    let cards: Vec<_> = shapes.iter().map(|shape| (shape.n, shape.f)).collect();
    let all = (1..=16).flat_map(|n| (0..=5).map(move |f| (n, f)));
    let allowed: Vec<_> = all.filter(|(n, f)| 3 * f < *n).collect();
    assert_eq!(cards, allowed);
    assert_eq!(allowed.len(), 51);
}

/// The next record of a call, which must succeed.
fn next_record(mut call: StepCall) -> Vec<u16> {
    call.make().unwrap();
    call.out
}

#[test]
fn a_step_writes_words_in_range_and_0_beyond() {
    let mut random = Random::new(1);
    for _ in 0..5000 {
        let call = StepCall::sound(&mut random);
        let kinds = kinds(&call, call.card as usize);
        for (kind, word) in kinds.iter().zip(next_record(call)) {
            assert!(kind.may_be_written(word), "{kind:?} is written {word}");
        }
    }
}

#[test]
fn words_that_read_alike_step_alike() {
    let mut random = Random::new(2);
    let mut changed = 0;
    for _ in 0..5000 {
        let call = StepCall::sound(&mut random);
        let mut other = call.clone();
        for (card, record) in other.records.chunks_exact_mut(call.out.len()).enumerate() {
            for (kind, word) in kinds(&call, card).iter().zip(record) {
                *word = kind.alike(*word, &mut random);
            }
        }
        changed += usize::from(call.records != other.records);
        assert_eq!(next_record(other.clone()), next_record(call), "{other:?}");
    }
    assert!(changed > 4000, "only {changed} tables were changed");
}

#[test]
fn words_never_read_do_not_matter() {
    let mut random = Random::new(3);
    let mut changed = 0;
    for _ in 0..5000 {
        let call = StepCall::sound(&mut random);
        let mut other = call.clone();
        let StepCall { n, f, c, card, .. } = call;
        let reads = words_read(Shape { n, f, c }, card).concat();
        for (word, read) in other.records.iter_mut().zip(reads) {
            if !read {
                *word = random.word();
            }
        }
        changed += usize::from(call.records != other.records);
        assert_eq!(next_record(other.clone()), next_record(call), "{other:?}");
    }
    assert!(changed > 4000, "only {changed} tables were changed");
}

/// Whether a change of the word at this place of a random table changes the card's step.
fn matters(random: &mut Random, shape: Shape, card: u32, place: usize) -> bool {
    let Shape { n, f, c } = shape;
    let call = StepCall {
        n,
        f,
        c,
        card,
        records: shape.table(random),
        out: vec![0; shape.words()],
    };
    let mut other = call.clone();
    other.records[place] = shape.word(random);
    next_record(other) != next_record(call)
}

#[test]
fn every_word_read_matters_in_some_table() {
    let mut random = Random::new(4);
    for (n, f) in [(1, 0), (3, 0), (4, 1), (7, 2), (10, 3)] {
        let shape = Shape { n, f, c: 5 };
        for card in 0..n {
            let reads = words_read(shape, card).concat();
            for (place, _) in reads.iter().enumerate().filter(|(_, &read)| read) {
                let mattered = (0..3000).any(|_| matters(&mut random, shape, card, place));
                assert!(mattered, "word {place} for card {card} of {shape:?}");
            }
        }
    }
}

#[test]
fn a_whole_beat_is_the_single_steps_of_the_sound_cards() {
    let mut random = Random::new(5);
    for _ in 0..2000 {
        let mut call = BeatCall::sound(&mut random);
        call.make().unwrap();
        let words = call.records.len() / call.n as usize;
        let mut sent = call.sent.chunks_exact(words);
        for receiver in 0..call.n {
            let mut heard = call.records.clone();
            for card in (0..call.n as usize).filter(|card| call.broken >> card & 1 == 1) {
                heard[card * words..][..words].copy_from_slice(sent.next().unwrap());
            }
            let held = &call.records[receiver as usize * words..][..words];
            let mut next = held.to_vec();
            if call.broken >> receiver & 1 == 0 {
                step(call.n, call.f, call.c, receiver, &heard, &mut next).unwrap();
            }
            assert_eq!(next, call.out[receiver as usize * words..][..words]);
        }
        assert!(sent.next().is_none());
    }
}

#[test]
fn a_step_on_bytes_is_the_step_low_byte_first() {
    let mut random = Random::new(8);
    for _ in 0..2000 {
        let call = StepCall::sound(&mut random);
        let mut on_bytes = StepBytesCall::from(call.clone());
        on_bytes.make().unwrap();
        let words = on_bytes.out.chunks_exact(2);
        let words: Vec<_> = words
            .map(|pair| u16::from(pair[0]) + 256 * u16::from(pair[1]))
            .collect();
        assert_eq!(words, next_record(call));
    }
}

#[test]
fn a_record_comes_back_from_its_text() {
    let mut random = Random::new(6);
    for shape in Shape::each(&mut random) {
        let record = shape.record(&mut random);
        let mut text = vec![0; 4 * shape.words()];
        let mut again = vec![0; shape.words()];
        write_record(shape.n, shape.f, &record, &mut text).unwrap();
        read_record(shape.n, shape.f, &text, &mut again).unwrap();
        assert_eq!(again, record);
    }
}

#[test]
fn a_record_has_no_second_text() {
    // With W = 1 a text is four characters: every byte in every place, and what is accepted
    // must be what is written.
    let mut accepted = 0;
    for place in 0..4 {
        for byte in 0..=255 {
            let mut text = *b"09af";
            text[place] = byte;
            let mut record = [0];
            if read_record(1, 0, &text, &mut record).is_ok() {
                let mut again = [0; 4];
                write_record(1, 0, &record, &mut again).unwrap();
                assert_eq!(again, text);
                accepted += 1;
            }
        }
    }
    assert_eq!(accepted, 4 * 16);
}

#[test]
fn the_text_is_the_standard_librarys_hexadecimal() {
    for word in 0..=65_535 {
        let mut text = [0; 4];
        write_record(1, 0, &[word], &mut text).unwrap();
        assert_eq!(text, format!("{word:04x}").as_bytes());
        let mut again = [0];
        read_record(1, 0, &text, &mut again).unwrap();
        assert_eq!(again, [word]);
    }
}

/// The numbers above -c/2 and at most c/2 that are congruent to x - y modulo c.
fn lags_in_range(c: i64, x: i64, y: i64) -> Vec<i64> {
    let in_range = -c..=c;
    in_range
        .filter(|lag| -c < 2 * lag && 2 * lag <= c && (x - y - lag) % c == 0)
        .collect()
}

#[test]
fn the_lag_is_the_only_number_in_range() {
    for c in 2..=33 {
        for x in 0..c {
            for y in 0..c {
                let answered = i64::from(lag(c, x, y).unwrap());
                let wanted = lags_in_range(c.into(), x.into(), y.into());
                assert_eq!(wanted, [answered], "c={c} x={x} y={y}");
            }
        }
    }
}

#[test]
fn the_lag_is_exact_for_the_largest_moduli() {
    for c in 65_530..=65_535 {
        for x in [0, 1, c / 2 - 1, c / 2, c / 2 + 1, c - 2, c - 1] {
            for y in [0, 1, c / 2 - 1, c / 2, c / 2 + 1, c - 2, c - 1] {
                let answered = i64::from(lag(c, x, y).unwrap());
                let wanted = lags_in_range(c.into(), x.into(), y.into());
                assert_eq!(wanted, [answered], "c={c} x={x} y={y}");
            }
        }
    }
}

/// The counts the sound cards show.
fn shown_by_sound(shape: Shape, broken: u32, table: &[u16]) -> Vec<Option<u16>> {
    let Shape { n, f, c } = shape;
    let records = table.chunks_exact(shape.words()).enumerate();
    records
        .filter(|(card, _)| broken >> card & 1 == 0)
        .map(|(_, record)| shown(n, f, c, record).unwrap())
        .collect()
}

/// Runs from a random start; from T(f) on the sound cards must count together.
fn settles(random: &mut Random, shape: Shape) {
    let broken = shape.broken_set(random);
    let settled = parameters(shape.n, shape.f).unwrap().settled;
    let mut table = shape.table(random);
    let mut before = None;
    for beat in 1..settled + 50 {
        let sent = shape.sent(random, broken, &table);
        table = shape.after_beat(broken, &table, &sent);
        if beat < settled {
            continue;
        }
        let counts = shown_by_sound(shape, broken, &table);
        let count = counts[0].unwrap_or_else(|| panic!("none at beat {beat} of {shape:?}"));
        assert_eq!(
            counts,
            vec![Some(count); counts.len()],
            "beat {beat}, {shape:?}"
        );
        if let Some(before) = before {
            assert_eq!(
                u32::from(count),
                (before + 1) % shape.c,
                "beat {beat}, {shape:?}"
            );
        }
        before = Some(u32::from(count));
    }
}

#[test]
fn sound_cards_count_together_from_t_of_f_on() {
    let mut random = Random::new(7);
    for shape in Shape::each(&mut random) {
        settles(&mut random, shape);
    }
}
