//! The parts that a card's step is made of: parameters, halves, the reading of a word, and what
//! happens to the eight words of a split group.

use generate::{Random, Shape};
use second::count;
use second::group::Group;
use second::king::{self, Output};
use second::params;
use second::split;

use crate::case::Case;
use crate::shapes::split_group;
use crate::value::{apply, Value};

/// The formulas of an f, beyond those that a rack may have.
pub fn formulas(random: &mut Random) -> Case {
    let f = random.below(200);
    let formulas: [(&'static str, u64); 6] = [
        ("turn", params::t(f).into()),
        ("c0", params::c0(f).into()),
        ("c1", params::c1(f).into()),
        ("restart", params::restart(f).into()),
        ("record_words", params::words(f) as u64),
        ("settle_beats", params::settled(f) as u64),
    ];
    let says = |case: Case, (name, wanted): (&'static str, u64)| {
        case.says(name, apply(name, &[&f]), Value::Number(wanted))
    };
    formulas.into_iter().fold(Case::new(format!("f {f}")), says)
}

/// Both halves of a group, and the half that a card is in.
pub fn halves(random: &mut Random) -> Case {
    let group = split_group(random);
    let Group { n, f, .. } = group;
    let card = random.below(n);
    let mut terms = vec![apply("half_of", &[&n, &card])];
    let mut numbers = vec![group.half_of(card) as u64];
    for i in [0, 1] {
        let half = group.half(i);
        terms.push(apply("half_cards", &[&i, &n]));
        terms.push(apply("half_first", &[&i, &n]));
        terms.push(apply("half_broken", &[&i, &f]));
        terms.push(apply("half_modulus", &[&i, &f]));
        let first = group.cards_of_half(i).start;
        numbers.extend([half.n as u64, first as u64, half.f as u64, half.c.into()]);
    }
    let term = terms.join(" ∷ ") + " ∷ []";
    Case::new(format!("{group:?}, card {card}")).says("halves", term, Value::Numbers(numbers))
}

/// A word read as a count or none, and written again.
pub fn reading(random: &mut Random) -> Case {
    let shape = Shape::random(random);
    let (word, c) = (shape.word(random), shape.c);
    let vote = count::read(word, c as u16);
    let read = apply("read_vote", &[&c, &word]);
    let written = apply("word_of", &[&read]);
    Case::new(format!("word {word}, modulus {c}"))
        .says("read", read, Value::Vote(vote))
        .says("written", written, Value::Number(count::write(vote).into()))
}

pub fn most_frequent(random: &mut Random) -> Case {
    let (n, m) = (random.below(9), modulus(random));
    let heard: Vec<_> = (0..n).map(|_| any_vote(random, m)).collect();
    let term = apply("most_frequent", &[&m, &n, &sent(&heard)]);
    let wanted = split::most_frequent(&heard);
    Case::new(format!("modulus {m}, {heard:?}")).says("m", term, Value::Number(wanted.into()))
}

pub fn vote(random: &mut Random) -> Case {
    let (Group { n, f, .. }, m) = (split_group(random), modulus(random));
    let heard = votes_nearly_alike(random, n, m);
    let term = apply("vote", &[&n, &f, &m, &sent(&heard)]);
    let wanted = split::vote(n - f, &heard);
    Case::new(format!("n {n}, f {f}, {heard:?}")).says("vote", term, Value::Vote(wanted))
}

pub fn cooldown(random: &mut Random) -> Case {
    let group = split_group(random);
    let (i, f) = (random.below(2), group.f);
    let (m, again) = (group.half(i).c, params::restart(f));
    let old = any_vote(random, m);
    let awaited = old.map(|old| count::next(old, m));
    let other = any_vote(random, m);
    let new = random.pick(&[awaited, awaited, old, other]);
    let any = random.below(usize::from(again) + 1) as u16;
    let wait = random.pick(&[0, 1, again, any]);
    let (old_term, new_term) = (Value::Vote(old), Value::Vote(new));
    let term = apply("cooldown", &[&m, &again, &old_term, &new_term, &wait]);
    let wanted = split::cooldown(group, i, old, new, wait);
    Case::new(format!("{group:?}, half {i}, {old:?} to {new:?}, w {wait}")).says(
        "w",
        term,
        Value::Number(wanted.into()),
    )
}

/// The two pointers, and the d of a card of either half.
pub fn phase(random: &mut Random) -> Case {
    let f = split_group(random).f;
    let observed = [params::c0(f), params::c1(f)].map(|m| any_vote(random, m));
    let [d0, d1] = observed.map(Value::Vote);
    let mut case = Case::new(format!("f {f}, {observed:?}"));
    for (i, names) in [["p0", "d-in-half-0"], ["p1", "d-in-half-1"]]
        .into_iter()
        .enumerate()
    {
        let pointer = apply("pointer", &[&apply("span", &[&i, &f]), &[&d0, &d1][i]]);
        let pointed = split::pointer(f, i, observed[i]).map(|half| half as u16);
        let d = split::round(f, i, observed);
        let phase = apply("phase", &[&i, &f, &d0, &d1]);
        case = case.says(names[0], pointer, Value::Vote(pointed)).says(
            names[1],
            phase,
            Value::Number(d.into()),
        );
    }
    case
}

/// One of the three steps, and the 1 that a count gains after it.
pub fn three_steps(random: &mut Random) -> Case {
    let group = split_group(random);
    let Group { n, f, c } = group;
    let heard = votes_nearly_alike(random, n, c);
    let d = random.below(params::t(f).into()) as u16;
    let other = any_vote(random, c);
    let a = random.pick(&[heard[0], heard[n - 1], other]);
    let own = Output {
        a,
        b: random.one_in(2),
    };
    let wanted = king::step(group, d, own, &heard);
    let standing = apply("standing", &[&Value::Vote(own.a), &own.b]);
    let after = apply("three_steps", &[&n, &f, &c, &sent(&heard), &d, &standing]);
    let gained = apply("gained", &[&c, &format!("({after}).a")]);
    let bit = apply("bit_of", &[&format!("({after}).b")]);
    Case::new(format!("{group:?}, d {d}, {own:?}, heard {heard:?}"))
        .says("a", gained, Value::Vote(wanted.a))
        .says("b", bit, Value::Number(wanted.b.into()))
}

/// A modulus that a half may have.
fn modulus(random: &mut Random) -> u16 {
    let f = random.between(1, params::MOST_BROKEN) as usize;
    random.pick(&[params::c0(f), params::c1(f)])
}

/// None, a count among the first few, or any count.
fn any_vote(random: &mut Random, m: u16) -> Option<u16> {
    let few = random.below(usize::from(m.min(3))) as u16;
    let any = random.below(m.into()) as u16;
    random.pick(&[None, Some(few), Some(few), Some(any), Some(m - 1)])
}

/// One vote of all, but for one here and there.
fn votes_nearly_alike(random: &mut Random, n: usize, m: u16) -> Vec<Option<u16>> {
    let mut votes = vec![any_vote(random, m); n];
    for vote in &mut votes {
        if random.one_in(4) {
            *vote = any_vote(random, m);
        }
    }
    votes
}

/// What the cards sent, as a function of the card.
fn sent(votes: &[Option<u16>]) -> String {
    let items = votes
        .iter()
        .map(|&vote| format!("{} ∷ ", Value::Vote(vote)));
    apply("sent", &[&(items.collect::<String>() + "[]")])
}
