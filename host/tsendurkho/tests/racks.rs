//! Racks and their cards: what is accepted, in which order cards come, and that no rack steps a card of another.

mod common;

use common::rack;
use generate::{Random, Shape};
use tsendurkho::{Card, Rack, Refusal};

const ANY: u16 = 0xabcd;

/// Every possible rack but for the modulus, each with one or two moduli.
fn racks() -> Vec<Rack> {
    let mut random = Random::new(1);
    let shapes = Shape::each(&mut random).into_iter();
    let moduli = shapes.flat_map(|shape| [shape, Shape { c: 1_000, ..shape }]);
    let mut racks: Vec<Rack> = moduli
        .map(|Shape { n, f, c }| rack(n, f, c).expect("the shape is within the limits"))
        .collect();
    racks.dedup();
    racks
}

#[test]
fn a_rack_has_the_shape_that_it_was_made_of() {
    let rack = rack(7, 2, 9).expect("the shape is within the limits");
    let shape = rack.shape();
    assert_eq!((shape.cards, shape.broken, shape.modulus), (7, 2, 9));
    assert_eq!(Rack::new(shape), Ok(rack));
}

#[test]
fn cards_come_in_order_and_are_those_of_their_numbers() {
    for rack in racks() {
        let cards: Vec<Card> = rack.cards().collect();
        let n = rack.shape().cards;
        assert_eq!(rack.cards().len(), n as usize);
        let numbered: Result<Vec<Card>, Refusal> = (0..n).map(|number| rack.card(number)).collect();
        assert_eq!(numbered, Ok(cards.clone()));
        for (place, card) in cards.into_iter().enumerate() {
            assert_eq!((card.index(), card.number() as usize), (place, place));
        }
    }
}

#[test]
fn there_is_no_card_at_or_above_n() {
    for rack in racks() {
        let n = rack.shape().cards;
        for number in [n, n + 1, n + 256, n + 65_536, u32::MAX] {
            assert_eq!(rack.card(number), Err(Refusal::Card));
        }
    }
}

/// What a rack answers to a step of this card on words of the right lengths, by each call; a refused one writes nothing.
fn step_every_way(rack: Rack, card: Card) -> Result<Vec<u16>, Refusal> {
    let words = rack.record_words();
    let cards = rack.shape().cards as usize;
    let answer = rack.step(card, &vec![0; cards * words]);
    let mut next = vec![ANY; words];
    let into = rack.step_into(card, &vec![0; cards * words], &mut next);
    let mut bytes = vec![0xab; 2 * words];
    let on_bytes = rack.step_bytes(card, &vec![0; 2 * cards * words], &mut bytes);
    match answer.clone() {
        Ok(wanted) => {
            assert_eq!((into, on_bytes), (Ok(()), Ok(())));
            let low_byte_first: Vec<u8> =
                wanted.iter().flat_map(|word| word.to_le_bytes()).collect();
            assert_eq!((next, bytes), (wanted, low_byte_first));
        }
        Err(refusal) => {
            assert_eq!((into, on_bytes), (Err(refusal), Err(refusal)));
            assert_eq!((next, bytes), (vec![ANY; words], vec![0xab; 2 * words]));
        }
    }
    answer
}

#[test]
fn a_card_steps_with_its_own_rack_and_no_other() {
    let racks = racks();
    for &own in &racks {
        let card = own.card(0).expect("every rack has a card 0");
        for &other in &racks {
            let answer = step_every_way(other, card);
            assert_eq!(answer.is_ok(), own == other, "{own:?}, {other:?}");
            assert!(
                own == other || answer == Err(Refusal::Card),
                "{own:?}, {other:?}"
            );
        }
    }
}

#[test]
fn a_card_of_another_rack_is_refused_before_wrong_lengths_are() {
    let [own, other] = [8, 9].map(|c| rack(4, 1, c).expect("the shape is within the limits"));
    let card = own.card(3).expect("there are four cards");
    assert_eq!(own.step(card, &[]), Err(Refusal::Records));
    assert_eq!(other.step(card, &[]), Err(Refusal::Card));
    assert_eq!(other.step_into(card, &[], &mut []), Err(Refusal::Card));
    assert_eq!(other.step_bytes(card, &[], &mut []), Err(Refusal::Card));
}
