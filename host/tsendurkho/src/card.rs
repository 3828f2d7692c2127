use crate::Rack;

/// A card of a rack, from [`Rack::card`] or [`Rack::cards`].
///
/// It belongs to the racks that are equal to the one that made it: the same n, f and c. Any
/// other rack refuses it with 4, whatever its number, so a card of the wrong rack is never
/// stepped unnoticed.
///
/// ```
/// use tsendurkho::{Rack, Refusal, Shape};
///
/// let four = Rack::new(Shape { cards: 4, broken: 0, modulus: 8 })?;
/// let five = Rack::new(Shape { cards: 5, broken: 0, modulus: 8 })?;
/// let card = four.card(1)?;
/// assert_eq!(four.step(card, &[6, 0, 0, 0]), Ok(vec![7]));
/// assert_eq!(five.step(card, &[6, 0, 0, 0, 0]), Err(Refusal::Card));
/// # Ok::<(), tsendurkho::Refusal>(())
/// ```
#[derive(Clone, Copy, Debug, PartialEq, Eq, Hash)]
pub struct Card {
    pub(crate) rack: Rack,
    pub(crate) number: u32,
}

impl Card {
    /// Its number, from 0 to n-1.
    pub fn number(self) -> u32 {
        self.number
    }

    /// Its number, for the place of its record among those of all cards.
    pub fn index(self) -> usize {
        self.number as usize
    }
}
