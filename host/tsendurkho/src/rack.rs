use crate::{archive, parameters, Card, Refusal};

/// n, f and c, each by its name, so that none can be taken for another.
#[derive(Clone, Copy, Debug, PartialEq, Eq, Hash)]
pub struct Shape {
    /// n, how many cards there are.
    pub cards: u32,
    /// f, how many of them may be broken.
    pub broken: u32,
    /// c, the modulus of the count.
    pub modulus: u32,
}

/// A rack whose n, f and c are within the limits of RULES 2.1.
#[derive(Clone, Copy, Debug, PartialEq, Eq, Hash)]
pub struct Rack {
    shape: Shape,
}

impl Rack {
    /// A rack of this shape. The proved archive itself tests it, once.
    ///
    /// Refusals: 1, 2, 3.
    ///
    /// ```
    /// use tsendurkho::{Rack, Refusal, Shape};
    ///
    /// let rack = |cards, broken| Rack::new(Shape { cards, broken, modulus: 8 });
    /// assert!(rack(4, 1).is_ok());
    /// assert_eq!(rack(0, 0), Err(Refusal::Cards));
    /// assert_eq!(rack(3, 1), Err(Refusal::Broken));
    /// ```
    pub fn new(shape: Shape) -> Result<Rack, Refusal> {
        let rack = Rack { shape };
        rack.accepts(0).map(|()| rack)
    }

    /// The n, f and c that it was made from.
    pub fn shape(&self) -> Shape {
        self.shape
    }

    /// The card of this number. The proved archive itself tests it.
    ///
    /// Refusal: 4.
    pub fn card(&self, number: u32) -> Result<Card, Refusal> {
        let rack = *self;
        self.accepts(number).map(|()| Card { rack, number })
    }

    /// All its cards in order, card 0 first.
    ///
    /// ```
    /// # use tsendurkho::{Rack, Shape};
    /// let rack = Rack::new(Shape { cards: 3, broken: 0, modulus: 8 })?;
    /// let numbers: Vec<u32> = rack.cards().map(|card| card.number()).collect();
    /// assert_eq!(numbers, [0, 1, 2]);
    /// # Ok::<(), tsendurkho::Refusal>(())
    /// ```
    pub fn cards(&self) -> impl ExactSizeIterator<Item = Card> + DoubleEndedIterator {
        let rack = *self;
        (0..self.shape.cards).map(move |number| Card { rack, number })
    }

    /// W, the words in a record (RULES 2.2).
    pub fn record_words(&self) -> usize {
        parameters::record_words(self.shape.broken)
    }

    /// T(f), the beats after which all sound cards show the same count, and one more on each
    /// later beat, if at most f cards are broken (RULES 13).
    pub fn settle_beats(&self) -> u64 {
        parameters::settle_beats(self.shape.broken)
    }

    /// One card's step (RULES 5): its next record, from the n records that it hears, card 0
    /// first. Its own slot holds its own record.
    ///
    /// Refusals: 4, 5.
    pub fn step(&self, card: Card, heard: &[u16]) -> Result<Vec<u16>, Refusal> {
        let mut next = vec![0; self.record_words()];
        self.step_into(card, heard, &mut next)?;
        Ok(next)
    }

    /// The same into a buffer of W words, without allocating or copying. A refused call leaves
    /// the buffer as it was.
    ///
    /// Refusals: 4, 5, 6.
    pub fn step_into(&self, card: Card, heard: &[u16], next: &mut [u16]) -> Result<(), Refusal> {
        let number = self.number_of(card);
        Refusal::answered(archive::step_words(self.shape, number, heard, next))
    }

    /// The same on bytes, two for each word, low byte first (RULES 10.1).
    ///
    /// Refusals: 4, 5, 6. An odd number of bytes is a wrong length.
    pub fn step_bytes(&self, card: Card, heard: &[u8], next: &mut [u8]) -> Result<(), Refusal> {
        let number = self.number_of(card);
        Refusal::answered(archive::step(self.shape, number, heard, next))
    }

    /// The count that a card with this record shows, if any: the a of the outermost group, or none
    /// if that is c or above (RULES 7 and 4.2).
    ///
    /// Refusal: 5.
    ///
    /// ```
    /// # use tsendurkho::{Rack, Refusal, Shape, NONE};
    /// let rack = Rack::new(Shape { cards: 4, broken: 1, modulus: 8 })?;
    /// // m0 m1 M0 M1 w0 w1 a b, and the a of the card's half.
    /// assert_eq!(rack.shown_count(&[0, 0, 0, 0, 0, 0, 7, 1, 0]), Ok(Some(7)));
    /// assert_eq!(rack.shown_count(&[0, 0, 0, 0, 0, 0, NONE, 1, 0]), Ok(None));
    /// assert_eq!(rack.shown_count(&[7, 1, 0]), Err(Refusal::Records));
    /// # Ok::<(), tsendurkho::Refusal>(())
    /// ```
    pub fn shown_count(&self, record: &[u16]) -> Result<Option<u16>, Refusal> {
        if record.len() != self.record_words() {
            return Err(Refusal::Records);
        }
        // In a split group a comes after m0 m1 M0 M1 w0 w1; otherwise it is alone.
        let a = record[if self.shape.broken == 0 { 0 } else { 6 }];
        Ok(Some(a).filter(|&count| u32::from(count) < self.shape.modulus))
    }

    /// The lag of x against y: the number congruent to x - y modulo c that is above -c/2 and at
    /// most c/2 (RULES 8).
    ///
    /// Refusal: 9.
    ///
    /// ```
    /// # use tsendurkho::{Rack, Refusal, Shape};
    /// let rack = Rack::new(Shape { cards: 4, broken: 1, modulus: 8 })?;
    /// assert_eq!(rack.lag(1, 7), Ok(2));
    /// assert_eq!(rack.lag(7, 1), Ok(-2));
    /// assert_eq!(rack.lag(8, 0), Err(Refusal::Lag));
    /// # Ok::<(), tsendurkho::Refusal>(())
    /// ```
    pub fn lag(&self, x: u16, y: u16) -> Result<i32, Refusal> {
        let (c, x, y) = (self.shape.modulus, x.into(), y.into());
        Refusal::answered(archive::lag_refusal(c, x, y))?;
        Ok(archive::lag(c, x, y))
    }

    /// Whether the archive accepts the shape and this card number: given no records, which is
    /// never the needed number, it refuses them with 5, but only after testing 1, 2, 3 and 4
    /// (RULES 9.1).
    fn accepts(&self, number: u32) -> Result<(), Refusal> {
        match Refusal::answered(archive::step(self.shape, number, &[], &mut [])) {
            Err(Refusal::Records) => Ok(()),
            Err(refusal) => Err(refusal),
            Ok(()) => unreachable!("the contract allows no step without records"),
        }
    }

    /// A card's number, or n, which the archive refuses, if the card is not of this rack.
    fn number_of(&self, card: Card) -> u32 {
        if card.rack == *self {
            card.number
        } else {
            self.shape.cards
        }
    }
}
