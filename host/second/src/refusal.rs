//! The numbers for what is refused.

use std::fmt;

/// Why a call is refused; the values are the numbers of RULES 9.1.
#[derive(Clone, Copy, Debug, PartialEq, Eq)]
pub enum Refusal {
    CardCount = 1,
    BrokenAllowance = 2,
    Modulus = 3,
    CardNumber = 4,
    Records = 5,
    OutputLength = 6,
    BrokenSet = 7,
    BrokenWords = 8,
    LagInput = 9,
    Text = 10,
    BeatNumber = 11,
}

impl Refusal {
    /// The rows of the table of RULES 9.1: "They are tested in this order".
    pub const TABLE: [Refusal; 11] = [
        Refusal::CardCount,
        Refusal::BrokenAllowance,
        Refusal::Modulus,
        Refusal::BrokenSet,
        Refusal::CardNumber,
        Refusal::Records,
        Refusal::BrokenWords,
        Refusal::OutputLength,
        Refusal::LagInput,
        Refusal::Text,
        Refusal::BeatNumber,
    ];

    /// The number that RULES 9.1 gives it, 1 to 11.
    pub fn number(self) -> u8 {
        self as u8
    }

    /// Refuses exactly when the condition holds.
    pub fn when(self, condition: bool) -> Result<(), Refusal> {
        if condition {
            Err(self)
        } else {
            Ok(())
        }
    }
}

impl fmt::Display for Refusal {
    fn fmt(&self, formatter: &mut fmt::Formatter<'_>) -> fmt::Result {
        formatter.write_str(match self {
            Refusal::CardCount => "n is 0 or above 16",
            Refusal::BrokenAllowance => "f is above 5, or 3f is n or more",
            Refusal::Modulus => "c is below 2 or above 65,535",
            Refusal::CardNumber => "the card number is n or above",
            Refusal::Records => "the records do not have the needed number of words",
            Refusal::OutputLength => "the output buffer does not have exactly the needed length",
            Refusal::BrokenSet => "the broken set names a card at or above n, or more than f cards",
            Refusal::BrokenWords => "the number of the broken cards' words is not n·(broken)·W",
            Refusal::LagInput => "an input of a lag is c or above",
            Refusal::Text => "a text has a wrong length or character, or a wanted line is missing",
            Refusal::BeatNumber => "the beat number is not the next one",
        })
    }
}

impl std::error::Error for Refusal {}
