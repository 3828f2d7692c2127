use std::error::Error;
use std::fmt;

/// Why a call is refused. The values are the numbers of RULES 9.1, and each is given exactly when
/// its words hold; a call returns the first that applies, in this order, and changes nothing.
#[derive(Clone, Copy, Debug, PartialEq, Eq, Hash)]
pub enum Refusal {
    /// n is 0 or above 16
    Cards = 1,
    /// f is above 5, or 3f is n or more
    Broken = 2,
    /// c is below 2 or above 65,535
    Modulus = 3,
    /// the card number is n or above, or the card is of another rack
    Card = 4,
    /// the records do not have the needed number of words
    Records = 5,
    /// the output buffer does not have exactly the needed length
    Output = 6,
    /// an input of a lag is c or above
    Lag = 9,
}

impl Refusal {
    /// The number that RULES 9.1 gives it.
    pub fn number(self) -> u32 {
        self as u32
    }

    /// What the archive answered: 0 when a call succeeds, else the refusal's number.
    pub(crate) fn answered(number: u32) -> Result<(), Refusal> {
        Err(match number {
            0 => return Ok(()),
            1 => Refusal::Cards,
            2 => Refusal::Broken,
            3 => Refusal::Modulus,
            4 => Refusal::Card,
            5 => Refusal::Records,
            6 => Refusal::Output,
            9 => Refusal::Lag,
            other => unreachable!("the contracts allow no refusal {other}"),
        })
    }
}

impl fmt::Display for Refusal {
    fn fmt(&self, formatter: &mut fmt::Formatter<'_>) -> fmt::Result {
        formatter.write_str(match self {
            Refusal::Cards => "n is 0 or above 16",
            Refusal::Broken => "f is above 5, or 3f is n or more",
            Refusal::Modulus => "c is below 2 or above 65,535",
            Refusal::Card => "the card number is n or above, or the card is of another rack",
            Refusal::Records => "the records do not have the needed number of words",
            Refusal::Output => "the output buffer does not have exactly the needed length",
            Refusal::Lag => "an input of a lag is c or above",
        })
    }
}

impl Error for Refusal {}
