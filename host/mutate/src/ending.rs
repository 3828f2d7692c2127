//! What becomes of a mutant.

use crate::equivalents::Equivalent;
use crate::mutant::Mutant;
use crate::prover::Verdict;

#[derive(Clone, Copy, Debug, PartialEq, Eq)]
pub enum Ending {
    Refused,
    /// It survived, and is listed.
    Equivalent,
    /// It survived, and is not listed.
    Unexplained,
    NoVerdict,
    NotAProgram,
}

impl Ending {
    pub fn of(verdict: Verdict, mutant: &Mutant, equivalents: &[Equivalent]) -> Ending {
        let name = mutant.lasting_name();
        match verdict {
            Verdict::Refused => Ending::Refused,
            Verdict::Survived if equivalents.iter().any(|listed| listed.name == name) => {
                Ending::Equivalent
            }
            Verdict::Survived => Ending::Unexplained,
            Verdict::NoVerdict => Ending::NoVerdict,
            Verdict::NotAProgram => Ending::NotAProgram,
        }
    }

    pub fn word(self) -> &'static str {
        match self {
            Ending::Refused => "refused",
            Ending::Equivalent => "equivalent",
            Ending::Unexplained => "SURVIVED",
            Ending::NoVerdict => "no verdict",
            Ending::NotAProgram => "not a program",
        }
    }
}
