//! The signed lag between two counts.

use crate::params::check_modulus;
use crate::refusal::Refusal;

/// RULES 8: "The lag of x against y is the number congruent to x - y modulo c that is above -c/2
/// and at most c/2." Tests only 3 and 9.
pub fn lag(c: u32, x: u32, y: u32) -> Result<i32, Refusal> {
    check_modulus(c)?;
    Refusal::LagInput.when(x >= c || y >= c)?;
    let ahead = (x + c - y) % c;
    let behind = c - ahead;
    Ok(if ahead <= behind {
        ahead as i32
    } else {
        -(behind as i32)
    })
}
