//! What f alone decides.

/// W, the words in a record: 8 times the number of binary digits of f, plus 1 (RULES 2.2).
///
/// It is defined for any f; [`Rack::new`](crate::Rack::new) says whether a rack may have that f.
///
/// ```
/// assert_eq!([0, 1, 2, 3, 4, 5].map(tsendurkho::record_words), [1, 9, 17, 17, 25, 25]);
/// ```
pub const fn record_words(f: u32) -> usize {
    let binary_digits = u32::BITS - f.leading_zeros();
    8 * binary_digits as usize + 1
}

/// T(f), the beats after which all sound cards show the same count: T(0) = 1, and
/// T(f) = T(f/2) + 2 + 21t, where t = 3(f+2) (RULES 2.2 and 13).
///
/// It is defined for any f; [`Rack::new`](crate::Rack::new) says whether a rack may have that f.
///
/// ```
/// assert_eq!([0, 1, 2, 3, 4, 5].map(tsendurkho::settle_beats), [1, 192, 446, 509, 826, 889]);
/// ```
pub const fn settle_beats(f: u32) -> u64 {
    if f == 0 {
        return 1;
    }
    let t = 3 * (f as u64 + 2);
    settle_beats(f / 2) + 2 + 21 * t
}
