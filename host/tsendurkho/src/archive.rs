//! The functions of the proved archive, as include/tsendurkho.h declares them. All unsafe code
//! of this crate is here.

use std::mem::size_of_val;
use std::slice;

use crate::Shape;

#[cfg(not(target_endian = "little"))]
compile_error!("the archive reads and writes words with the low byte first");

mod declared {
    extern "C" {
        pub fn tsendurkho_step(
            n: u32,
            f: u32,
            c: u32,
            card: u32,
            records: *const u8,
            records_len: usize,
            out: *mut u8,
            out_len: usize,
        ) -> u32;
        pub fn tsendurkho_lag_refusal(c: u32, x: u32, y: u32) -> u32;
        pub fn tsendurkho_lag(c: u32, x: u32, y: u32) -> i32;
    }
}

/// The step's refusal, or 0.
pub fn step(shape: Shape, card: u32, heard: &[u8], next: &mut [u8]) -> u32 {
    // Sound, because the two slices are valid for their lengths and, `next` being borrowed
    // alone, do not overlap. The proof asks nothing else: every other input is tested.
    unsafe {
        declared::tsendurkho_step(
            shape.cards,
            shape.broken,
            shape.modulus,
            card,
            heard.as_ptr(),
            heard.len(),
            next.as_mut_ptr(),
            next.len(),
        )
    }
}

/// The same on words, which are in memory as their bytes: the low byte comes first.
pub fn step_words(shape: Shape, card: u32, heard: &[u16], next: &mut [u16]) -> u32 {
    // Sound, because each slice becomes the bytes of just itself, borrowed as before; a byte
    // needs no alignment, and any bytes are words.
    let (heard, next) = unsafe {
        (
            slice::from_raw_parts(heard.as_ptr().cast(), size_of_val(heard)),
            slice::from_raw_parts_mut(next.as_mut_ptr().cast(), size_of_val(next)),
        )
    };
    step(shape, card, heard, next)
}

/// The lag's refusal, or 0.
pub fn lag_refusal(c: u32, x: u32, y: u32) -> u32 {
    // Sound for all numbers: the proof asks nothing of them.
    unsafe { declared::tsendurkho_lag_refusal(c, x, y) }
}

/// The lag, 0 where it is refused.
pub fn lag(c: u32, x: u32, y: u32) -> i32 {
    // Sound for all numbers: the proof asks nothing of them.
    unsafe { declared::tsendurkho_lag(c, x, y) }
}
