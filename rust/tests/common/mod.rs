//! What the tests share. `truth` and `tree` are two programs written apart from the library and from each other,
//! `order` is a third, for derivations, `spelling` a fourth, for spellings, and `clauses` a fifth, for clauses: each
//! reads the bytes in its own way.
#![allow(dead_code)] // each test file uses its own part

/// Letters are numbered from 0 to 63. The tests do not take this number from the library.
pub const LETTERS: u8 = 64;
const _: () = assert!(LETTERS as usize == gekunday::LETTERS);

/// From this letter on, letters have no bit in a state of 32 bits.
pub const HIGH: u8 = 32;

/// The letters of a state from `HIGH` on.
pub fn high_letters(state: u64) -> u64 {
    state >> HIGH << HIGH
}

/// Bytes in hexadecimal, parted by blanks.
pub fn hex(text: &str) -> Vec<u8> {
    text.split_whitespace().map(|byte| u8::from_str_radix(byte, 16).unwrap()).collect()
}

pub mod calls;
pub mod clauses;
pub mod examine;
pub mod order;
pub mod prng;
pub mod questions;
pub mod spelling;
pub mod tree;
pub mod truth;
