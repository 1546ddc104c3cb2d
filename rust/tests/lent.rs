//! Lent bytes at the edge of memory, and lengths over 32 bits. (That a refused call leaves each lent byte alone is
//! watched where the other tests call the library: see `common/calls.rs`.)
#![cfg(all(target_os = "linux", target_pointer_width = "64"))]

mod common;

use common::prng::Prng;
use common::{clauses, order, questions, spelling, tree, truth};
use gekunday::raw;
use std::ffi::{c_int, c_long, c_void};

extern "C" {
    fn mmap(
        at: *mut c_void,
        length: usize,
        protection: c_int,
        flags: c_int,
        file: c_int,
        offset: c_long,
    ) -> *mut c_void;
    fn mprotect(at: *mut c_void, length: usize, protection: c_int) -> c_int;
    fn munmap(at: *mut c_void, length: usize) -> c_int;
}

const NONE: c_int = 0;
const READ: c_int = 1;
const READ_WRITE: c_int = 3;
const PRIVATE_ANONYMOUS_NORESERVE: c_int = 0x2 | 0x20 | 0x4000;
const PAGE: usize = 0x10000;

/// Zero bytes of the system's own, given back at the end.
struct Mapped {
    start: *mut u8,
    length: usize,
}

impl Mapped {
    fn new(length: usize, protection: c_int) -> Mapped {
        let start =
            unsafe { mmap(std::ptr::null_mut(), length, protection, PRIVATE_ANONYMOUS_NORESERVE, -1, 0) }.cast::<u8>();
        assert_ne!(start as isize, -1, "mmap");
        Mapped { start, length }
    }
}

impl Drop for Mapped {
    fn drop(&mut self) {
        unsafe { munmap(self.start.cast(), self.length) };
    }
}

/// A page between two that may not be touched.
struct Fenced(Mapped);

impl Fenced {
    fn new() -> Fenced {
        let pages = Mapped::new(3 * PAGE, NONE);
        assert_eq!(unsafe { mprotect(pages.start.add(PAGE).cast(), PAGE, READ_WRITE) }, 0);
        Fenced(pages)
    }

    /// Puts bytes at the page's end or start, so that the next byte or the one before may not be touched.
    fn put(&mut self, bytes: &[u8], at_end: bool) -> *mut u8 {
        assert!(bytes.len() <= PAGE);
        let offset = if at_end { PAGE - bytes.len() } else { 0 };
        let start = unsafe { self.0.start.add(PAGE + offset) };
        unsafe { std::ptr::copy_nonoverlapping(bytes.as_ptr(), start, bytes.len()) };
        start
    }
}

/// No call touches a byte beside the lent ones: it would fault.
#[test]
fn no_call_goes_beyond_the_lent_bytes() {
    let mut rng = Prng::new(21);
    let (mut for_question, mut for_buffer) = (Fenced::new(), Fenced::new());
    for round in 0..40_000 {
        let bytes = match rng.below(5) {
            0 => questions::short(&mut rng),
            1 => questions::theorem(&mut rng, 8),
            2 => questions::repeated(&mut rng),
            _ => questions::damaged(&mut rng),
        };
        let at_end = round % 4 != 0;
        let question = for_question.put(&bytes, at_end).cast_const();
        let mut out = [0; 4];
        let words = out.as_mut_ptr();
        let place = rng.below(18);
        unsafe {
            raw::gekunday_decide(question, bytes.len(), 300, words);
            raw::gekunday_width(question, bytes.len(), words);
            raw::gekunday_formula(question, bytes.len(), (round % 3) as u32, place, words);
        }
        let Ok(read) = tree::read(&bytes) else { continue };
        let tree = read.tree(300);
        if tree.end != tree::End::Theorem {
            continue;
        }
        let length = tree.derivation.len();
        for room in [length, length - 1, 0] {
            let buffer = for_buffer.put(&vec![0; room], at_end);
            let number =
                unsafe { raw::gekunday_derive(question, bytes.len(), u64::MAX, buffer, room, out.as_mut_ptr()) };
            assert_eq!(number, if room == length { 0 } else { 11 });
        }
        let cut = rng.below(length + 1);
        for derivation in [&tree.derivation[..], &tree.derivation[..cut], &tree.derivation[..length - 1]] {
            let lent = for_buffer.put(derivation, at_end);
            let number =
                unsafe { raw::gekunday_check(question, bytes.len(), lent, derivation.len(), out.as_mut_ptr()) };
            assert_eq!((number, out[0]), order::check(&bytes, derivation));
        }
    }
}

/// Nor does the call that lists states touch a place beside the lent ones.
#[test]
fn no_list_goes_beyond_the_lent_places() {
    let mut rng = Prng::new(22);
    let (mut for_question, mut for_states) = (Fenced::new(), Fenced::new());
    let mut numbers = [0u64; 13];
    for round in 0..30_000 {
        let bytes = match rng.below(4) {
            0 | 1 => questions::short(&mut rng),
            2 => questions::near_limits(&mut rng),
            _ => questions::damaged(&mut rng),
        };
        // Long lists are in `states.rs`; some would take more than a page.
        if truth::read(&bytes).is_ok_and(|table| (11..=16).contains(&table.letters().len())) {
            continue;
        }
        let at_end = round % 4 != 0;
        let question = for_question.put(&bytes, at_end).cast_const();
        let length = truth::states(&bytes, usize::MAX).2.len();
        for room in [0, length.saturating_sub(1), length, length + 3] {
            let start = for_states.put(&vec![0xa5; 8 * room], at_end).cast::<u64>();
            let mut out = [7; 1];
            let number = unsafe { raw::gekunday_states(question, bytes.len(), start, room, out.as_mut_ptr()) };
            let (due, word, states) = truth::states(&bytes, room);
            assert_eq!((number, out), (due, word), "{:02x?} with room {}", bytes, room);
            let lent = unsafe { std::slice::from_raw_parts(start, room) };
            assert_eq!(lent[..states.len()], states);
            let kept = lent[states.len()..].iter().all(|&state| state == 0xa5a5_a5a5_a5a5_a5a5);
            assert!(kept, "{:02x?}: {}", bytes, room);
            numbers[number as usize] += 1;
        }
    }
    for number in [0, 2, 3, 11, 12] {
        assert!(numbers[number] > 1_000, "{} is rare: {:?}", number, numbers);
    }
}

/// Nor does the call that spells touch a byte beside the lent ones.
#[test]
fn no_spelling_goes_beyond_the_lent_bytes() {
    let mut rng = Prng::new(23);
    let (mut for_question, mut for_buffer) = (Fenced::new(), Fenced::new());
    let mut numbers = [0u64; 12];
    for round in 0..30_000 {
        let bytes = match rng.below(6) {
            0 => questions::short(&mut rng),
            1 => questions::near_limits(&mut rng),
            2 | 3 => questions::repeated(&mut rng),
            _ => questions::damaged(&mut rng),
        };
        let at_end = round % 4 != 0;
        let question = for_question.put(&bytes, at_end).cast_const();
        let length = spelling::spell(&bytes, usize::MAX).2.len();
        for room in [0, length.saturating_sub(1), length, length + 3] {
            let start = for_buffer.put(&vec![0xa5; room], at_end);
            let mut out = [7; 1];
            let number = unsafe { raw::gekunday_spell(question, bytes.len(), start, room, out.as_mut_ptr()) };
            let (due, word, written) = spelling::spell(&bytes, room);
            assert_eq!((number, out), (due, word), "{:02x?} with room {}", bytes, room);
            let lent = unsafe { std::slice::from_raw_parts(start, room) };
            assert_eq!(lent[..written.len()], written);
            assert!(lent[written.len()..].iter().all(|&byte| byte == 0xa5), "{:02x?}: {}", bytes, room);
            numbers[number as usize] += 1;
        }
    }
    for number in [0, 1, 2, 3, 4, 5, 6, 7, 11] {
        assert!(numbers[number] > 500, "{} is rare: {:?}", number, numbers);
    }
}

/// Nor does the call that decides clauses touch a byte beside the question's.
#[test]
fn no_clause_goes_beyond_the_lent_bytes() {
    let mut rng = Prng::new(24);
    let mut for_question = Fenced::new();
    let mut numbers = [0u64; 16];
    for round in 0..60_000 {
        let mut bytes = match rng.below(4) {
            0 => questions::damaged(&mut rng),
            1 => questions::almost_of_clauses(&mut rng).0,
            _ => questions::of_clauses(&mut rng),
        };
        if rng.chance(20) {
            bytes.truncate(rng.below(bytes.len()));
        }
        let question = for_question.put(&bytes, round % 4 != 0).cast_const();
        let mut out = [7; 3];
        let number = unsafe { raw::gekunday_clauses(question, bytes.len(), out.as_mut_ptr()) };
        assert_eq!((number, out), clauses::clauses(&bytes), "{:02x?}", bytes);
        let kept = unsafe { std::slice::from_raw_parts(question, bytes.len()) };
        assert_eq!(kept, bytes);
        numbers[number as usize] += 1;
    }
    for number in [0, 1, 2, 3, 4, 5, 6, 7, 13, 14, 15] {
        assert!(numbers[number] > 100, "{} is rare: {:?}", number, numbers);
    }
}

/// Lengths, rooms and derivation lengths of 2 to the power 32 and a little more are not taken for small ones. The pages
/// are never touched, so they take no memory.
#[test]
fn lengths_over_32_bits() {
    let large = (1usize << 32) + 4;
    let zeros = Mapped::new(large, READ);
    let mut out = [7; 4];
    let words = out.as_mut_ptr();
    unsafe {
        assert_eq!(raw::gekunday_decide(zeros.start, large, 9, words), 1);
        assert_eq!(out, [212, 0, 0, 0]);
        assert_eq!(raw::gekunday_width(zeros.start, large, out.as_mut_ptr()), 1);
        assert_eq!(raw::gekunday_formula(zeros.start, large, 0, 0, out.as_mut_ptr()), 0);
        assert_eq!(out[..2], [0, 0]);
        let mut buffer = [3; 8];
        assert_eq!(raw::gekunday_derive(zeros.start, large, 9, buffer.as_mut_ptr(), 8, out.as_mut_ptr()), 1);
        assert_eq!(buffer, [3; 8]);
        assert_eq!(raw::gekunday_check(zeros.start, large, buffer.as_ptr(), 8, out.as_mut_ptr()), 1);
        let mut states = [3; 8];
        out[0] = 7;
        assert_eq!(raw::gekunday_states(zeros.start, large, states.as_mut_ptr(), 8, out.as_mut_ptr()), 1);
        assert_eq!((states, out[0]), ([3; 8], 212));
        assert_eq!(raw::gekunday_clauses(zeros.start, large, out.as_mut_ptr()), 1);
        assert_eq!(out[..3], [212, 0, 0]);
    }
    drop(zeros);

    let room = 1usize << 32;
    let buffer = Mapped::new(room, READ_WRITE);
    let question = [0x10, 1, 1, 0, 0x20, 1, 1, 0];
    unsafe {
        let number = raw::gekunday_derive(question.as_ptr(), question.len(), 9, buffer.start, room, out.as_mut_ptr());
        assert_eq!((number, &out[..3]), (0, &[2, 0, 1][..]));
        let written = std::slice::from_raw_parts(buffer.start, 4);
        assert_eq!(written, [0x41, 0, 0, 0]);
        let number = raw::gekunday_check(question.as_ptr(), question.len(), buffer.start, room, out.as_mut_ptr());
        assert_eq!((number, out[0]), (25, 2));
        let number = raw::gekunday_check(question.as_ptr(), question.len(), buffer.start, 2, out.as_mut_ptr());
        assert_eq!((number, out[0]), (0, 0));
    }
}

/// A room of 2 to the power 32 is not taken for 0.
#[test]
fn a_room_over_32_bits_for_states() {
    let room = 1usize << 32;
    let buffer = Mapped::new(8 * room, READ_WRITE);
    let states = buffer.start.cast::<u64>();
    // P OR Q on the left.
    let question = [0x10, 1, 4, 1, 0, 1, 1, 0x20, 0];
    let mut out = [7; 1];
    unsafe {
        let number = raw::gekunday_states(question.as_ptr(), question.len(), states, room, out.as_mut_ptr());
        assert_eq!((number, out), (0, [3]));
        assert_eq!(std::slice::from_raw_parts(states, 5), [1, 2, 3, 0, 0]);
    }
}

/// The same for spellings, and a length of 2 to the power 32 and a little more.
#[test]
fn a_length_and_a_room_over_32_bits_for_spellings() {
    let large = (1usize << 32) + 4;
    let buffer = Mapped::new(large, READ_WRITE);
    let mut out = [7; 1];
    // Q and P on the left.
    let question = [0x10, 2, 1, 1, 1, 0, 0x20, 0];
    unsafe {
        let number = raw::gekunday_spell(question.as_ptr(), question.len(), buffer.start, large - 4, out.as_mut_ptr());
        assert_eq!((number, out), (0, [8]));
        assert_eq!(std::slice::from_raw_parts(buffer.start, 10), [0x10, 2, 1, 0, 1, 1, 0x20, 0, 0, 0]);

        // The first four bytes of the large slice are a question by themselves.
        std::ptr::copy_nonoverlapping([0x10, 0, 0x20, 0].as_ptr(), buffer.start, 4);
        let mut short = [3; 8];
        let number = raw::gekunday_spell(buffer.start, large, short.as_mut_ptr(), 8, out.as_mut_ptr());
        assert_eq!((number, out, short), (1, [212], [3; 8]));
    }
}
