//! The eight calls by their C interface. Each call is watched: the question and the derivation lie between bytes of a
//! pattern and are compared afterwards; `out` lies between words of a pattern and is full of it before the call; a
//! lent buffer lies between bytes of a pattern and is full of it, and keeps it wherever no derivation or spelling was
//! written; the slice for states likewise, wherever no state was listed.

use gekunday::raw;

const EDGE: usize = 24;
const WORD: u64 = 0xdead_beef_0bad_cafe;

/// Bytes lent for reading, between bytes of a pattern.
struct Lent {
    arena: Vec<u8>,
    copy: Vec<u8>,
}

impl Lent {
    fn new(bytes: &[u8]) -> Lent {
        let mut arena = Vec::with_capacity(bytes.len() + 2 * EDGE);
        // A formula that would go on past the end finds more commands there, not zeros.
        arena.extend((0..EDGE).map(|i| (i % 7) as u8));
        arena.extend(bytes);
        arena.extend((0..EDGE).map(|i| 1 + (i % 3) as u8));
        let copy = arena.clone();
        Lent { arena, copy }
    }

    fn start(&mut self) -> *const u8 {
        // From a pointer for writing, so that a call that wrote would be seen.
        self.arena[EDGE..].as_mut_ptr()
    }

    fn check(&self) {
        assert_eq!(self.arena, self.copy, "a call changed bytes lent for reading");
    }
}

/// A buffer lent for writing, full of a pattern and between bytes of it.
struct Buffer {
    arena: Vec<u8>,
    room: usize,
}

impl Buffer {
    fn pattern(i: usize) -> u8 {
        0xa5 ^ (i as u8).wrapping_mul(29)
    }

    fn new(room: usize) -> Buffer {
        Buffer { arena: (0..room + 2 * EDGE).map(Buffer::pattern).collect(), room }
    }

    fn start(&mut self) -> *mut u8 {
        self.arena[EDGE..].as_mut_ptr()
    }

    /// The bytes written: under 0 as many as the first word says. All others are as they were.
    fn written(&self, number: u32, words: &[u64]) -> Vec<u8> {
        let length = if number == 0 { words[0] as usize } else { 0 };
        assert!(length <= self.room, "more bytes written than the buffer has");
        for (i, &byte) in self.arena.iter().enumerate() {
            if i < EDGE || i >= EDGE + length {
                let room = self.room;
                assert_eq!(byte, Buffer::pattern(i), "byte {i} of a buffer with room {room} changed under {number}");
            }
        }
        self.arena[EDGE..EDGE + length].to_vec()
    }
}

fn with_out<const N: usize>(call: impl FnOnce(*mut u64) -> u32) -> (u32, [u64; N]) {
    let mut words = [WORD; 8];
    let number = call(words[2..].as_mut_ptr());
    assert!(words[..2] == [WORD; 2] && words[2 + N..].iter().all(|&word| word == WORD), "a call wrote beside out");
    (number, words[2..2 + N].try_into().unwrap())
}

pub fn decide(question: &[u8], budget: u64) -> (u32, [u64; 4]) {
    let mut lent = Lent::new(question);
    let answer = with_out(|out| unsafe { raw::gekunday_decide(lent.start(), question.len(), budget, out) });
    lent.check();
    answer
}

pub fn width(question: &[u8]) -> (u32, [u64; 2]) {
    let mut lent = Lent::new(question);
    let answer = with_out(|out| unsafe { raw::gekunday_width(lent.start(), question.len(), out) });
    lent.check();
    answer
}

pub fn formula(question: &[u8], side: u32, place: usize) -> (u32, [u64; 2]) {
    let mut lent = Lent::new(question);
    let answer = with_out(|out| unsafe { raw::gekunday_formula(lent.start(), question.len(), side, place, out) });
    lent.check();
    answer
}

/// Number, words and, under 0, the derivation that was written.
pub fn derive(question: &[u8], budget: u64, room: usize) -> (u32, [u64; 3], Vec<u8>) {
    let mut lent = Lent::new(question);
    let mut buffer = Buffer::new(room);
    let (number, words) = with_out::<3>(|out| unsafe {
        raw::gekunday_derive(lent.start(), question.len(), budget, buffer.start(), room, out)
    });
    lent.check();
    (number, words, buffer.written(number, &words))
}

pub fn check(question: &[u8], derivation: &[u8]) -> (u32, [u64; 1]) {
    let mut lent = Lent::new(question);
    let mut lent_derivation = Lent::new(derivation);
    let answer = with_out(|out| unsafe {
        raw::gekunday_check(lent.start(), question.len(), lent_derivation.start(), derivation.len(), out)
    });
    lent.check();
    lent_derivation.check();
    answer
}

/// Number, word and, under 0, the states that were listed.
pub fn states(question: &[u8], room: usize) -> (u32, [u64; 1], Vec<u64>) {
    let pattern = |i: usize| 0xa5c3_960f_1e78_d24b ^ (i as u64).wrapping_mul(0x9e37_79b9_7f4a_7c15);
    let mut lent = Lent::new(question);
    let mut arena: Vec<u64> = (0..room + 2 * EDGE).map(pattern).collect();
    let start = arena[EDGE..].as_mut_ptr();
    let (number, words) =
        with_out::<1>(|out| unsafe { raw::gekunday_states(lent.start(), question.len(), start, room, out) });
    lent.check();
    let length = if number == 0 { words[0] as usize } else { 0 };
    assert!(length <= room, "a list longer than the slice");
    for (i, &state) in arena.iter().enumerate() {
        if i < EDGE || i >= EDGE + length {
            assert_eq!(state, pattern(i), "place {} of a slice with room {} changed under {}", i, room, number);
        }
    }
    (number, words, arena[EDGE..EDGE + length].to_vec())
}

/// Number, word and, under 0, the spelling that was written.
pub fn spell(question: &[u8], room: usize) -> (u32, [u64; 1], Vec<u8>) {
    let mut lent = Lent::new(question);
    let mut buffer = Buffer::new(room);
    let (number, words) =
        with_out::<1>(|out| unsafe { raw::gekunday_spell(lent.start(), question.len(), buffer.start(), room, out) });
    lent.check();
    (number, words, buffer.written(number, &words))
}

pub fn clauses(question: &[u8]) -> (u32, [u64; 3]) {
    let mut lent = Lent::new(question);
    let answer = with_out(|out| unsafe { raw::gekunday_clauses(lent.start(), question.len(), out) });
    lent.check();
    answer
}
