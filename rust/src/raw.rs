//! The C interface, as `include/gekunday.h` declares it. The comments there say what each call answers.

extern "C" {
    /// 0: `out` = {0 theorem or 1 refuted, state, reductions, closings}; 9: {0, 0, reductions, closings};
    /// 1 to 7: {place}.
    ///
    /// # Safety
    /// `question` is good for reading `length` bytes, `out` for writing 4 words.
    pub fn gekunday_decide(question: *const u8, length: usize, budget: u64, out: *mut u64) -> u32;

    /// 0: `out` = {W, c}; 1 to 7: {place}.
    ///
    /// # Safety
    /// `question` is good for reading `length` bytes, `out` for writing 2 words.
    pub fn gekunday_width(question: *const u8, length: usize, out: *mut u64) -> u32;

    /// Always 0: `out` = {where the formula's bytes start, how many}; {0, 0} where refused, no such place or side.
    ///
    /// # Safety
    /// `question` is good for reading `length` bytes, `out` for writing 2 words.
    pub fn gekunday_formula(question: *const u8, length: usize, side: u32, place: usize, out: *mut u64) -> u32;

    /// 0: `out` = {length, reductions, closings}; 9: {reductions, closings}; 10: {state, reductions, closings};
    /// 11: {length needed}; 1 to 7: {place}.
    ///
    /// # Safety
    /// `question` is good for reading `length` bytes, `buffer` for writing `room` bytes that are not the question's,
    /// `out` for writing 3 words.
    pub fn gekunday_derive(
        question: *const u8,
        length: usize,
        budget: u64,
        buffer: *mut u8,
        room: usize,
        out: *mut u64,
    ) -> u32;

    /// 0: it passes; 1 to 7, 20 to 26: {place}.
    ///
    /// # Safety
    /// `question` is good for reading `length` bytes, `derivation` for `derivation_length`, `out` for writing 1 word.
    pub fn gekunday_check(
        question: *const u8,
        length: usize,
        derivation: *const u8,
        derivation_length: usize,
        out: *mut u64,
    ) -> u32;

    /// 0: `out` = {number of states}; 12: {number of different letters}; 11: {number of states}; 1 to 7: {place}.
    ///
    /// # Safety
    /// `question` is good for reading `length` bytes, `states` for writing `room` numbers that share no byte with the
    /// question, `out` for writing 1 word.
    pub fn gekunday_states(question: *const u8, length: usize, states: *mut u64, room: usize, out: *mut u64) -> u32;

    /// 0: `out` = {length}; 11: {length needed}; 1 to 7: {place}.
    ///
    /// # Safety
    /// `question` is good for reading `length` bytes, `buffer` for writing `room` bytes that are not the question's,
    /// `out` for writing 1 word.
    pub fn gekunday_spell(question: *const u8, length: usize, buffer: *mut u8, room: usize, out: *mut u64) -> u32;

    /// 0: `out` = {0 theorem or 1 refuted, state, rounds}; 13, 14, 15: {place}; 1 to 7: {place}.
    ///
    /// # Safety
    /// `question` is good for reading `length` bytes, `out` for writing 3 words.
    pub fn gekunday_clauses(question: *const u8, length: usize, out: *mut u64) -> u32;
}
