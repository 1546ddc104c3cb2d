//! At least 200,000 random questions, valid and damaged, short and up to the limits, against a truth table, a tree, a
//! spelling and a program for clauses, all written apart from the library. The seeds are fixed, so the numbers of
//! questions of each kind are, too.

mod common;

use common::examine::{examine, Seen};
use common::prng::Prng;
use common::questions::{almost_of_clauses, damaged, equiv_chains, many_letters, near_limits};
use common::questions::{of_clauses, repeated, short, theorem};
use common::LETTERS;

const SHORT: u64 = 80_000;
const THEOREMS: u64 = 30_000;
const NEAR_LIMITS: u64 = 20_000;
const MANY_LETTERS: u64 = 10_000;
const REPEATED: u64 = 40_000;
const DAMAGED: u64 = 90_000;
const OF_CLAUSES: u64 = 20_000;
const ALMOST: u64 = 10_000;

const _: () = assert!(SHORT + THEOREMS + NEAR_LIMITS + MANY_LETTERS + REPEATED + DAMAGED >= 200_000);

fn run(seed: u64, count: u64, limit: usize, make: impl Fn(&mut Prng) -> Vec<u8>) -> Seen {
    let mut rng = Prng::new(seed);
    let mut seen = Seen::default();
    for _ in 0..count {
        let bytes = make(&mut rng);
        examine(&bytes, &mut rng, limit, &mut seen);
    }
    assert_eq!(seen.questions, count);
    seen
}

#[test]
fn short_questions() {
    let seen = run(1, SHORT, 5_000, short);
    assert_eq!(seen.refused, [0; 8]);
    assert_eq!(seen.large, 0);
    assert_eq!((seen.tables, seen.listed), (SHORT, SHORT));
    assert!(seen.states > seen.refuted * 3 / 2, "{:?}", seen);
    assert!(seen.theorems > SHORT / 10 && seen.refuted > SHORT / 10, "{:?}", seen);
    assert!(seen.closings > SHORT / 2, "{:?}", seen);
    assert!(seen.respelled > SHORT / 2 && seen.shortened > SHORT / 10, "{:?}", seen);
    assert!(seen.clauses[0] > SHORT / 100 && seen.clauses[13] > SHORT / 2, "{:?}", seen);
    assert!(seen.clauses[14] > SHORT / 10 && seen.clauses[15] > SHORT / 1_000, "{:?}", seen);
    assert!(seen.high.questions > SHORT / 2 && seen.high.closings > SHORT / 4, "{:?}", seen);
    assert!(seen.high.refuting > seen.refuted / 3 && seen.high.listed > seen.states / 3, "{:?}", seen);
}

#[test]
fn theorems_by_construction() {
    let seen = run(2, THEOREMS, 2_000, |rng| theorem(rng, 12));
    assert_eq!(seen.refuted, 0);
    assert_eq!(seen.theorems + seen.large, THEOREMS);
    assert_eq!((seen.listed, seen.states), (THEOREMS, 0));
    assert!(seen.theorems > THEOREMS * 9 / 10, "{:?}", seen);
    assert!(seen.reductions > 20 * THEOREMS && seen.most_reductions > 1_000, "{:?}", seen);
    assert!(seen.high.questions > THEOREMS / 2 && seen.high.closings > 5 * THEOREMS, "{:?}", seen);
}

#[test]
fn questions_near_the_limits() {
    let seen = run(3, NEAR_LIMITS, 400, near_limits);
    assert_eq!(seen.refused, [0; 8]);
    assert!(seen.most_connectives > NEAR_LIMITS / 4, "{:?}", seen);
    assert!(seen.most_bytes > 0 && seen.most_formulas > NEAR_LIMITS / 4, "{:?}", seen);
    assert!(seen.theorems > NEAR_LIMITS / 10 && seen.refuted > NEAR_LIMITS / 10, "{:?}", seen);
    assert!(seen.large > NEAR_LIMITS / 100, "{:?}", seen);
    assert!(seen.tables > NEAR_LIMITS / 4, "{:?}", seen);
    assert!(seen.listed > NEAR_LIMITS / 4 && seen.states > NEAR_LIMITS / 4, "{:?}", seen);
    assert!(seen.many_letters > NEAR_LIMITS / 10 && seen.most_letters > 40, "{:?}", seen);
    assert!(seen.respelled > NEAR_LIMITS * 3 / 4 && seen.shortened > NEAR_LIMITS / 4, "{:?}", seen);
    assert!(seen.high.questions > NEAR_LIMITS / 2 && seen.high.closings > NEAR_LIMITS, "{:?}", seen);
    assert!(seen.high.refuting > seen.refuted / 2 && seen.high.listed > seen.states / 2, "{:?}", seen);
}

/// From 17 different letters to all 64.
#[test]
fn questions_with_many_letters() {
    let seen = run(9, MANY_LETTERS, 400, |rng| {
        let count = rng.within(17, LETTERS.into());
        many_letters(rng, count)
    });
    assert_eq!(seen.refused, [0; 8]);
    assert_eq!((seen.many_letters, seen.most_letters), (MANY_LETTERS, LETTERS.into()));
    assert_eq!(seen.high.refuting, seen.refuted);
    assert!(seen.theorems > MANY_LETTERS / 2 && seen.refuted > MANY_LETTERS / 20, "{:?}", seen);
    assert!(seen.high.closings > seen.theorems, "{:?}", seen);
}

/// Equal formulas with a connective meet on both sides, also where several could close, and where a letter does.
#[test]
fn formulas_on_both_sides() {
    let seen = run(8, REPEATED, 2_000, repeated);
    assert_eq!(seen.refused, [0; 8]);
    assert!(seen.theorems > REPEATED / 2 && seen.refuted > REPEATED / 5, "{:?}", seen);
    assert!(seen.most_connectives > 0 && seen.most_formulas > REPEATED / 10, "{:?}", seen);
    let equals = seen.equals;
    assert!(equals.closings > REPEATED && equals.later > REPEATED, "{:?}", seen);
    assert!(equals.over_0 > REPEATED / 2, "{:?}", seen);
    assert!(equals.more_left > REPEATED / 4 && equals.more_right > REPEATED / 4, "{:?}", seen);
    assert!(equals.letter_first > REPEATED / 10, "{:?}", seen);
    assert!(seen.respelled > REPEATED * 3 / 4 && seen.shortened > REPEATED / 2, "{:?}", seen);
    assert!(seen.high.questions > REPEATED / 2 && seen.high.closings > REPEATED, "{:?}", seen);
}

/// Whether the run refutes a question made of clauses alone, or proves it, the clauses' verdict is the same.
#[test]
fn questions_of_clauses() {
    let seen = run(10, OF_CLAUSES, 400, of_clauses);
    assert_eq!((seen.refused, seen.clauses[0]), ([0; 8], OF_CLAUSES));
    assert!(seen.theorems > OF_CLAUSES / 5 && seen.refuted > OF_CLAUSES / 5, "{:?}", seen);
    assert!(seen.most_connectives > 0 && seen.most_formulas > 0, "{:?}", seen);
    assert!(seen.listed > OF_CLAUSES / 2 && seen.many_letters > 0, "{:?}", seen);
}

#[test]
fn questions_almost_of_clauses() {
    let seen = run(11, ALMOST, 400, |rng| almost_of_clauses(rng).0);
    assert_eq!((seen.refused, seen.clauses[0]), ([0; 8], 0));
    assert!(seen.clauses[13..].iter().all(|&count| count > ALMOST / 10), "{:?}", seen);
}

#[test]
fn damaged_questions() {
    let seen = run(4, DAMAGED, 400, damaged);
    for number in 1..8 {
        assert!(seen.refused[number] > DAMAGED / 200, "{} is rare: {:?}", number, seen);
    }
    assert!(seen.theorems + seen.refuted > DAMAGED / 30, "{:?}", seen);
    assert!(seen.listed > DAMAGED / 30 && seen.many_letters > DAMAGED / 1_000, "{:?}", seen);
    assert!(seen.respelled > DAMAGED / 30 && seen.shortened > DAMAGED / 100, "{:?}", seen);
    assert!(seen.high.questions > DAMAGED / 30 && seen.high.closings > DAMAGED / 30, "{:?}", seen);
}

/// Large trees, whole.
#[test]
fn large_trees() {
    let mut seen = Seen::default();
    for letters in 2..=10 {
        examine(&equiv_chains(letters), &mut Prng::new(5), 100_000, &mut seen);
    }
    assert_eq!((seen.theorems, seen.tables, seen.listed), (9, 9, 9));
    assert!(seen.most_reductions > 10_000, "{:?}", seen);
}

/// A question whose width is as large as a width gets: 2 to the power 48.
#[test]
fn the_largest_width() {
    // EQUIV alone makes a width of 2 to the power of the connectives; here on 16 formulas.
    let mut bytes = vec![0x10, 16];
    for _ in 0..16 {
        bytes.extend([6, 6, 6, 1, 0, 1, 0, 1, 0, 1, 0]);
    }
    bytes.extend([0x20, 0]);
    assert_eq!(common::calls::width(&bytes), (0, [1 << 48, 48]));
    let mut seen = Seen::default();
    examine(&bytes, &mut Prng::new(6), 1_000, &mut seen);
    let size = gekunday::width(&bytes).unwrap();
    assert_eq!(size.reductions_bound(), 48 << 48);
    assert_eq!(size.derivation_bound(), 98 << 48);

    // One formula of that width, on either side.
    let one = [&[6; 48][..], &[1, 0].repeat(49)].concat();
    for question in [[&[0x10, 1][..], &one, &[0x20, 0]].concat(), [&[0x10, 0, 0x20, 1][..], &one].concat()] {
        assert_eq!(common::calls::width(&question), (0, [1 << 48, 48]));
        examine(&question, &mut Prng::new(7), 1_000, &mut seen);
    }
}
